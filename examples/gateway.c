/* A small gateway over the library: it keeps a book of 64 open and 100 finished records, lets two members
   move money, and answers the question "why does your book say that the transfer was aborted?".

       gateway           the whole story, with the book in the program's own memory
       gateway FILE      the same with the book in a mapped file: the first run begins it and stops in the
                         middle, the next run goes on where the book is

   Build it with: cc gateway.c $(pkg-config --cflags --libs vaikshurd) */
#define _POSIX_C_SOURCE 200809L
#include <vaikshurd.h>

#include <fcntl.h>
#include <stdio.h>
#include <stdlib.h>
#include <string.h>
#include <sys/mman.h>
#include <sys/stat.h>
#include <unistd.h>

#define OPEN_LENGTH (64 * VAIK_RECORD_LENGTH)
#define FINISHED_LENGTH (100 * VAIK_RECORD_LENGTH)
#define BOOK_LENGTH (VAIK_HEAD_LENGTH + OPEN_LENGTH + FINISHED_LENGTH)

/* The head and both books, one behind the other: all that a switch has to keep. */
static uint8_t *book;

/* How the book is lent to every call: three slices, each a pointer and a length. */
#define LENT_BOOK                                                                                            \
    book, VAIK_HEAD_LENGTH, book + VAIK_HEAD_LENGTH, OPEN_LENGTH, book + VAIK_HEAD_LENGTH + OPEN_LENGTH, FINISHED_LENGTH
#define TEXT(s) (const uint8_t *)(s), strlen(s)

#define FIRST "00000000-0000-4000-8000-000000000001"
#define SECOND "00000000-0000-4000-8000-000000000002"
#define THIRD "00000000-0000-4000-8000-000000000003"
#define START "2024-01-01T00:00:00.000Z"
#define EXPIRATION "2024-01-01T00:01:00.000Z"
#define LATER "2024-01-01T00:02:00.000Z"

/* Thirty-two zero bytes, the secret that the payee gives away to be paid, and its SHA-256. */
#define FULFILMENT "AAAAAAAAAAAAAAAAAAAAAAAAAAAAAAAAAAAAAAAAAAA"
#define CONDITION "Zmh6rfhivXdsj8GLjp-OIAiXFIVu4jOzkCpZHQ1fKSU"

/* ---- what a member is told ---- */

static const char *meaning(uint32_t number)
{
    switch (number) {
    case VAIK_DONE: return "done";
    case VAIK_NOT_IN_FORM: return "a field is not in form";
    case VAIK_EXPIRED: return "it has expired";
    case VAIK_CAP_PASSED: return "the payer's cap would be passed";
    case VAIK_UNKNOWN_ID: return "no such transfer";
    case VAIK_ENDED_ANOTHER_WAY: return "it has ended another way";
    case VAIK_NO_MATCH: return "the fulfilment doesn't match";
    case VAIK_CLOCK_GOES_BACK: return "the clock would go back";
    case VAIK_OUT_OF_SHAPE: return "the book is damaged or not opened";
    case VAIK_RESEND: return "a resend, nothing to do";
    default: return "refused";
    }
}

static void told(const char *who, const char *asks, uint64_t answer)
{
    printf("  %-6s %-32s %2u %4u  %s", who, asks, vaik_number_of(answer), vaik_code_of(answer), meaning(vaik_number_of(answer)));
    if (vaik_mark_of(answer) != 0)
        printf(" (transfer %u)", vaik_mark_of(answer));
    printf("\n");
}

/* ---- the calls, with the texts as they came in ---- */

static void join(const char *name, const char *cap)
{
    told(name, "join", vaik_join(LENT_BOOK, TEXT(name), TEXT(cap)));
}

static void prepare(const char *asks, const char *id, const char *amount)
{
    told("alpha", asks,
         vaik_prepare(LENT_BOOK, TEXT(id), TEXT("alpha"), TEXT("beta"), TEXT("XTS"), TEXT(amount), TEXT(CONDITION),
                      TEXT(EXPIRATION), TEXT("AQ")));
}

static void fulfil(const char *asks, const char *id)
{
    told("beta", asks, vaik_fulfil(LENT_BOOK, TEXT("beta"), TEXT(id), TEXT(FULFILMENT)));
}

static void sweep(const char *instant)
{
    uint8_t list[64 * VAIK_LIST_PLACE];
    uint64_t answer = vaik_time(LENT_BOOK, list, sizeof list, TEXT(instant));
    uint32_t expired = vaik_number_of(answer) == VAIK_DONE ? vaik_mark_of(answer) : 0;
    printf("  switch time %s    %2u %4u  %s, %u expired", instant, vaik_number_of(answer), vaik_code_of(answer),
           meaning(vaik_number_of(answer)), expired);
    for (uint32_t k = 0; k < expired; k++)
        printf("%s %u", k == 0 ? ": transfer" : ",", (uint32_t)vaik_number_at(list, k * VAIK_LIST_PLACE, VAIK_LIST_PLACE));
    printf("\n");
}

/* ---- what the book says of a transfer ---- */

static void print_amount(uint64_t units, uint16_t remainder)
{
    char text[VAIK_AMOUNT_TEXT];
    uint64_t written = vaik_write_amount(units, remainder, (uint8_t *)text, sizeof text);
    printf("%.*s", (int)vaik_mark_of(written), text);
}

static void print_name(size_t account)
{
    const uint8_t *place = book + 32 + 64 * account; /* docs/HEAD.md */
    printf("%.*s", (int)place[52], (const char *)place);
}

static const char *state_name(uint8_t state)
{
    return state == VAIK_RESERVED ? "RESERVED" : state == VAIK_COMMITTED ? "COMMITTED" : "ABORTED";
}

static void print_why(const uint8_t *record)
{
    char instant[VAIK_DATETIME_TEXT];
    int64_t expiration = (int64_t)vaik_number_at(record, VAIK_AT_EXPIRATION, 8);
    uint32_t n = vaik_mark_of(vaik_write_datetime(expiration, (uint8_t *)instant, sizeof instant));
    switch (record[VAIK_AT_ENDED_BY]) {
    case VAIK_BY_FULFILMENT:
        printf("  Because its fulfilment came while it was reserved: the record holds the 32 bytes whose SHA-256 is its condition.\n");
        break;
    case VAIK_BY_PAYEE:
        printf("  Because its payee aborted it, with code %u.\n", (uint32_t)vaik_number_at(record, VAIK_AT_CODE, 2));
        break;
    case VAIK_BY_EXPIRY:
        printf("  Because no fulfilment had come by %.*s, when it expired: code %u.\n", (int)n, instant,
               (uint32_t)vaik_number_at(record, VAIK_AT_CODE, 2));
        break;
    default:
        printf("  It hasn't ended: it expires at %.*s.\n", (int)n, instant);
    }
}

/* A lookup copies nothing: it says in which book and from which byte on the record stands. */
static void explain(const char *who, const char *id, const char *word)
{
    uint64_t place = vaik_lookup_place(LENT_BOOK, TEXT(id));
    const uint8_t *record = book + VAIK_HEAD_LENGTH + vaik_offset_of(place);
    printf("%s asks: why does your book say that %s was %s?\n", who, id, word);
    if (vaik_book_of(place) == VAIK_NOWHERE) {
        printf("  It says nothing of it.\n");
        return;
    }
    if (vaik_book_of(place) == VAIK_FINISHED_BOOK)
        record += OPEN_LENGTH;
    printf("  Transfer %u, ", (uint32_t)vaik_number_at(record, VAIK_AT_NUMBER, 4));
    print_amount(vaik_number_at(record, VAIK_AT_UNITS, 8), (uint16_t)vaik_number_at(record, VAIK_AT_REMAINDER, 2));
    printf(" from ");
    print_name(record[VAIK_AT_PAYER]);
    printf(" to ");
    print_name(record[VAIK_AT_PAYEE]);
    printf(", is %s.\n", state_name(record[VAIK_AT_STATE]));
    print_why(record);
}

/* A position is held as whole units rounded down and a remainder: -61 and 5,000 are -60.5. */
static void print_position(size_t account)
{
    const uint8_t *place = book + 32 + 64 * account;
    int64_t units = (int64_t)vaik_number_at(place, 40, 8);
    uint16_t remainder = (uint16_t)vaik_number_at(place, 50, 2);
    print_name(account);
    printf(" ");
    if (units >= 0) {
        print_amount((uint64_t)units, remainder);
        return;
    }
    printf("-");
    print_amount((uint64_t)-units - (remainder != 0), (uint16_t)(remainder == 0 ? 0 : 10000 - remainder));
}

/* ---- the story ---- */

static void begin(void)
{
    printf("A book is opened, two members join.\n");
    told("switch", "open", vaik_open(LENT_BOOK, TEXT("XTS"), TEXT(START)));
    join("alpha", "100");
    join("beta", "0");
    printf("Alpha prepares transfers to beta that expire at " EXPIRATION ".\n");
    prepare("prepare ..1, 60.5", FIRST, "60.5");
    prepare("prepare ..2, 30", SECOND, "30");
    prepare("prepare ..3, 20", THIRD, "20");
    printf("Beta fulfils the first in time.\n");
    fulfil("fulfil ..1", FIRST);
}

static void go_on(void)
{
    printf("The sweep runs: after the fulfilment of ..1, before that of ..2.\n");
    sweep(EXPIRATION);
    fulfil("fulfil ..2, too late", SECOND);
    fulfil("fulfil ..1, sent again", FIRST);
    told("beta", "abort ..1, changed its mind", vaik_abort(LENT_BOOK, TEXT("beta"), TEXT(FIRST), TEXT("5100")));
    sweep(LATER);
    explain("Beta", SECOND, "aborted");
    explain("Alpha", FIRST, "committed");
    printf("The positions, which sum to what is still reserved: ");
    print_position(0);
    printf(", ");
    print_position(1);
    printf(".\n");
}

/* ---- where the book is ---- */

static void *failed(const char *what)
{
    perror(what);
    exit(1);
}

/* The bytes of the file, which is made if it isn't there. Nobody else may write it while a call runs. A host that
   must outlive a loss of power in the middle of a call keeps the bytes of before until the call is back. */
static uint8_t *mapped(const char *path, int *is_new)
{
    struct stat status;
    int file = open(path, O_RDWR | O_CREAT, 0600);
    if (file < 0 || fstat(file, &status) != 0)
        return failed(path);
    *is_new = status.st_size == 0;
    if (*is_new && ftruncate(file, BOOK_LENGTH) != 0)
        return failed(path);
    if (!*is_new && status.st_size != BOOK_LENGTH) {
        fprintf(stderr, "%s: not a book of this gateway: it has %lld bytes and not %d\n", path, (long long)status.st_size, BOOK_LENGTH);
        exit(1);
    }
    void *bytes = mmap(NULL, BOOK_LENGTH, PROT_READ | PROT_WRITE, MAP_SHARED, file, 0);
    close(file);
    return bytes == MAP_FAILED ? failed(path) : bytes;
}

static void in_a_file(const char *path)
{
    int is_new;
    book = mapped(path, &is_new);
    if (is_new) {
        begin();
        printf("The switch stops here. Run it again: the book is in the file.\n");
    } else if (vaik_number_of(vaik_lookup(LENT_BOOK, TEXT(FIRST))) == VAIK_OUT_OF_SHAPE) {
        fprintf(stderr, "%s: not a book, or a damaged one (answer 21)\n", path);
        exit(1);
    } else {
        printf("The switch has started again and finds its book.\n");
        go_on();
    }
    if (msync(book, BOOK_LENGTH, MS_SYNC) != 0 || munmap(book, BOOK_LENGTH) != 0)
        failed(path);
}

static void in_memory(void)
{
    book = malloc(BOOK_LENGTH);
    if (book == NULL)
        failed("gateway");
    begin();
    go_on();
    free(book);
}

int main(int argc, char **argv)
{
    if (argc > 2) {
        fprintf(stderr, "usage: gateway [FILE]\n");
        return 2;
    }
    if (argc == 2)
        in_a_file(argv[1]);
    else
        in_memory();
    return 0;
}
