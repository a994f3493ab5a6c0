/* Books to measure on, and the driver that prints the tables. */
#include "books.h"
#include "measure.h"

#include <stdio.h>
#include <stdlib.h>

void must(int holds, const char *what)
{
    if (holds)
        return;
    fprintf(stderr, "%s\n", what);
    exit(1);
}

static void *room(size_t n)
{
    void *p = calloc(1, n);
    must(p != NULL, "no memory");
    return p;
}

static void put_number(uint8_t *bytes, size_t at, size_t width, uint64_t number)
{
    for (size_t i = 0; i < width; i++)
        bytes[at + i] = (uint8_t)(number >> 8 * (width - 1 - i));
}

void make_id(uint8_t id[VAIK_ID_LENGTH], uint64_t number)
{
    uint64_t spread = number * 0x9e3779b97f4a7c15;
    put_number(id, 0, 8, spread);
    put_number(id, 8, 8, spread ^ spread >> 29 ^ number);
    id[6] = (uint8_t)(0x40 | (id[6] & 15));
    id[8] = (uint8_t)(0x80 | (id[8] & 63));
}

void make_id_text(id_text text, uint64_t number)
{
    uint8_t id[VAIK_ID_LENGTH];
    make_id(id, number);
    must(vaik_number_of(vaik_write_id(id, sizeof id, (uint8_t *)text, VAIK_ID_TEXT)) == 0, "an id that has no text");
    text[VAIK_ID_TEXT] = 0;
}

const char *name_of(unsigned account)
{
    static char names[ACCOUNTS][16];
    snprintf(names[account], sizeof names[account], "fsp%02u.example", account);
    return names[account];
}

/* A finished record: 1 to 1,000 units with cents, each way to end in turn. */
static void make_record(uint8_t *r, uint64_t number)
{
    static const uint8_t ENDS[3][2] = {{VAIK_COMMITTED, VAIK_BY_FULFILMENT}, {VAIK_ABORTED, VAIK_BY_PAYEE}, {VAIK_ABORTED, VAIK_BY_EXPIRY}};
    uint8_t payer = (uint8_t)(number % ACCOUNTS);
    make_id(r, number);
    r[VAIK_AT_STATE] = ENDS[number % 3][0];
    r[VAIK_AT_ENDED_BY] = ENDS[number % 3][1];
    r[VAIK_AT_PAYER] = payer;
    r[VAIK_AT_PAYEE] = (uint8_t)((payer + 1 + number / ACCOUNTS % (ACCOUNTS - 1)) % ACCOUNTS);
    put_number(r, VAIK_AT_REMAINDER, 2, number * 700 % 10000);
    put_number(r, VAIK_AT_UNITS, 8, 1 + number * 7 % 1000);
    put_number(r, VAIK_AT_EXPIRATION, 8, (uint64_t)EXPIRY_MS);
    vaik_read_condition(TEXT(CONDITION), r + VAIK_AT_CONDITION, VAIK_CONDITION_LENGTH);
    fill_random(r + VAIK_AT_PACKET, 32);
    put_number(r, VAIK_AT_NUMBER, 4, number);
}

/* The payer's position rises by what the record reserves. */
static void reserve(uint8_t *head, uint8_t *r)
{
    uint8_t *account = head + 32 + 64 * r[VAIK_AT_PAYER];
    uint64_t rest = vaik_number_at(account, 50, 2) + vaik_number_at(r, VAIK_AT_REMAINDER, 2);
    uint64_t units = vaik_number_at(account, 40, 8) + vaik_number_at(r, VAIK_AT_UNITS, 8);
    put_number(account, 40, 8, units + rest / 10000);
    put_number(account, 50, 2, rest % 10000);
    r[VAIK_AT_STATE] = VAIK_RESERVED;
    r[VAIK_AT_ENDED_BY] = VAIK_BY_NOTHING;
}

struct book make_book(size_t slots, size_t places, size_t open, size_t finished)
{
    struct book b = {.opened_n = slots * VAIK_RECORD_LENGTH, .ended_n = places * VAIK_RECORD_LENGTH, .open = open, .finished = finished};
    b.opened = room(b.opened_n);
    b.ended = room(b.ended_n);
    must(vaik_open(LENT(&b), TEXT("XTS"), TEXT(START)) == 0, "an open is refused");
    for (unsigned k = 0; k < ACCOUNTS; k++)
        must(vaik_join(LENT(&b), STRING(name_of(k)), TEXT("100000000000000000")) == 0, "a join is refused");
    for (size_t k = 0; k < finished; k++)
        make_record(b.ended + k * VAIK_RECORD_LENGTH, k + 1);
    put_number(b.head, 16, 2, finished);
    for (size_t k = 0; k < open; k++) {
        make_record(b.opened + k * VAIK_RECORD_LENGTH, finished + open - k);
        reserve(b.head, b.opened + k * VAIK_RECORD_LENGTH);
    }
    must(vaik_number_of(vaik_lookup(LENT(&b), TEXT("?"))) == VAIK_NOT_IN_FORM, "a book is not of the shape");
    return b;
}

struct book copy_of(const struct book *b)
{
    struct book copy = *b;
    copy.opened = room(b->opened_n);
    copy.ended = room(b->ended_n);
    memcpy(copy.opened, b->opened, b->opened_n);
    memcpy(copy.ended, b->ended, b->ended_n);
    return copy;
}

void free_book(struct book *b)
{
    free(b->opened);
    free(b->ended);
}

/* Words ask for parts: shape, full, pairs. None asks for all. */
static int is_wanted(int argc, char **argv, const char *part)
{
    for (int k = 1; k < argc; k++)
        if (strcmp(argv[k], part) == 0)
            return 1;
    return argc == 1;
}

int main(int argc, char **argv)
{
    if (is_wanted(argc, argv, "shape"))
        shape_rows();
    if (is_wanted(argc, argv, "full"))
        full_rows();
    if (is_wanted(argc, argv, "pairs"))
        pair_rows();
    return 0;
}
