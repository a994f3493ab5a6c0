/* Holds the header's constants against the library, on both sides of each limit. It is C99 and C++. Prints each
   that differs; the exit status is 0 if none does. */
#include <vaikshurd.h>

#include <stdio.h>
#include <stdlib.h>
#include <string.h>

#define TEXT(s) (const uint8_t *)(s), strlen(s)
#define START TEXT("2024-01-01T00:00:00.000Z")

static int differences;

static void is(const char *what, uint64_t found, uint64_t expected)
{
    if (found == expected)
        return;
    printf("%s: %llu, expected %llu\n", what, (unsigned long long)found, (unsigned long long)expected);
    differences++;
}

/* ---- the book ---- */

static uint8_t head[VAIK_HEAD_LENGTH + 1];
static uint8_t *opened, *ended;

static uint32_t open_with(size_t head_n, size_t slots, size_t places)
{
    return vaik_number_of(vaik_open(head, head_n, opened, slots * VAIK_RECORD_LENGTH, ended, places * VAIK_RECORD_LENGTH,
                                    TEXT("XTS"), START));
}

static void lengths(void)
{
    is("the head's length", vaik_head_length(), VAIK_HEAD_LENGTH);
    is("a head of a byte less", open_with(VAIK_HEAD_LENGTH - 1, 1, 1), VAIK_BAD_LENGTHS);
    is("a head of a byte more", open_with(VAIK_HEAD_LENGTH + 1, 1, 1), VAIK_BAD_LENGTHS);
    is("no slot", open_with(VAIK_HEAD_LENGTH, 0, 1), VAIK_BAD_LENGTHS);
    is("a slot too many", open_with(VAIK_HEAD_LENGTH, VAIK_MOST_OPEN + 1, 1), VAIK_BAD_LENGTHS);
    is("no place", open_with(VAIK_HEAD_LENGTH, 1, 0), VAIK_BAD_LENGTHS);
    is("a place too many", open_with(VAIK_HEAD_LENGTH, 1, VAIK_MOST_FINISHED + 1), VAIK_BAD_LENGTHS);
    is("all slots and places", open_with(VAIK_HEAD_LENGTH, VAIK_MOST_OPEN, VAIK_MOST_FINISHED), VAIK_DONE);
}

static uint32_t join(unsigned number, const char *cap)
{
    char name[16];
    int n = snprintf(name, sizeof name, "fsp%u", number);
    return vaik_number_of(vaik_join(head, VAIK_HEAD_LENGTH, opened, VAIK_RECORD_LENGTH, ended, VAIK_RECORD_LENGTH,
                                    (const uint8_t *)name, (size_t)n, TEXT(cap)));
}

static void accounts(void)
{
    char cap[32];
    unsigned k;
    is("a small book", open_with(VAIK_HEAD_LENGTH, 1, 1), VAIK_DONE);
    sprintf(cap, "%llu", (unsigned long long)VAIK_MOST_CAP);
    for (k = 0; k < VAIK_MOST_ACCOUNTS; k++)
        is("a join with the greatest cap", join(k, cap), VAIK_DONE);
    is("an account too many", join(k, cap), VAIK_ACCOUNTS_FULL);
    strcat(cap, ".0001");
    is("a cap above the greatest", join(k, cap), VAIK_CAP_TOO_HIGH);
}

/* A record as a prepare and a fulfil leave it, field by field. */
static void record(void)
{
    static const char id[] = "00000000-0000-4000-8000-000000000001";
    static const char secret[] = "AAAAAAAAAAAAAAAAAAAAAAAAAAAAAAAAAAAAAAAAAAA";
    uint64_t place;
    is("a small book", open_with(VAIK_HEAD_LENGTH, 1, 1), VAIK_DONE);
    is("a payer", join(0, "100"), VAIK_DONE);
    is("a payee", join(1, "0"), VAIK_DONE);
    is("a prepare", vaik_prepare(head, VAIK_HEAD_LENGTH, opened, VAIK_RECORD_LENGTH, ended, VAIK_RECORD_LENGTH, TEXT(id), TEXT("fsp0"),
                                 TEXT("fsp1"), TEXT("XTS"), TEXT("60.5"), TEXT("Zmh6rfhivXdsj8GLjp-OIAiXFIVu4jOzkCpZHQ1fKSU"),
                                 TEXT("2024-01-01T00:01:00.000Z"), TEXT("AQ")), UINT64_C(1) << 32);
    is("its state", opened[VAIK_AT_STATE], VAIK_RESERVED);
    is("its payer", opened[VAIK_AT_PAYER], 0);
    is("its payee", opened[VAIK_AT_PAYEE], 1);
    is("ended by", opened[VAIK_AT_ENDED_BY], VAIK_BY_NOTHING);
    is("its units", vaik_number_at(opened, VAIK_AT_UNITS, 8), 60);
    is("its remainder", vaik_number_at(opened, VAIK_AT_REMAINDER, 2), 5000);
    is("its expiration", vaik_number_at(opened, VAIK_AT_EXPIRATION, 8), UINT64_C(1704067260000));
    is("its number", vaik_number_at(opened, VAIK_AT_NUMBER, 4), 1);
    is("its condition's first byte", opened[VAIK_AT_CONDITION], 0x66);
    is("its packet's hash, first byte", opened[VAIK_AT_PACKET], 0x40);
    is("a fulfil", vaik_number_of(vaik_fulfil(head, VAIK_HEAD_LENGTH, opened, VAIK_RECORD_LENGTH, ended, VAIK_RECORD_LENGTH, TEXT("fsp1"),
                                              TEXT(id), TEXT(secret))), VAIK_DONE);
    is("the slot", opened[VAIK_AT_STATE], VAIK_FREE);
    is("the state", ended[VAIK_AT_STATE], VAIK_COMMITTED);
    is("ended by", ended[VAIK_AT_ENDED_BY], VAIK_BY_FULFILMENT);
    place = vaik_lookup_place(head, VAIK_HEAD_LENGTH, opened, VAIK_RECORD_LENGTH, ended, VAIK_RECORD_LENGTH, TEXT(id));
    is("the book", vaik_book_of(place), VAIK_FINISHED_BOOK);
    is("the offset", vaik_offset_of(place), 0);
}

/* ---- the field texts ---- */

static void texts(void)
{
    uint8_t out[64];
    uint8_t id[VAIK_ID_LENGTH] = {0, 0, 0, 0, 0, 0, 0x40, 0, 0x80};
    uint8_t condition[VAIK_CONDITION_LENGTH] = {0};
    uint64_t longest = (uint64_t)VAIK_AMOUNT_TEXT << 32;
    is("the longest amount", vaik_write_amount(VAIK_MOST_UNITS, VAIK_MOST_REMAINDER, out, VAIK_AMOUNT_TEXT), longest);
    is("its room", vaik_number_of(vaik_write_amount(VAIK_MOST_UNITS, VAIK_MOST_REMAINDER, out, VAIK_AMOUNT_TEXT - 1)), VAIK_NO_ROOM);
    is("units above", vaik_number_of(vaik_write_amount(VAIK_MOST_UNITS + 1, 0, out, sizeof out)), VAIK_NOT_IN_FORM);
    is("a remainder above", vaik_number_of(vaik_write_amount(0, VAIK_MOST_REMAINDER + 1, out, sizeof out)), VAIK_NOT_IN_FORM);
    is("an id", vaik_mark_of(vaik_write_id(id, VAIK_ID_LENGTH, out, sizeof out)), VAIK_ID_TEXT);
    is("an id of a byte less", vaik_number_of(vaik_write_id(id, VAIK_ID_LENGTH - 1, out, sizeof out)), VAIK_NOT_IN_FORM);
    is("a condition", vaik_mark_of(vaik_write_condition(condition, VAIK_CONDITION_LENGTH, out, sizeof out)), VAIK_CONDITION_TEXT);
    is("a condition of a byte less", vaik_number_of(vaik_write_condition(condition, VAIK_CONDITION_LENGTH - 1, out, sizeof out)),
       VAIK_NOT_IN_FORM);
    is("the first instant", vaik_number_of(vaik_write_datetime(VAIK_FIRST_INSTANT, out, sizeof out)), VAIK_DONE);
    is("one before it", vaik_number_of(vaik_write_datetime(VAIK_FIRST_INSTANT - 1, out, sizeof out)), VAIK_OUTSIDE_YEARS);
    is("the last instant", vaik_number_of(vaik_write_datetime(VAIK_LAST_INSTANT, out, sizeof out)), VAIK_DONE);
    is("one past it", vaik_number_of(vaik_write_datetime(VAIK_LAST_INSTANT + 1, out, sizeof out)), VAIK_OUTSIDE_YEARS);
}

static void answers(void)
{
    uint64_t answer = vaik_write_amount(VAIK_MOST_UNITS + 1, 0, head, 0);
    is("the code of an answer", vaik_code_of(answer), vaik_code(VAIK_NOT_IN_FORM));
    is("and the number's", vaik_code(VAIK_NOT_IN_FORM), 3101);
    is("a number that is none", vaik_code(VAIK_RESEND + 1), 0);
}

int main(void)
{
    opened = (uint8_t *)calloc(VAIK_MOST_OPEN + 1, VAIK_RECORD_LENGTH);
    ended = (uint8_t *)calloc(VAIK_MOST_FINISHED + 1, VAIK_RECORD_LENGTH);
    if (opened == NULL || ended == NULL)
        return 2;
    lengths();
    accounts();
    record();
    texts();
    answers();
    free(opened);
    free(ended);
    return differences == 0 ? 0 : 1;
}
