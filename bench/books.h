/* Books to measure on: any number of records in use, made through the library's own open and join. */
#ifndef BOOKS_H
#define BOOKS_H

#include "vaikshurd.h"

#include <string.h>

#define ACCOUNTS 31 /* one below the most, so that one can join */
#define START "2024-01-01T00:00:00.000Z"
#define EXPIRY "2024-01-01T00:01:00.000Z"
#define START_MS INT64_C(1704067200000)
#define EXPIRY_MS (START_MS + 60000)

/* Thirty-two zero bytes and their SHA-256. */
#define SECRET "AAAAAAAAAAAAAAAAAAAAAAAAAAAAAAAAAAAAAAAAAAA"
#define CONDITION "Zmh6rfhivXdsj8GLjp-OIAiXFIVu4jOzkCpZHQ1fKSU"

struct book {
    uint8_t head[VAIK_HEAD_LENGTH];
    uint8_t *opened, *ended;
    size_t opened_n, ended_n;
    size_t open, finished; /* records in use */
};

#define LENT(b) (b)->head, sizeof (b)->head, (b)->opened, (b)->opened_n, (b)->ended, (b)->ended_n
#define TEXT(literal) (const uint8_t *)(literal), sizeof(literal) - 1
#define STRING(s) (const uint8_t *)(s), strlen(s)

typedef char id_text[VAIK_ID_TEXT + 1];

/* Ends the program with what is wrong, unless it holds. */
void must(int holds, const char *what);

/* A transfer's id by its number: of version 4, spread over all bytes. */
void make_id(uint8_t id[VAIK_ID_LENGTH], uint64_t number);
void make_id_text(id_text text, uint64_t number);
const char *name_of(unsigned account);

/* So many places and records in use. The finished records have the numbers from 1 on. Those of the open book stand in
   falling order of their numbers, the hardest one for a time. */
struct book make_book(size_t slots, size_t places, size_t open, size_t finished);
struct book copy_of(const struct book *b);
void free_book(struct book *b);

/* The parts of the bench, each a table. */
void shape_rows(void);
void full_rows(void);
void pair_rows(void);

#endif
