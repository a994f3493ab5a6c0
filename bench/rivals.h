/* The rivals of a prepare and a fulfil: the second implementation of tests/ behind the library's own
   signatures, and SQLite. */
#ifndef RIVALS_H
#define RIVALS_H

#include <stddef.h>
#include <stdint.h>

uint64_t second_prepare(uint8_t *head, size_t head_n, uint8_t *opened, size_t opened_n, const uint8_t *ended,
                        size_t ended_n, const uint8_t *id, size_t id_n, const uint8_t *payer, size_t payer_n,
                        const uint8_t *payee, size_t payee_n, const uint8_t *currency, size_t currency_n,
                        const uint8_t *amount, size_t amount_n, const uint8_t *condition, size_t condition_n,
                        const uint8_t *expiration, size_t expiration_n, const uint8_t *packet, size_t packet_n);
uint64_t second_fulfil(uint8_t *head, size_t head_n, uint8_t *opened, size_t opened_n, uint8_t *ended, size_t ended_n,
                       const uint8_t *sender, size_t sender_n, const uint8_t *id, size_t id_n,
                       const uint8_t *fulfilment, size_t fulfilment_n);

/* SQLite in memory: a table of accounts, a table of transfers with a unique index on the id, a transaction
   for each call. It is handed values, not texts: it judges no form and hashes nothing. */
struct sqlite_book;

/* What it keeps of a transfer; amounts in ten-thousandths. */
struct sqlite_transfer {
    int64_t number, state, payer, payee, ended_by, amount, expiration;
    const uint8_t *id;                         /* 16 bytes */
    const uint8_t *condition, *hash;           /* 32 bytes each: the packet's hash is handed over too */
};

struct sqlite_book *sqlite_book_new(void);
void sqlite_book_free(struct sqlite_book *b);
void sqlite_book_join(struct sqlite_book *b, int64_t number, const char *name, int64_t cap, int64_t position);
/* Puts a transfer there as it is; many of them in one transaction. */
void sqlite_book_begin(struct sqlite_book *b);
void sqlite_book_put(struct sqlite_book *b, const struct sqlite_transfer *t);
void sqlite_book_end(struct sqlite_book *b);
/* Takes away the transfers from a number on, and puts the positions back to what they were at joining. */
void sqlite_book_restore(struct sqlite_book *b, int64_t from);
/* The answer's number. `t` has all but number, parties, state and ended-by. */
int sqlite_book_prepare(struct sqlite_book *b, const struct sqlite_transfer *t, const char *payer, const char *payee,
                        int64_t now, int64_t places);
int sqlite_book_fulfil(struct sqlite_book *b, const char *sender, const uint8_t id[16], const uint8_t fulfilment[32]);

#endif
