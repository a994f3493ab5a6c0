/* A prepare and a fulfil beside the second implementation of tests/, which gets the same texts and the same bytes, and beside SQLite. */
#include "books.h"
#include "measure.h"
#include "rivals.h"

#include <stdio.h>

#define PAIRS 8 /* prepares, each with its fulfil, in one turn */

enum { OURS, SECOND, SQLITE, RIVALS };

struct job {
    struct book books[2], kept; /* ours and the second implementation's, and both before a turn */
    struct sqlite_book *sqlite;
    id_text texts[PAIRS];
    uint8_t ids[PAIRS][VAIK_ID_LENGTH], condition[32], secret[32], hash[32];
    double prepare[RIVALS][PAIRS], fulfil[RIVALS][PAIRS];
};

/* What the k-th prepare of a turn and its fulfil say. */
#define PAYER(k) name_of((k) % ACCOUNTS)
#define PAYEE(k) name_of(((k) + 5) % ACCOUNTS)
#define ORDER(job, k) \
    STRING((job)->texts[k]), STRING(PAYER(k)), STRING(PAYEE(k)), TEXT("XTS"), TEXT("60.5"), TEXT(CONDITION), TEXT(EXPIRY), TEXT("AQ")
#define WORD(job, k) STRING(PAYEE(k)), STRING((job)->texts[k]), TEXT(SECRET)

static uint32_t prepare(struct job *job, int rival, unsigned k)
{
    if (rival == OURS)
        return vaik_number_of(vaik_prepare(LENT(&job->books[OURS]), ORDER(job, k)));
    if (rival == SECOND)
        return vaik_number_of(second_prepare(LENT(&job->books[SECOND]), ORDER(job, k)));
    struct sqlite_transfer t = {
        .amount = 605000, .expiration = EXPIRY_MS, .id = job->ids[k], .condition = job->condition, .hash = job->hash};
    return (uint32_t)sqlite_book_prepare(job->sqlite, &t, PAYER(k), PAYEE(k), START_MS, VAIK_MOST_FINISHED);
}

static uint32_t fulfil(struct job *job, int rival, unsigned k)
{
    if (rival == OURS)
        return vaik_number_of(vaik_fulfil(LENT(&job->books[OURS]), WORD(job, k)));
    if (rival == SECOND)
        return vaik_number_of(second_fulfil(LENT(&job->books[SECOND]), WORD(job, k)));
    return (uint32_t)sqlite_book_fulfil(job->sqlite, PAYEE(k), job->ids[k], job->secret);
}

/* No transfer of a turn stays: each went through the lowest free slot to the next places of the finished book. */
static void undo(struct job *job, int rival)
{
    const struct book *kept = &job->kept;
    if (rival == SQLITE) {
        sqlite_book_restore(job->sqlite, (int64_t)(kept->open + kept->finished) + 1);
        return;
    }
    struct book *b = &job->books[rival];
    memcpy(b->head, kept->head, sizeof b->head);
    memset(b->opened + kept->open * VAIK_RECORD_LENGTH, 0, VAIK_RECORD_LENGTH);
    memset(b->ended + kept->finished * VAIK_RECORD_LENGTH, 0, PAIRS * VAIK_RECORD_LENGTH);
}

static void turn_of(int rival, void *context)
{
    struct job *job = context;
    for (unsigned k = 0; k < PAIRS; k++) {
        double start = now_ns();
        uint32_t first = prepare(job, rival, k);
        double middle = now_ns();
        uint32_t second = fulfil(job, rival, k);
        double end = now_ns();
        must(first == VAIK_DONE && second == VAIK_DONE, "a prepare or a fulfil is refused");
        job->prepare[rival][k] = better(job->prepare[rival][k], middle - start);
        job->fulfil[rival][k] = better(job->fulfil[rival][k], end - middle);
    }
    undo(job, rival);
}

/* Both leave the same bytes. */
static void hold_rivals(struct job *job)
{
    const struct book *ours = &job->books[OURS], *other = &job->books[SECOND];
    must(prepare(job, OURS, 0) == VAIK_DONE && prepare(job, SECOND, 0) == VAIK_DONE, "a prepare is refused");
    must(memcmp(ours->opened, other->opened, ours->opened_n) == 0, "a prepare leaves other bytes");
    must(fulfil(job, OURS, 0) == VAIK_DONE && fulfil(job, SECOND, 0) == VAIK_DONE, "a fulfil is refused");
    must(memcmp(ours->head, other->head, sizeof ours->head) == 0, "the heads differ");
    must(memcmp(ours->ended, other->ended, ours->ended_n) == 0, "a fulfil leaves other bytes");
    undo(job, OURS);
    undo(job, SECOND);
}

/* ---- the same book in SQLite ---- */

static int64_t ten_thousandths(const uint8_t *bytes, size_t units, size_t remainder)
{
    return (int64_t)(vaik_number_at(bytes, units, 8) * 10000 + vaik_number_at(bytes, remainder, 2));
}

static void fill_sqlite(struct sqlite_book *s, const uint8_t *records, size_t count)
{
    for (size_t k = 0; k < count; k++) {
        const uint8_t *r = records + k * VAIK_RECORD_LENGTH;
        struct sqlite_transfer t = {
            .number = (int64_t)vaik_number_at(r, VAIK_AT_NUMBER, 4),
            .state = r[VAIK_AT_STATE],
            .payer = r[VAIK_AT_PAYER],
            .payee = r[VAIK_AT_PAYEE],
            .ended_by = r[VAIK_AT_ENDED_BY],
            .amount = ten_thousandths(r, VAIK_AT_UNITS, VAIK_AT_REMAINDER),
            .expiration = EXPIRY_MS,
            .id = r + VAIK_AT_ID,
            .condition = r + VAIK_AT_CONDITION,
            .hash = r + VAIK_AT_PACKET,
        };
        sqlite_book_put(s, &t);
    }
}

/* A cap in ten-thousandths has to fit 64 bits here, so it is lower than the book's. */
static struct sqlite_book *make_sqlite(const struct book *b)
{
    struct sqlite_book *s = sqlite_book_new();
    sqlite_book_begin(s);
    for (unsigned k = 0; k < ACCOUNTS; k++)
        sqlite_book_join(s, k, name_of(k), INT64_C(1000000000000000000), ten_thousandths(b->head + 32 + 64 * k, 40, 50));
    fill_sqlite(s, b->ended, b->finished);
    fill_sqlite(s, b->opened, b->open);
    sqlite_book_end(s);
    return s;
}

/* ---- the table ---- */

static double mean(const double times[PAIRS])
{
    double sum = 0;
    for (int k = 0; k < PAIRS; k++)
        sum += times[k];
    return sum / PAIRS;
}

static void print_row(const char *call, const struct book *b, const double times[RIVALS][PAIRS])
{
    double ours = mean(times[OURS]), second = mean(times[SECOND]), sqlite = mean(times[SQLITE]);
    char label[64];
    snprintf(label, sizeof label, "%s, %zu/%zu of %zu/%zu", call, b->open, b->finished, b->opened_n / VAIK_RECORD_LENGTH,
             b->ended_n / VAIK_RECORD_LENGTH);
    printf("%-40s %10.2f %10.2f %10.2f %10.2f %10.2f\n", label, ours / 1e3, second / 1e3, sqlite / 1e3, ours / second, ours / sqlite);
}

static void rows(size_t slots, size_t places, size_t open, size_t finished)
{
    struct job job = {0};
    job.books[OURS] = make_book(slots, places, open, finished);
    job.books[SECOND] = copy_of(&job.books[OURS]);
    job.kept = job.books[OURS]; /* its head is a copy; the books are looked at for their sizes alone */
    job.sqlite = make_sqlite(&job.kept);
    vaik_read_condition(TEXT(CONDITION), job.condition, sizeof job.condition);
    for (unsigned k = 0; k < PAIRS; k++) {
        make_id(job.ids[k], 1000000 + k);
        make_id_text(job.texts[k], 1000000 + k);
    }
    hold_rivals(&job);
    take_turns(turn_of, RIVALS, &job, 60, 1.5e9);
    print_row("prepare", &job.kept, job.prepare);
    print_row("fulfil", &job.kept, job.fulfil);
    fflush(stdout);
    sqlite_book_free(job.sqlite);
    free_book(&job.books[OURS]);
    free_book(&job.books[SECOND]);
}

void pair_rows(void)
{
    static const size_t PLACES[3][2] = {{64, 100}, {1024, 10000}, {1024, 65535}};
    printf("\n%-40s %10s %10s %10s %10s %10s\n", "one call, microseconds", "ours", "second", "SQLite", "ours/sec.", "ours/SQL.");
    for (int k = 0; k < 3; k++) {
        size_t slots = PLACES[k][0], places = PLACES[k][1];
        rows(slots, places, 0, 0);
        rows(slots, places, slots / 2, (places - slots) / 2);
        rows(slots, places, slots - 1, places - slots + 1 - PAIRS);
    }
}
