/* The shape test beside the same in plain C, and beside a mere reading of the lent bytes. It is measured through a lookup of
   an id that is not in form: the call tests the shape, reads one character, and answers 1. A second row looks for an
   unknown id, so that both books are searched as well. */
#include "book_calls.h"
#include "books.h"
#include "measure.h"

#include <stdio.h>

DECLARE_BOOK_CALLS(gcc)
DECLARE_BOOK_CALLS(clang)

typedef uint64_t lookup(const uint8_t *, size_t, const uint8_t *, size_t, const uint8_t *, size_t, const uint8_t *, size_t);
typedef uint64_t read_all(const uint8_t *, size_t);

enum { OURS, GCC, CLANG, READ, READ_BY_CLANG, RIVALS };

static lookup *const LOOKUPS[] = {vaik_lookup, gcc_lookup, clang_lookup};
static read_all *const READS[] = {gcc_read_all, clang_read_all};

struct looking {
    const struct book *book;
    const char *id;
    double best[RIVALS];
};

static volatile uint64_t sink;

static void look(int rival, void *job)
{
    struct looking *l = job;
    const struct book *b = l->book;
    double start = now_ns();
    if (rival < READ) {
        sink = LOOKUPS[rival](LENT(b), STRING(l->id));
    } else {
        read_all *read = READS[rival - READ];
        sink = read(b->head, sizeof b->head) + read(b->opened, b->opened_n) + read(b->ended, b->ended_n);
    }
    l->best[rival] = better(l->best[rival], now_ns() - start);
}

static void same_answers(const struct book *b, const char *id)
{
    uint64_t ours = vaik_lookup(LENT(b), STRING(id));
    must(ours == gcc_lookup(LENT(b), STRING(id)) && ours == clang_lookup(LENT(b), STRING(id)), "the answers of a lookup differ");
}

/* Each byte of a part changed in several ways: a yardstick that gives the same answers makes the same tests. */
static void hold_part(const struct book *b, uint8_t *part, size_t n)
{
    static const uint8_t CHANGES[] = {1, 2, 3, 4, 5, 6, 7, 0x20, 0x80, 0xff};
    id_text open, finished, neither;
    make_id_text(open, b->finished + 1);
    make_id_text(finished, 1);
    make_id_text(neither, 999999);
    for (size_t k = 0; k < n * sizeof CHANGES; k++) {
        uint8_t change = CHANGES[k % sizeof CHANGES], *byte = part + k / sizeof CHANGES;
        *byte ^= change;
        same_answers(b, open);
        same_answers(b, finished);
        same_answers(b, neither);
        same_answers(b, "?");
        *byte ^= change;
    }
}

static void hold_rivals(void)
{
    struct book b = make_book(5, 9, 3, 4);
    hold_part(&b, b.head, sizeof b.head);
    hold_part(&b, b.opened, b.opened_n);
    hold_part(&b, b.ended, b.ended_n);
    free_book(&b);
}

static void row(const struct book *b, const char *name, const char *id)
{
    struct looking l = {b, id, {0}};
    const double *t = l.best;
    char label[64];
    same_answers(b, id);
    take_turns(look, RIVALS, &l, 400, 1.5e9);
    double read = better(t[READ], t[READ_BY_CLANG]);
    snprintf(label, sizeof label, "%s, %zu finished", name, b->finished);
    printf("%-34s %10.1f %10.1f %10.1f %10.2f %10.2f %10.1f %10.2f\n", label, t[OURS] / 1e3, t[GCC] / 1e3, t[CLANG] / 1e3,
           t[OURS] / t[GCC], t[OURS] / t[CLANG], read / 1e3, t[OURS] / read);
    fflush(stdout);
}

void shape_rows(void)
{
    static const size_t IN_USE[3][2] = {{1024, 0}, {1024, 32767}, {0, 65535}};
    id_text unknown;
    hold_rivals();
    make_id_text(unknown, 999999);
    printf("%-34s %10s %10s %10s %10s %10s %10s %10s\n", "one lookup, microseconds", "ours", "gcc", "clang", "ours/gcc", "ours/clang",
           "read", "ours/read");
    for (int k = 0; k < 3; k++) {
        struct book b = make_book(VAIK_MOST_OPEN, VAIK_MOST_FINISHED, IN_USE[k][0], IN_USE[k][1]);
        row(&b, "shape", "?");
        row(&b, "shape and search", unknown);
        free_book(&b);
    }
}
