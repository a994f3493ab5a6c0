/* Every call at full size, where it costs most, in shape tests of the same book: none may cost more than three. */
#include "books.h"
#include "measure.h"

#include <stdio.h>

/* What the calls are given: ids of the record that stands last in each book, and of none. */
static struct {
    id_text in_open, in_finished, unknown;
    const char *payee_in_open, *payee_in_finished;
    uint8_t packet[VAIK_PACKET_TEXT];
    uint8_t list[VAIK_MOST_OPEN * VAIK_LIST_PLACE];
} given;

#define NEW_TRANSFER \
    STRING(given.unknown), STRING(name_of(3)), STRING(name_of(4)), TEXT("XTS"), TEXT("0.5"), TEXT(CONDITION), TEXT(EXPIRY)
#define OPEN_ONE STRING(given.payee_in_open), STRING(given.in_open)
#define FINISHED_ONE STRING(given.payee_in_finished), STRING(given.in_finished)
#define NO_ONE STRING(name_of(0)), STRING(given.unknown)
#define RUN(name) static uint64_t name(struct book *b)

RUN(shape) { return vaik_lookup(LENT(b), TEXT("?")); }
RUN(open_anew) { return vaik_open(LENT(b), TEXT("XTS"), TEXT(START)); }
RUN(join) { return vaik_join(LENT(b), TEXT("the.last.account"), TEXT("100.5")); }
RUN(prepare) { return vaik_prepare(LENT(b), NEW_TRANSFER, TEXT("AQ")); }
RUN(prepare_long) { return vaik_prepare(LENT(b), NEW_TRANSFER, given.packet, sizeof given.packet); }
RUN(fulfil) { return vaik_fulfil(LENT(b), OPEN_ONE, TEXT(SECRET)); }
RUN(fulfil_ended) { return vaik_fulfil(LENT(b), FINISHED_ONE, TEXT(SECRET)); }
RUN(fulfil_unknown) { return vaik_fulfil(LENT(b), NO_ONE, TEXT(SECRET)); }
RUN(abort_one) { return vaik_abort(LENT(b), OPEN_ONE, TEXT("5100")); }
RUN(abort_unknown) { return vaik_abort(LENT(b), NO_ONE, TEXT("5100")); }
RUN(time_all) { return vaik_time(LENT(b), given.list, sizeof given.list, TEXT(EXPIRY)); }
RUN(time_none) { return vaik_time(LENT(b), given.list, sizeof given.list, TEXT(START)); }
RUN(lookup_unknown) { return vaik_lookup(LENT(b), STRING(given.unknown)); }
RUN(lookup_place) { return vaik_lookup_place(LENT(b), STRING(given.in_finished)); }

enum { ANY = -1 }; /* whatever the call answers */

static const struct call {
    const char *name;
    uint64_t (*run)(struct book *);
    int number; /* of the answer */
    int needs_finished;
} CALLS[] = {
    {"shape alone", shape, VAIK_NOT_IN_FORM, 0},
    {"open", open_anew, VAIK_DONE, 0},
    {"join", join, VAIK_DONE, 0},
    {"prepare", prepare, VAIK_DONE, 0},
    {"prepare, packet of 32,768", prepare_long, VAIK_DONE, 0},
    {"fulfil", fulfil, VAIK_DONE, 0},
    {"fulfil, ended already", fulfil_ended, ANY, 1},
    {"fulfil, unknown id", fulfil_unknown, VAIK_UNKNOWN_ID, 0},
    {"abort", abort_one, VAIK_DONE, 0},
    {"abort, unknown id", abort_unknown, VAIK_UNKNOWN_ID, 0},
    {"time, all 1,023 expire", time_all, VAIK_DONE, 0},
    {"time, none expires", time_none, VAIK_DONE, 0},
    {"lookup, unknown id", lookup_unknown, VAIK_UNKNOWN_ID, 0},
    {"lookup's place, last record", lookup_place, ANY, 1},
};

enum { COUNT = sizeof CALLS / sizeof CALLS[0], BOOKS = 3 };

struct job {
    struct book now, kept;
    double best[COUNT];
};

/* As before the call: an open writes all of the finished book, the others its next places at most. */
static void restore(struct job *job, int all)
{
    struct book *now = &job->now;
    const struct book *kept = &job->kept;
    size_t from = all ? 0 : kept->finished * VAIK_RECORD_LENGTH;
    size_t to = all ? kept->ended_n : (kept->finished + kept->open) * VAIK_RECORD_LENGTH;
    memcpy(now->head, kept->head, sizeof now->head);
    memcpy(now->opened, kept->opened, kept->opened_n);
    memcpy(now->ended + from, kept->ended + from, to - from);
}

static void call_one(int which, void *context)
{
    struct job *job = context;
    const struct call *call = &CALLS[which];
    if (call->needs_finished && job->kept.finished == 0)
        return;
    double start = now_ns();
    uint64_t answer = call->run(&job->now);
    job->best[which] = better(job->best[which], now_ns() - start);
    must(call->number == ANY || vaik_number_of(answer) == (uint32_t)call->number, call->name);
    restore(job, call->run == open_anew);
}

static const char *payee_of(const uint8_t *records, size_t k)
{
    return name_of(records[k * VAIK_RECORD_LENGTH + VAIK_AT_PAYEE]);
}

static void give(const struct book *b)
{
    size_t last = b->finished == 0 ? 1 : b->finished;
    make_id_text(given.in_open, b->finished + 1);
    make_id_text(given.in_finished, last);
    make_id_text(given.unknown, 999999);
    given.payee_in_open = payee_of(b->opened, b->open - 1);
    given.payee_in_finished = payee_of(b->ended, last - 1);
    memset(given.packet, 'Q', sizeof given.packet);
}

/* A number, or a line where nothing was measured. */
static void print_cell(double value, int digits)
{
    if (value == 0)
        printf(" %10s", "-");
    else
        printf(" %10.*f", digits, value);
}

static void print_row(const char *name, const struct job jobs[BOOKS], int c)
{
    printf("%-34s", name);
    for (int k = 0; k < BOOKS; k++)
        print_cell(jobs[k].best[c] / 1e3, 1);
    for (int k = 0; k < BOOKS; k++)
        print_cell(jobs[k].best[c] / jobs[k].best[0], 2);
    printf("\n");
}

void full_rows(void)
{
    static const size_t FINISHED[BOOKS] = {0, 32255, 64511};
    struct job jobs[BOOKS] = {0};
    for (int k = 0; k < BOOKS; k++) {
        jobs[k].now = make_book(VAIK_MOST_OPEN, VAIK_MOST_FINISHED, VAIK_MOST_OPEN - 1, FINISHED[k]);
        jobs[k].kept = copy_of(&jobs[k].now);
        give(&jobs[k].kept);
        take_turns(call_one, COUNT, &jobs[k], 200, 1.5e9);
        free_book(&jobs[k].now);
        free_book(&jobs[k].kept);
    }
    printf("\n%-34s %10s %10s %10s %10s %10s %10s\n", "1,023 open, so many finished, us", "0", "32,255", "64,511", "in shapes", "32,255",
           "64,511");
    for (int c = 0; c < COUNT; c++)
        print_row(CALLS[c].name, jobs, c);
    fflush(stdout);
}
