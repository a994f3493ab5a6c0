/* Measures the field texts and the hash beside plain C: each call of calls.h, built by gcc and
   by clang, and SHA-256 also beside OpenSSL. The builds take turns, round by round,
   and the best round of each counts, so that what else the machine does cancels out. */
#include "calls.h"
#include "measure.h"

#include <openssl/sha.h>
#include <stdio.h>
#include <stdlib.h>
#include <string.h>

DECLARE_CALLS(probe)
DECLARE_CALLS(gcc)
DECLARE_CALLS(clang)

enum { OURS, GCC, CLANG, BUILDS };

static const struct calls CALLS[BUILDS] = {CALLS_OF(probe), CALLS_OF(gcc), CALLS_OF(clang)};

/* So many different texts or values are cycled that no single pattern of branches is learnt. */
#define TEXTS 256
#define LONGEST 512
#define ROUNDS 2000
#define BATCH_NS 20000.0
#define LONG_MESSAGE 32768

struct texts {
    uint8_t bytes[TEXTS][LONGEST];
    size_t n[TEXTS];
};

/* What the writers and the hash are given. */
static struct {
    uint64_t units[TEXTS];
    uint16_t remainder[TEXTS];
    int64_t instant[TEXTS];
    uint8_t id[TEXTS][16];
    uint8_t bytes[TEXTS][32];
    uint8_t message[LONG_MESSAGE];
} values;

/* ---- the same values in every run ---- */

/* Amounts of one to eighteen digits, mostly with cents or none; instants of this century; ids of version 4. */
static void make_values(void)
{
    static const uint16_t STEP[4] = {10000, 100, 100, 1};
    for (size_t i = 0; i < TEXTS; i++) {
        uint64_t limit = 10;
        for (uint64_t digits = 1 + below(18); digits > 1; digits--)
            limit *= 10;
        uint16_t step = STEP[below(4)];
        values.units[i] = below(limit);
        values.remainder[i] = (uint16_t)(below(10000) / step * step);
        values.instant[i] = INT64_C(946684800000) + (int64_t)below(UINT64_C(3155760000000));
        fill_random(values.id[i], 16);
        values.id[i][6] = (uint8_t)(0x40 | (values.id[i][6] & 15));
        values.id[i][8] = (uint8_t)(0x80 | (values.id[i][8] & 63));
        fill_random(values.bytes[i], 32);
    }
    fill_random(values.message, LONG_MESSAGE);
}

/* ---- texts in form, and the same with one byte damaged ---- */

static struct texts amounts, ids, instants, conditions, packets, names, currencies, codes;

static size_t random_text(uint8_t *out, size_t n, const char *alphabet)
{
    size_t letters = strlen(alphabet);
    for (size_t i = 0; i < n; i++)
        out[i] = (uint8_t)alphabet[below(letters)];
    return n;
}

/* Every other instant with an offset in place of the Z. */
static size_t instant_text(uint8_t *out, int64_t instant)
{
    size_t n = gcc_write_datetime(instant, out, LONGEST) >> 32;
    if (below(2) == 0)
        return n;
    char zone[32];
    int hours = (int)below(13), quarter = (int)below(4) * 15;
    int zone_n = snprintf(zone, sizeof zone, "%c%02d:%02d", below(2) ? '+' : '-', hours, quarter);
    memcpy(out + n - 1, zone, (size_t)zone_n);
    return n - 1 + (size_t)zone_n;
}

static void make_texts(void)
{
    static const char BASE64URL[] = "ABCDEFGHIJKLMNOPQRSTUVWXYZabcdefghijklmnopqrstuvwxyz0123456789-_";
    for (size_t i = 0; i < TEXTS; i++) {
        amounts.n[i] = gcc_write_amount(values.units[i], values.remainder[i], amounts.bytes[i], LONGEST) >> 32;
        ids.n[i] = gcc_write_id(values.id[i], 16, ids.bytes[i], LONGEST) >> 32;
        instants.n[i] = instant_text(instants.bytes[i], values.instant[i]);
        conditions.n[i] = gcc_write_condition(values.bytes[i], 32, conditions.bytes[i], LONGEST) >> 32;
        packets.n[i] = random_text(packets.bytes[i], 200 + below(200), BASE64URL);
        for (uint64_t equals = below(3); equals > 0; equals--)
            packets.bytes[i][packets.n[i]++] = '=';
        names.n[i] = random_text(names.bytes[i], 4 + below(17), "abcdefghijklmnopqrstuvwxyz.-0123456789");
        currencies.n[i] = random_text(currencies.bytes[i], 3, "ABCDEFGHIJKLMNOPQRSTUVWXYZ");
        codes.n[i] = random_text(codes.bytes[i], 4, "123456789");
    }
}

/* A space in a random place: in no form at all. */
static const struct texts *damaged(const struct texts *valid)
{
    struct texts *other = malloc(sizeof *other);
    if (other == NULL)
        exit(2);
    *other = *valid;
    for (size_t i = 0; i < TEXTS; i++)
        other->bytes[i][below(other->n[i])] = ' ';
    return other;
}

/* ---- one pass over all texts or values; the sum tells answers that differ ---- */

static inline uint64_t word(const uint8_t *bytes)
{
    uint64_t w;
    memcpy(&w, bytes, sizeof w);
    return w;
}

#define FOR_EACH(answer)                              \
    uint64_t sum = 0;                                 \
    for (size_t i = 0; i < TEXTS; i++)                \
        sum = sum * 31 + (answer);                    \
    return sum

#define TEXT(i) t->bytes[i], t->n[i]
#define PASS(name) static uint64_t name(const struct calls *c, const struct texts *t)

PASS(read_amounts)
{
    uint64_t units = 0;
    uint16_t remainder = 0;
    FOR_EACH((c->read_amount(TEXT(i), &units, &remainder) ^ units) + remainder);
}

PASS(read_ids)
{
    uint8_t id[16] = {0};
    FOR_EACH((c->read_id(TEXT(i), id, 16) ^ word(id)) + word(id + 8));
}

PASS(read_instants)
{
    int64_t instant = 0;
    FOR_EACH(c->read_datetime(TEXT(i), &instant) ^ (uint64_t)instant);
}

PASS(read_conditions)
{
    uint8_t bytes[32] = {0};
    FOR_EACH((c->read_condition(TEXT(i), bytes, 32) ^ word(bytes)) + word(bytes + 24));
}

PASS(read_packets) { FOR_EACH(c->read_packet(TEXT(i))); }
PASS(read_names) { FOR_EACH(c->read_name(TEXT(i))); }
PASS(read_currencies) { FOR_EACH(c->read_currency(TEXT(i))); }

PASS(read_codes)
{
    uint16_t code = 0;
    FOR_EACH(c->read_code(TEXT(i), &code) ^ code);
}

PASS(write_amounts)
{
    uint8_t out[64] = {0};
    (void)t;
    FOR_EACH(c->write_amount(values.units[i], values.remainder[i], out, sizeof out) ^ word(out));
}

PASS(write_ids)
{
    uint8_t out[64] = {0};
    (void)t;
    FOR_EACH((c->write_id(values.id[i], 16, out, sizeof out) ^ word(out)) + word(out + 28));
}

PASS(write_instants)
{
    uint8_t out[64] = {0};
    (void)t;
    FOR_EACH((c->write_datetime(values.instant[i], out, sizeof out) ^ word(out)) + word(out + 16));
}

PASS(write_conditions)
{
    uint8_t out[64] = {0};
    (void)t;
    FOR_EACH((c->write_condition(values.bytes[i], 32, out, sizeof out) ^ word(out)) + word(out + 35));
}

static inline uint64_t hashed(const struct calls *c, const uint8_t *m, size_t n)
{
    uint8_t digest[32];
    c->sha256(m, n, digest, 32);
    return word(digest) + word(digest + 24);
}

PASS(hash_short)
{
    (void)t;
    FOR_EACH(hashed(c, values.bytes[i], 32));
}

PASS(hash_long)
{
    (void)t;
    return hashed(c, values.message, LONG_MESSAGE);
}

/* ---- measuring ---- */

typedef uint64_t pass(const struct calls *, const struct texts *);

static volatile uint64_t sink;

static double timed(pass *run, const struct calls *c, const struct texts *t, size_t passes)
{
    double start = now_ns();
    for (size_t i = 0; i < passes; i++)
        sink = run(c, t);
    return (now_ns() - start) / (double)passes;
}

/* The best time of one pass, for each of the builds. */
static void measure(pass *run, const struct texts *t, const struct calls *builds, int count, double best[])
{
    for (int b = 0; b < count; b++)
        best[b] = timed(run, &builds[b], t, 20);
    size_t passes = 1 + (size_t)(BATCH_NS / best[0]);
    for (int round = 0; round < ROUNDS; round++) {
        for (int turn = 0; turn < count; turn++) {
            int b = (round + turn) % count;
            double ns = timed(run, &builds[b], t, passes);
            if (ns < best[b])
                best[b] = ns;
        }
    }
}

static double ours_long, ours_short;

static void row(const char *name, pass *run, const struct texts *t, int calls_in_a_pass)
{
    double best[BUILDS];
    uint64_t sum = run(&CALLS[OURS], t);
    if (sum != run(&CALLS[GCC], t) || sum != run(&CALLS[CLANG], t)) {
        fprintf(stderr, "%s: the answers differ\n", name);
        exit(1);
    }
    measure(run, t, CALLS, BUILDS, best);
    for (int b = 0; b < BUILDS; b++)
        best[b] /= calls_in_a_pass;
    printf("%-34s %10.1f %10.1f %10.1f %10.2f %10.2f\n", name, best[OURS], best[GCC], best[CLANG],
           best[OURS] / best[GCC], best[OURS] / best[CLANG]);
    fflush(stdout);
    if (run == hash_long)
        ours_long = best[OURS];
    if (run == hash_short)
        ours_short = best[OURS];
}

static void reader(const char *name, pass *run, const struct texts *valid)
{
    char damage[64];
    row(name, run, valid, TEXTS);
    snprintf(damage, sizeof damage, "%s, damaged", name);
    row(damage, run, damaged(valid), TEXTS);
}

/* ---- OpenSSL, each time in a process of its own, since it looks at the processor once ---- */

static void openssl_sha256(const uint8_t *m, size_t n, uint8_t *out, size_t out_n)
{
    if (out_n >= 32)
        SHA256(m, n, out);
}

static int openssl_child(void)
{
    struct calls openssl = {0};
    double on_long, on_short;
    openssl.sha256 = openssl_sha256;
    measure(hash_long, NULL, &openssl, 1, &on_long);
    measure(hash_short, NULL, &openssl, 1, &on_short);
    printf("%f %f\n", on_long, on_short / TEXTS);
    return 0;
}

/* Bit 29 of the second word of the mask is SHA-NI. */
static void openssl_rows(const char *self, const char *label, const char *mask)
{
    char command[4096];
    double on_long = 0, on_short = 0;
    snprintf(command, sizeof command, "%s '%s' openssl", mask, self);
    FILE *child = popen(command, "r");
    if (child == NULL || fscanf(child, "%lf %lf", &on_long, &on_short) != 2) {
        fprintf(stderr, "OpenSSL could not be measured\n");
        exit(1);
    }
    pclose(child);
    printf("sha256, 32 KiB, %-24s %10.1f ns, ours/this %6.2f\n", label, on_long, ours_long / on_long);
    printf("sha256, 32 bytes, %-22s %10.1f ns, ours/this %6.2f\n", label, on_short, ours_short / on_short);
}

int main(int argc, char **argv)
{
    make_values();
    if (argc > 1 && strcmp(argv[1], "openssl") == 0)
        return openssl_child();
    make_texts();
    printf("%-34s %10s %10s %10s %10s %10s\n", "one call, nanoseconds", "ours", "gcc", "clang", "ours/gcc", "ours/clang");
    row("sha256, 32 KiB", hash_long, NULL, 1);
    row("sha256, 32 bytes", hash_short, NULL, TEXTS);
    reader("read amount", read_amounts, &amounts);
    reader("read id", read_ids, &ids);
    reader("read datetime", read_instants, &instants);
    reader("read condition", read_conditions, &conditions);
    reader("read packet (200 to 402)", read_packets, &packets);
    reader("read name", read_names, &names);
    reader("read currency", read_currencies, &currencies);
    reader("read code", read_codes, &codes);
    row("write amount", write_amounts, NULL, TEXTS);
    row("write id", write_ids, NULL, TEXTS);
    row("write datetime", write_instants, NULL, TEXTS);
    row("write condition", write_conditions, NULL, TEXTS);
    openssl_rows(argv[0], "OpenSSL", "");
    openssl_rows(argv[0], "OpenSSL without SHA-NI", "OPENSSL_ia32cap=:~0x20000000");
    return 0;
}
