/* A lookup in plain C: the same test of the shape as the library makes, and the same search. This is
   what a C programmer would write who wants it fast: whole words for the zeros, no branch for a record. */
#include "book_calls.h"

#include <stdbool.h>
#include <string.h>

enum { HEAD = 2080, FRONT = 32, ACCOUNT = 64, RECORD = 160, MOST_ACCOUNTS = 32, MOST_OPEN = 1024 };

#define MOST_CAP UINT64_C(100000000000000000)
#define MOST_UNITS UINT64_C(999999999999999999)

static inline uint64_t word_at(const uint8_t *b)
{
    uint64_t w;
    memcpy(&w, b, sizeof w);
    return w;
}

static inline uint64_t big_endian_8(const uint8_t *b)
{
    return __builtin_bswap64(word_at(b));
}

static inline uint32_t big_endian_2(const uint8_t *b)
{
    return (uint32_t)b[0] << 8 | b[1];
}

static inline bool zeros(const uint8_t *b, size_t n)
{
    uint64_t any = 0;
    size_t i = 0;
    for (; i + 8 <= n; i += 8)
        any |= word_at(b + i);
    for (; i < n; i++)
        any |= b[i];
    return any == 0;
}

/* ---- the head ---- */

static bool account_formed(const uint8_t *a)
{
    uint8_t length = a[52];
    return length <= 32 && zeros(a + length, 32u - length) && zeros(a + 53, 11);
}

static bool head_formed(const uint8_t *head, size_t n)
{
    if (n != HEAD || !zeros(head + 18, 14) || head[11] > MOST_ACCOUNTS)
        return false;
    for (size_t k = 0; k < head[11]; k++)
        if (!account_formed(head + FRONT + k * ACCOUNT))
            return false;
    size_t used = FRONT + head[11] * (size_t)ACCOUNT;
    return zeros(head + used, HEAD - used);
}

static bool account_ok(const uint8_t *a)
{
    uint64_t cap = big_endian_8(a + 32);
    int64_t position = (int64_t)big_endian_8(a + 40);
    uint32_t cap_rest = big_endian_2(a + 48), rest = big_endian_2(a + 50);
    return PLAIN(read_name)(a, a[52]) == IN_FORM && cap_rest <= 9999 && rest <= 9999 &&
           (cap < MOST_CAP || (cap == MOST_CAP && cap_rest == 0)) &&
           (position < (int64_t)MOST_CAP || (position == (int64_t)MOST_CAP && rest == 0));
}

static bool same_name(const uint8_t *a, const uint8_t *b)
{
    return a[52] == b[52] && memcmp(a, b, 32) == 0;
}

static bool accounts_ok(const uint8_t *head)
{
    const uint8_t *first = head + FRONT, *end = first + head[11] * (size_t)ACCOUNT;
    for (const uint8_t *a = first; a < end; a += ACCOUNT) {
        if (!account_ok(a))
            return false;
        for (const uint8_t *b = first; b < a; b += ACCOUNT)
            if (same_name(a, b))
                return false;
    }
    return true;
}

/* ---- the books ---- */

struct sum {
    size_t records;
    __int128 amount; /* in ten-thousandths */
};

static inline bool body_ok(const uint8_t *r, uint8_t accounts)
{
    uint64_t units = big_endian_8(r + 24);
    uint32_t rest = big_endian_2(r + 22);
    return (r[17] < accounts) & (r[18] < accounts) & (r[17] != r[18]) & (units <= MOST_UNITS) & (rest <= 9999);
}

static inline bool ended_ok(const uint8_t *r, uint8_t accounts)
{
    bool committed = (r[16] == 3) & (r[19] == 1);
    bool aborted = (r[16] == 4) & ((r[19] == 2) | (r[19] == 3));
    bool body = body_ok(r, accounts);
    return (committed | aborted) & body;
}

static bool open_book_ok(const uint8_t *book, size_t slots, uint8_t accounts, struct sum *sum)
{
    for (const uint8_t *r = book, *end = book + slots * RECORD; r < end; r += RECORD) {
        if (r[16] == 0) {
            if (!zeros(r, RECORD))
                return false;
            continue;
        }
        if (r[16] != 2 || r[19] != 0 || !body_ok(r, accounts))
            return false;
        sum->records++;
        sum->amount += (__int128)big_endian_8(r + 24) * 10000 + big_endian_2(r + 22);
    }
    return true;
}

static bool finished_book_ok(const uint8_t *book, size_t n, size_t finished, uint8_t accounts)
{
    bool ok = true;
    for (size_t k = 0; k < finished; k++)
        ok &= ended_ok(book + k * RECORD, accounts);
    return ok && zeros(book + finished * RECORD, n - finished * RECORD);
}

static __int128 positions(const uint8_t *head)
{
    __int128 sum = 0;
    for (size_t k = 0; k < head[11]; k++) {
        const uint8_t *a = head + FRONT + k * ACCOUNT;
        sum += (__int128)(int64_t)big_endian_8(a + 40) * 10000 + big_endian_2(a + 50);
    }
    return sum;
}

static bool shape_ok(const uint8_t *head, const uint8_t *opened, size_t opened_n, const uint8_t *ended, size_t ended_n)
{
    size_t slots = big_endian_2(head + 12), places = big_endian_2(head + 14), finished = big_endian_2(head + 16);
    struct sum sum = {0, 0};
    if (slots < 1 || slots > MOST_OPEN || places < 1 || opened_n != slots * RECORD || ended_n != places * RECORD)
        return false;
    if (!accounts_ok(head) || !open_book_ok(opened, slots, head[11], &sum))
        return false;
    if (sum.records + finished > places || sum.amount != positions(head))
        return false;
    return finished_book_ok(ended, ended_n, finished, head[11]);
}

/* ---- the calls ---- */

static const uint8_t *found(const uint8_t *book, size_t records, const uint8_t id[16])
{
    for (const uint8_t *r = book, *end = book + records * RECORD; r < end; r += RECORD)
        if (memcmp(r, id, 16) == 0 && r[16] != 0)
            return r;
    return NULL;
}

uint64_t PLAIN(lookup)(const uint8_t *head, size_t head_n, const uint8_t *opened, size_t opened_n, const uint8_t *ended,
                       size_t ended_n, const uint8_t *id, size_t id_n)
{
    uint8_t bytes[16];
    if (!head_formed(head, head_n) || !shape_ok(head, opened, opened_n, ended, ended_n))
        return 21 | 2001 << 16;
    if (PLAIN(read_id)(id, id_n, bytes, sizeof bytes) != IN_FORM)
        return 1 | 3101 << 16;
    const uint8_t *r = found(opened, opened_n / RECORD, bytes);
    if (r == NULL)
        r = found(ended, big_endian_2(head + 16), bytes);
    if (r == NULL)
        return 11 | 3208 << 16;
    return (uint64_t)__builtin_bswap32((uint32_t)word_at(r + 136)) << 32;
}

uint64_t PLAIN(read_all)(const uint8_t *bytes, size_t n)
{
    return zeros(bytes, n);
}
