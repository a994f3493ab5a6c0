/* The calls that are measured. Every build, ours and the plain C ones, has the
   same calls under its own prefix, so that the driver runs all of them alike. */
#ifndef CALLS_H
#define CALLS_H

#include <stddef.h>
#include <stdint.h>

/* What a reader answers for a text in form. Any other answer is the offset of the
   first byte at which no text of the form can go on; for a text that stops too
   soon, its length. Refused, nothing is stored. */
#define IN_FORM UINT64_MAX

/* What a writer answers: the number (0, 1, 22 or 23) in bits 0 to 31, the text's
   length in bits 32 to 63, 0 when refused. Bytes past the text stay. */
#define WRITTEN(length) ((uint64_t)(length) << 32)

#define DECLARE_CALLS(P)                                                                              \
    uint64_t P##_read_amount(const uint8_t *s, size_t n, uint64_t *units, uint16_t *remainder);       \
    uint64_t P##_write_amount(uint64_t units, uint16_t remainder, uint8_t *out, size_t n);            \
    uint64_t P##_read_id(const uint8_t *s, size_t n, uint8_t *out, size_t out_n);                     \
    uint64_t P##_write_id(const uint8_t *id, size_t id_n, uint8_t *out, size_t n);                    \
    uint64_t P##_read_datetime(const uint8_t *s, size_t n, int64_t *ms);                              \
    uint64_t P##_write_datetime(int64_t ms, uint8_t *out, size_t n);                                  \
    uint64_t P##_read_condition(const uint8_t *s, size_t n, uint8_t *out, size_t out_n);              \
    uint64_t P##_write_condition(const uint8_t *bytes, size_t bytes_n, uint8_t *out, size_t n);       \
    uint64_t P##_read_name(const uint8_t *s, size_t n);                                               \
    uint64_t P##_read_currency(const uint8_t *s, size_t n);                                           \
    uint64_t P##_read_packet(const uint8_t *s, size_t n);                                             \
    uint64_t P##_read_code(const uint8_t *s, size_t n, uint16_t *code);                               \
    void P##_sha256(const uint8_t *m, size_t n, uint8_t *out, size_t out_n);

/* One build's calls, in the order of the declarations. */
struct calls {
    uint64_t (*read_amount)(const uint8_t *, size_t, uint64_t *, uint16_t *);
    uint64_t (*write_amount)(uint64_t, uint16_t, uint8_t *, size_t);
    uint64_t (*read_id)(const uint8_t *, size_t, uint8_t *, size_t);
    uint64_t (*write_id)(const uint8_t *, size_t, uint8_t *, size_t);
    uint64_t (*read_datetime)(const uint8_t *, size_t, int64_t *);
    uint64_t (*write_datetime)(int64_t, uint8_t *, size_t);
    uint64_t (*read_condition)(const uint8_t *, size_t, uint8_t *, size_t);
    uint64_t (*write_condition)(const uint8_t *, size_t, uint8_t *, size_t);
    uint64_t (*read_name)(const uint8_t *, size_t);
    uint64_t (*read_currency)(const uint8_t *, size_t);
    uint64_t (*read_packet)(const uint8_t *, size_t);
    uint64_t (*read_code)(const uint8_t *, size_t, uint16_t *);
    void (*sha256)(const uint8_t *, size_t, uint8_t *, size_t);
};

#define CALLS_OF(P)                                                                                   \
    { P##_read_amount, P##_write_amount, P##_read_id, P##_write_id, P##_read_datetime,                \
      P##_write_datetime, P##_read_condition, P##_write_condition, P##_read_name,                     \
      P##_read_currency, P##_read_packet, P##_read_code, P##_sha256 }

/* The plain C files are compiled once for each compiler, with -DPREFIX=.. */
#ifdef PREFIX
#define JOINED(p, name) p##_##name
#define JOIN(p, name) JOINED(p, name)
#define PLAIN(name) JOIN(PREFIX, name)
#define DECLARE_FOR(p) DECLARE_CALLS(p)
DECLARE_FOR(PREFIX)
#endif

#endif
