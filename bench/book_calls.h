/* The rivals of the book's calls. The plain C ones are built once for each compiler, those of the second
   implementation (bench/second) by cargo; the library's own are include/vaikshurd.h. */
#ifndef BOOK_CALLS_H
#define BOOK_CALLS_H

#include "calls.h"

#define DECLARE_BOOK_CALLS(P)                                                                         \
    uint64_t P##_lookup(const uint8_t *head, size_t head_n, const uint8_t *opened, size_t opened_n,   \
                        const uint8_t *ended, size_t ended_n, const uint8_t *id, size_t id_n);        \
    /* Reads so many bytes and does nothing else with them: what memory allows. */                    \
    uint64_t P##_read_all(const uint8_t *bytes, size_t n);

#ifdef PREFIX
#define DECLARE_BOOK_FOR(p) DECLARE_BOOK_CALLS(p)
DECLARE_BOOK_FOR(PREFIX)
#endif

#endif
