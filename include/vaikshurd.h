/* Vaikshurd: the transfer book of a payment switch, as C calls. C99 and C++.

   The library keeps one book for one currency and one settlement window, in memory that the host
   lends for each call: a head of 2,080 bytes, an open book and a finished book of records of 160
   bytes each. It allocates nothing, keeps nothing between calls, opens nothing and never fails: each
   call answers, whatever the lent bytes are. What a call answers and every byte that it leaves are
   settled by its promise in crates/vaikshurd, for every input.

   Lent slices. A slice is a pointer and a length in bytes, in this order; the length's name is the
   slice's with _n. A text is a slice too: its bytes, without an ending zero. Three things are the
   host's to keep; nothing is promised of a call that is made without them, and the fault is the host's:
     - each pointer is not NULL, also where the length is 0, and so many bytes may be read there, and
       written where the pointer is not to const;
     - no aliasing: no two slices or numbers of one call overlap where one of them may be written;
     - nothing else writes the lent bytes while the call runs: not another thread, and not another
       process where they lie in a mapped file.
   No pointer needs an alignment, but for those to numbers. Calls on different books may run at once.

   Answers. Every call but the last three below answers one uint64_t: the number in bits 0 to 15, the
   API's error code in bits 16 to 31, the mark in bits 32 to 63 (vaik_number_of, vaik_code_of,
   vaik_mark_of). The mark is the acceptance number of the transfer if a book holds its id after the
   call, for vaik_time the count of transfers that it expired, for a writer the length of the text,
   else 0; with 1 and 21 it is 0. Any number but 0 says that no lent byte was changed.

   Refusals are tested in the order in which they are listed with each call. "In form" is what the
   published listings say: amount `0` or up to 18 digits without a leading 0, then perhaps a point and
   one to four digits, the last not 0; id a UUID of 36 characters in lower case; instant
   `yyyy-MM-ddTHH:mm:ss.SSS` with `Z` or a sign and HH:MM; condition and fulfilment 43 characters of
   base64url; packet 1 to 32,768 characters of base64url, of which at the end at most two `=`; name 1 to
   32 bytes from 0x21 to 0x7E; currency three letters A to Z; abort code four digits, the first not 0. */
#ifndef VAIKSHURD_H
#define VAIKSHURD_H

#include <stddef.h>
#include <stdint.h>

#ifdef __cplusplus
extern "C" {
#endif

/* ---- lengths and limits ---- */

#define VAIK_HEAD_LENGTH 2080   /* bytes of the head; their form is docs/HEAD.md */
#define VAIK_RECORD_LENGTH 160  /* bytes of a record; a free one is all zeros */
#define VAIK_LIST_PLACE 4       /* bytes of a place of the time list, an acceptance number, big-endian */
#define VAIK_MOST_OPEN 1024     /* records of the open book: 1 to so many */
#define VAIK_MOST_FINISHED 65535 /* records of the finished book: 1 to so many */
#define VAIK_MOST_ACCOUNTS 32
#define VAIK_ID_LENGTH 16        /* bytes that an id's text reads to */
#define VAIK_CONDITION_LENGTH 32 /* bytes that a condition's or a fulfilment's text reads to */
#define VAIK_MOST_CAP UINT64_C(100000000000000000)          /* whole units of a cap, with remainder 0 */
#define VAIK_MOST_UNITS UINT64_C(999999999999999999)        /* whole units of an amount */
#define VAIK_MOST_REMAINDER 9999                            /* ten-thousandths beside them */
#define VAIK_FIRST_INSTANT INT64_C(-30610224000000)         /* what vaik_write_datetime writes, from .. */
#define VAIK_LAST_INSTANT INT64_C(253402300799999)          /* .. to: the years 1000 to 9999 UTC */

/* The longest text of each field. */
#define VAIK_AMOUNT_TEXT 23
#define VAIK_ID_TEXT 36
#define VAIK_DATETIME_TEXT 29 /* with an offset; vaik_write_datetime writes 24, with a Z */
#define VAIK_CONDITION_TEXT 43
#define VAIK_PACKET_TEXT 32768
#define VAIK_NAME_TEXT 32
#define VAIK_CURRENCY_TEXT 3
#define VAIK_CODE_TEXT 4

/* Where the fields of a record start; numbers are big-endian. */
#define VAIK_AT_ID 0
#define VAIK_AT_STATE 16 /* VAIK_FREE, VAIK_RESERVED, .. */
#define VAIK_AT_PAYER 17 /* account numbers from 0 */
#define VAIK_AT_PAYEE 18
#define VAIK_AT_ENDED_BY 19   /* VAIK_BY_NOTHING, .. */
#define VAIK_AT_CODE 20       /* 2 bytes: error code, 0 if none */
#define VAIK_AT_REMAINDER 22  /* 2 bytes: the amount's ten-thousandths .. */
#define VAIK_AT_UNITS 24      /* 8 bytes: .. and whole units */
#define VAIK_AT_EXPIRATION 32 /* 8 bytes, two's complement: milliseconds from 1970 */
#define VAIK_AT_CONDITION 40  /* 32 bytes */
#define VAIK_AT_FULFILMENT 72 /* 32 bytes, zeros if none */
#define VAIK_AT_PACKET 104    /* 32 bytes: SHA-256 of the packet's characters */
#define VAIK_AT_NUMBER 136    /* 4 bytes: acceptance number, from 1 */

enum vaik_state { VAIK_FREE = 0, VAIK_RESERVED = 2, VAIK_COMMITTED = 3, VAIK_ABORTED = 4 };
enum vaik_ended_by { VAIK_BY_NOTHING = 0, VAIK_BY_FULFILMENT = 1, VAIK_BY_PAYEE = 2, VAIK_BY_EXPIRY = 3 };

/* Which book has a record, as vaik_lookup_place answers. */
enum vaik_book { VAIK_NOWHERE = 0, VAIK_OPEN_BOOK = 1, VAIK_FINISHED_BOOK = 2 };

/* ---- answers ---- */

/* The number of an answer. The API's error code stands beside it; 0 where none is given. */
enum vaik_answer {
    VAIK_DONE = 0,
    VAIK_NOT_IN_FORM = 1,        /* 3101: a field not in form */
    VAIK_NO_PAYER = 2,           /* 3202: payer has no account */
    VAIK_NO_PAYEE = 3,           /* 3203: payee has no account */
    VAIK_PAYER_IS_PAYEE = 4,     /* 3100 */
    VAIK_OTHER_CURRENCY = 5,     /* 3100 */
    VAIK_OTHER_CONTENT = 6,      /* 3106: same id, other content */
    VAIK_EXPIRED = 7,            /* 3303 */
    VAIK_OPEN_BOOK_FULL = 8,     /* 2005 */
    VAIK_NO_PLACE_LEFT = 9,      /* 2003: no place left in the finished book */
    VAIK_CAP_PASSED = 10,        /* 4001: cap would be passed */
    VAIK_UNKNOWN_ID = 11,        /* 3208: id in neither book */
    VAIK_NOT_THE_PAYEE = 12,     /* 3100: sender isn't the transfer's payee */
    VAIK_ENDED_ANOTHER_WAY = 13, /* 3100 */
    VAIK_NO_MATCH = 14,          /* 3100: fulfilment doesn't match */
    VAIK_CLOCK_GOES_BACK = 15,
    VAIK_LIST_TOO_SHORT = 16,
    VAIK_NAME_HELD = 17,
    VAIK_ACCOUNTS_FULL = 18, /* 32 accounts */
    VAIK_CAP_TOO_HIGH = 19,  /* above 10^17 units */
    VAIK_BAD_LENGTHS = 20,   /* book lengths outside limits or no multiple of 160; another length of the head */
    VAIK_OUT_OF_SHAPE = 21,  /* 2001: head and books are not of the shape, or not yet opened */
    VAIK_OUTSIDE_YEARS = 22, /* instant outside years 1000 to 9999 UTC */
    VAIK_NO_ROOM = 23,       /* no room for the text or the bytes */
    VAIK_RESEND = 24         /* resend, nothing to do */
};

/* The parts of an answer. */
static inline uint32_t vaik_number_of(uint64_t answer)
{
    return (uint32_t)(answer & 0xffff);
}

static inline uint32_t vaik_code_of(uint64_t answer)
{
    return (uint32_t)((answer >> 16) & 0xffff);
}

static inline uint32_t vaik_mark_of(uint64_t answer)
{
    return (uint32_t)(answer >> 32);
}

/* The parts of what vaik_lookup_place answers: an enum vaik_book, and the record's first byte in it. */
static inline uint32_t vaik_book_of(uint64_t place)
{
    return (uint32_t)(place >> 32);
}

static inline size_t vaik_offset_of(uint64_t place)
{
    return (size_t)(place & 0xffffffff);
}

/* A big-endian number of a record, of a head or of the time list, so many bytes (at most 8) from a place on. */
static inline uint64_t vaik_number_at(const uint8_t *bytes, size_t at, size_t width)
{
    uint64_t number = 0;
    size_t i;
    for (i = 0; i < width; i++)
        number = number << 8 | bytes[at + i];
    return number;
}

/* ---- the book ---- */

/* Starts a book: its currency and its first time. 1, 20 (the books' lengths, or another length of the head
   than VAIK_HEAD_LENGTH). Looks at no byte of head and books; accepted, it writes all of them: both books
   are zeros, the head has no account. A second open starts afresh. Mark 0. */
uint64_t vaik_open(uint8_t *head, size_t head_n, uint8_t *opened, size_t opened_n, uint8_t *ended, size_t ended_n,
                   const uint8_t *currency, size_t currency_n, const uint8_t *time, size_t time_n);

/* Each of the following calls on a book answers 21 first: where the head has another length or form, where the
   books have other lengths than at opening, and where head and books are not of the shape. It reads all
   that it is lent for that, so that its time is about that of a pass over both books.

   An FSP gets an account: name, and cap as an amount's text. 21, 1, 19, 17, 18. Writes the head. Mark 0. */
uint64_t vaik_join(uint8_t *head, size_t head_n, const uint8_t *opened, size_t opened_n, const uint8_t *ended,
                   size_t ended_n, const uint8_t *name, size_t name_n, const uint8_t *cap, size_t cap_n);

/* Reserves a transfer. 21, 1, 2, 3, 4, 5; if the id is held, 24 when payer, payee, amount, condition bytes,
   expiration instant and packet hash are equal, else 6; 7 if expiration <= book time; 8; 9; 10. Writes the
   head (the payer's position rises by the amount) and the record into the lowest free slot of the open
   book. The mark is the new acceptance number; the held transfer's with 2 to 6 and 24. */
uint64_t vaik_prepare(uint8_t *head, size_t head_n, uint8_t *opened, size_t opened_n, const uint8_t *ended,
                      size_t ended_n, const uint8_t *id, size_t id_n, const uint8_t *payer, size_t payer_n,
                      const uint8_t *payee, size_t payee_n, const uint8_t *currency, size_t currency_n,
                      const uint8_t *amount, size_t amount_n, const uint8_t *condition, size_t condition_n,
                      const uint8_t *expiration, size_t expiration_n, const uint8_t *packet, size_t packet_n);

/* Commits a reserved transfer: the sender is its payee. 21, 1, 11, 12; COMMITTED: 24 for the same fulfilment
   bytes, else 6; expired: 7; aborted by the payee: 13; RESERVED: 14 unless the fulfilment has the condition
   as SHA-256. Writes the head (the payee's position falls by the amount), the record to the next place of the
   finished book, and zeros to its slot. */
uint64_t vaik_fulfil(uint8_t *head, size_t head_n, uint8_t *opened, size_t opened_n, uint8_t *ended, size_t ended_n,
                     const uint8_t *sender, size_t sender_n, const uint8_t *id, size_t id_n,
                     const uint8_t *fulfilment, size_t fulfilment_n);

/* Aborts a reserved transfer: the sender is its payee. 21, 1, 11, 12; COMMITTED: 13; expired: 7; aborted by
   the payee: 24 for the same code, else 6. Writes as vaik_fulfil does, but it is the payer's position that
   falls. */
uint64_t vaik_abort(uint8_t *head, size_t head_n, uint8_t *opened, size_t opened_n, uint8_t *ended, size_t ended_n,
                    const uint8_t *sender, size_t sender_n, const uint8_t *id, size_t id_n, const uint8_t *code,
                    size_t code_n);

/* The book time goes on: every reserved transfer with expiration <= the instant is aborted with code 3303.
   21, 1, 15 if the instant is below the book time, 16 if the list has fewer places than transfers to expire
   (a rest shorter than a place is none). Writes the head (each payer's position falls), both books, and
   the expired transfers' acceptance numbers to the list, ascending; its other places stay. The mark
   is how many there were. */
uint64_t vaik_time(uint8_t *head, size_t head_n, uint8_t *opened, size_t opened_n, uint8_t *ended, size_t ended_n,
                   uint8_t *list, size_t list_n, const uint8_t *instant, size_t instant_n);

/* Finds a transfer. 21, 1, 11. Writes nothing. The mark is its acceptance number. */
uint64_t vaik_lookup(const uint8_t *head, size_t head_n, const uint8_t *opened, size_t opened_n,
                     const uint8_t *ended, size_t ended_n, const uint8_t *id, size_t id_n);

/* ---- the field texts ---- */

/* An amount's whole units and ten-thousandths. 1. */
uint64_t vaik_read_amount(const uint8_t *text, size_t text_n, uint64_t *units, uint16_t *remainder);

/* An id's 16 bytes, to the front of the slice; bytes past them stay. 1, 23. */
uint64_t vaik_read_id(const uint8_t *text, size_t text_n, uint8_t *id, size_t id_n);

/* An instant in milliseconds from 1970-01-01T00:00:00.000Z. 1. */
uint64_t vaik_read_datetime(const uint8_t *text, size_t text_n, int64_t *instant);

/* A condition's or a fulfilment's 32 bytes, to the front of the slice; bytes past them stay. 1, 23. */
uint64_t vaik_read_condition(const uint8_t *text, size_t text_n, uint8_t *condition, size_t condition_n);

/* A writer puts the text to the front of the slice; bytes past it stay. The mark is the text's length.

   Of an amount. 1 for units above VAIK_MOST_UNITS or a remainder above VAIK_MOST_REMAINDER; 23. */
uint64_t vaik_write_amount(uint64_t units, uint16_t remainder, uint8_t *out, size_t out_n);

/* Of an id. 1 for bytes that no text reads to, also where they are not 16; 23. */
uint64_t vaik_write_id(const uint8_t *id, size_t id_n, uint8_t *out, size_t out_n);

/* Of an instant, with a Z. 22 outside VAIK_FIRST_INSTANT to VAIK_LAST_INSTANT; 23. */
uint64_t vaik_write_datetime(int64_t instant, uint8_t *out, size_t out_n);

/* Of a condition or a fulfilment. 1 where the bytes are not 32; 23. */
uint64_t vaik_write_condition(const uint8_t *condition, size_t condition_n, uint8_t *out, size_t out_n);

/* ---- calls with an answer of their own ---- */

/* Where a transfer's record is: the book (enum vaik_book) in bits 32 to 63, the offset of the record's first
   byte in bits 0 to 31 (vaik_book_of, vaik_offset_of). 0 wherever vaik_lookup is refused. Writes nothing. */
uint64_t vaik_lookup_place(const uint8_t *head, size_t head_n, const uint8_t *opened, size_t opened_n,
                           const uint8_t *ended, size_t ended_n, const uint8_t *id, size_t id_n);

/* The API's error code of an answer's number; 0 for a number that no answer has. */
uint32_t vaik_code(uint32_t number);

/* VAIK_HEAD_LENGTH, as the library has it. */
uint64_t vaik_head_length(void);

#ifdef __cplusplus
}
#endif

#endif
