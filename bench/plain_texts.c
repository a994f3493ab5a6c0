/* Readers and writers of the field texts in plain C: the yardstick for ours. They
   make the same checks and give the same answers; written for speed as one does
   by hand: tables for hex and base64url, a return at the first offending byte. */
#include "calls.h"

#include <string.h>

#define XX 0xff /* a byte outside the alphabet */
#define NONE XX, XX, XX, XX, XX, XX, XX, XX, XX, XX, XX, XX, XX, XX, XX, XX /* 16 of them */

/* Lower-case hex digits. */
static const uint8_t HEX[256] = {
    NONE, NONE, NONE,
     0,  1,  2,  3,  4,  5,  6,  7,  8,  9, XX, XX, XX, XX, XX, XX,
    NONE, NONE,
    XX, 10, 11, 12, 13, 14, 15, XX, XX, XX, XX, XX, XX, XX, XX, XX,
    NONE, NONE, NONE, NONE, NONE, NONE, NONE, NONE,
    NONE,
};

/* base64url. */
static const uint8_t BASE64URL[256] = {
    NONE, NONE,
    XX, XX, XX, XX, XX, XX, XX, XX, XX, XX, XX, XX, XX, 62, XX, XX,
    52, 53, 54, 55, 56, 57, 58, 59, 60, 61, XX, XX, XX, XX, XX, XX,
    XX,  0,  1,  2,  3,  4,  5,  6,  7,  8,  9, 10, 11, 12, 13, 14,
    15, 16, 17, 18, 19, 20, 21, 22, 23, 24, 25, XX, XX, XX, XX, 63,
    XX, 26, 27, 28, 29, 30, 31, 32, 33, 34, 35, 36, 37, 38, 39, 40,
    41, 42, 43, 44, 45, 46, 47, 48, 49, 50, 51, XX, XX, XX, XX, XX,
    NONE, NONE, NONE, NONE, NONE, NONE, NONE, NONE,
};

static const char HEX_DIGITS[16] = "0123456789abcdef";
static const char BASE64URL_DIGITS[64] = "ABCDEFGHIJKLMNOPQRSTUVWXYZabcdefghijklmnopqrstuvwxyz0123456789-_";

static const char PAIRS[200] =
    "0001020304050607080910111213141516171819202122232425262728293031323334353637383940414243444546474849"
    "5051525354555657585960616263646566676869707172737475767778798081828384858687888990919293949596979899";

static inline unsigned digit(uint8_t c)
{
    return (unsigned)c - '0'; /* above 9 for every other byte */
}

/* A text of fixed width that is too short is read as if zero bytes followed: no form
   has a zero byte, so that reading stops there or before, which is the right offset. */
#define PADDED(s, n, width)                   \
    uint8_t padded[width] = {0};              \
    if ((n) < (width)) {                      \
        if ((n) != 0)                         \
            memcpy(padded, (s), (n));         \
        (s) = padded;                         \
    }

/* ---- amount ---- */

uint64_t PLAIN(read_amount)(const uint8_t *s, size_t n, uint64_t *units, uint16_t *remainder)
{
    static const uint16_t WEIGHT[4] = {1000, 100, 10, 1};
    if (n == 0 || digit(s[0]) > 9)
        return 0;
    uint64_t whole = digit(s[0]);
    size_t i = 1;
    if (whole != 0) {
        size_t most = n < 18 ? n : 18;
        for (; i < most && digit(s[i]) <= 9; i++)
            whole = whole * 10 + digit(s[i]);
    }
    unsigned part = 0;
    if (i < n) {
        if (s[i] != '.')
            return i;
        size_t point = i++, last = 0;
        for (; i < n; i++) {
            size_t place = i - point - 1;
            if (place == 4 || digit(s[i]) > 9 || (place == 3 && s[i] == '0'))
                return i;
            last = digit(s[i]);
            part += (unsigned)last * WEIGHT[place];
        }
        if (last == 0) /* no decimal, or the last is 0: the text stops too soon */
            return n;
    }
    *units = whole;
    *remainder = (uint16_t)part;
    return IN_FORM;
}

static size_t decimals(unsigned remainder)
{
    if (remainder == 0)
        return 0;
    if (remainder % 10 != 0)
        return 4;
    if (remainder % 100 != 0)
        return 3;
    return remainder % 1000 != 0 ? 2 : 1;
}

static size_t digits(uint64_t units)
{
    size_t count = 1;
    for (; units >= 10000; units /= 10000)
        count += 4;
    return count + (units >= 10) + (units >= 100) + (units >= 1000);
}

uint64_t PLAIN(write_amount)(uint64_t units, uint16_t remainder, uint8_t *out, size_t n)
{
    if (units > 999999999999999999u || remainder > 9999)
        return 1;
    size_t whole = digits(units), part = decimals(remainder);
    size_t length = part == 0 ? whole : whole + 1 + part;
    if (n < length)
        return 23;
    if (part != 0) {
        char four[4];
        memcpy(four, PAIRS + 2 * (remainder / 100), 2);
        memcpy(four + 2, PAIRS + 2 * (remainder % 100), 2);
        out[whole] = '.';
        memcpy(out + whole + 1, four, part);
    }
    size_t at = whole;
    for (; at > 2; units /= 100) {
        at -= 2;
        memcpy(out + at, PAIRS + 2 * (units % 100), 2);
    }
    if (at == 2)
        memcpy(out, PAIRS + 2 * units, 2);
    else
        out[0] = (uint8_t)('0' + units);
    return WRITTEN(length);
}

/* ---- id ---- */

/* Reads hex digits in pairs from s[at]; gives the place it came to, the end if all are digits. */
static inline size_t hex_pairs(const uint8_t *s, size_t at, size_t end, uint8_t *out)
{
    for (; at < end; at += 2) {
        uint8_t high = HEX[s[at]], low = HEX[s[at + 1]];
        if (high == XX)
            return at;
        if (low == XX)
            return at + 1;
        *out++ = (uint8_t)(high << 4 | low);
    }
    return at;
}

uint64_t PLAIN(read_id)(const uint8_t *s, size_t n, uint8_t *out, size_t out_n)
{
    uint8_t id[16];
    size_t at;
    PADDED(s, n, 36)
    if ((at = hex_pairs(s, 0, 8, id)) != 8)
        return at;
    if (s[8] != '-')
        return 8;
    if ((at = hex_pairs(s, 9, 13, id + 4)) != 13)
        return at;
    if (s[13] != '-')
        return 13;
    if (s[14] < '1' || s[14] > '5')
        return 14;
    if ((at = hex_pairs(s, 14, 18, id + 6)) != 18)
        return at;
    if (s[18] != '-')
        return 18;
    if (s[19] != '8' && s[19] != '9' && s[19] != 'a' && s[19] != 'b')
        return 19;
    if ((at = hex_pairs(s, 19, 23, id + 8)) != 23)
        return at;
    if (s[23] != '-')
        return 23;
    if ((at = hex_pairs(s, 24, 36, id + 10)) != 36)
        return at;
    if (n > 36)
        return 36;
    if (out_n >= 16)
        memcpy(out, id, 16);
    return IN_FORM;
}

uint64_t PLAIN(write_id)(const uint8_t *id, size_t id_n, uint8_t *out, size_t n)
{
    if (id_n != 16 || id[6] < 0x10 || id[6] > 0x5f || (id[8] & 0xc0) != 0x80)
        return 1;
    if (n < 36)
        return 23;
    for (size_t i = 0; i < 16; i++) {
        if (i == 4 || i == 6 || i == 8 || i == 10)
            *out++ = '-';
        *out++ = (uint8_t)HEX_DIGITS[id[i] >> 4];
        *out++ = (uint8_t)HEX_DIGITS[id[i] & 15];
    }
    return WRITTEN(36);
}

/* ---- date and time ---- */

/* Days from 1970-01-01 to a date of the Gregorian calendar; years are counted from March. */
static inline int64_t days_of(unsigned year, unsigned month, unsigned day)
{
    unsigned y = year - (month <= 2);
    unsigned from_march = month > 2 ? month - 3 : month + 9;
    unsigned era = y / 400, of_era = y % 400;
    unsigned day_of_year = (153 * from_march + 2) / 5 + day - 1;
    unsigned day_of_era = of_era * 365 + of_era / 4 - of_era / 100 + day_of_year;
    return (int64_t)era * 146097 + day_of_era - 719468;
}

static inline unsigned days_in(unsigned year, unsigned month)
{
    static const uint8_t DAYS[13] = {0, 31, 28, 31, 30, 31, 30, 31, 31, 30, 31, 30, 31};
    int leap = year % 4 == 0 && (year % 100 != 0 || year % 400 == 0);
    return DAYS[month] + (unsigned)(month == 2 && leap);
}

/* The two digits at s[at], the first of them at most `tens`; returns the offset of one that is not so. */
#define TWO_DIGITS(name, at, tens)                       \
    unsigned name = digit(s[at]);                        \
    if (name > (tens))                                   \
        return (at);                                     \
    if (digit(s[(at) + 1]) > 9)                          \
        return (at) + 1;                                 \
    name = name * 10 + digit(s[(at) + 1]);

/* The mark c at s[at]. */
#define MARK(at, c)                                      \
    if (s[at] != (c))                                    \
        return (at);

uint64_t PLAIN(read_datetime)(const uint8_t *s, size_t n, int64_t *ms)
{
    PADDED(s, n, 29)
    unsigned year = 0;
    for (size_t i = 0; i < 4; i++) {
        if (digit(s[i]) > 9 || (i == 0 && s[0] == '0'))
            return i;
        year = year * 10 + digit(s[i]);
    }
    MARK(4, '-')
    TWO_DIGITS(month, 5, 1)
    if (month == 0 || month > 12)
        return 6;
    MARK(7, '-')
    unsigned most = days_in(year, month);
    TWO_DIGITS(day, 8, most / 10)
    if (day == 0 || day > most)
        return 9;
    MARK(10, 'T')
    TWO_DIGITS(hour, 11, 2)
    if (hour > 23)
        return 12;
    MARK(13, ':')
    TWO_DIGITS(minute, 14, 5)
    MARK(16, ':')
    TWO_DIGITS(second, 17, 5)
    MARK(19, '.')
    unsigned thousandths = 0;
    for (size_t i = 20; i < 23; i++) {
        if (digit(s[i]) > 9)
            return i;
        thousandths = thousandths * 10 + digit(s[i]);
    }
    int64_t at = days_of(year, month, day) * 86400 + hour * 3600 + minute * 60 + second;
    size_t end = 24;
    if (s[23] != 'Z') {
        if (s[23] != '+' && s[23] != '-')
            return 23;
        TWO_DIGITS(hours, 24, 1)
        MARK(26, ':')
        TWO_DIGITS(minutes, 27, 5)
        int64_t offset = hours * 3600 + minutes * 60;
        at += s[23] == '+' ? -offset : offset;
        end = 29;
    }
    if (n > end)
        return end;
    *ms = at * 1000 + thousandths;
    return IN_FORM;
}

static inline void put_pair(uint8_t *out, unsigned value)
{
    memcpy(out, PAIRS + 2 * value, 2);
}

uint64_t PLAIN(write_datetime)(int64_t ms, uint8_t *out, size_t n)
{
    if (ms < -30610224000000 || ms > 253402300799999)
        return 22;
    if (n < 24)
        return 23;
    /* Counted from 0000-03-01, so that nothing below is negative. */
    uint64_t since = (uint64_t)(ms + 719468 * INT64_C(86400000));
    unsigned days = (unsigned)(since / 86400000), of_day = (unsigned)(since % 86400000);
    unsigned era = days / 146097, day_of_era = days % 146097;
    unsigned of_era = (day_of_era - day_of_era / 1460 + day_of_era / 36524 - day_of_era / 146096) / 365;
    unsigned day_of_year = day_of_era - (365 * of_era + of_era / 4 - of_era / 100);
    unsigned from_march = (5 * day_of_year + 2) / 153;
    unsigned month = from_march < 10 ? from_march + 3 : from_march - 9;
    unsigned year = era * 400 + of_era + (month <= 2);
    unsigned seconds = of_day / 1000, thousandths = of_day % 1000;
    memcpy(out, "0000-00-00T00:00:00.000Z", 24);
    put_pair(out, year / 100);
    put_pair(out + 2, year % 100);
    put_pair(out + 5, month);
    put_pair(out + 8, day_of_year - (153 * from_march + 2) / 5 + 1);
    put_pair(out + 11, seconds / 3600);
    put_pair(out + 14, seconds / 60 % 60);
    put_pair(out + 17, seconds % 60);
    out[20] = (uint8_t)('0' + thousandths / 100);
    put_pair(out + 21, thousandths % 100);
    return WRITTEN(24);
}

/* ---- condition and fulfilment ---- */

/* The first of four characters at s[at] that is outside the alphabet; there is one. */
static size_t outside(const uint8_t *s, size_t at)
{
    while (BASE64URL[s[at]] != XX)
        at++;
    return at;
}

uint64_t PLAIN(read_condition)(const uint8_t *s, size_t n, uint8_t *out, size_t out_n)
{
    uint8_t bytes[33];
    PADDED(s, n, 43)
    for (size_t i = 0, o = 0; i < 40; i += 4, o += 3) {
        uint32_t a = BASE64URL[s[i]], b = BASE64URL[s[i + 1]], c = BASE64URL[s[i + 2]], d = BASE64URL[s[i + 3]];
        if ((a | b | c | d) == XX)
            return outside(s, i);
        uint32_t three = a << 18 | b << 12 | c << 6 | d;
        bytes[o] = (uint8_t)(three >> 16);
        bytes[o + 1] = (uint8_t)(three >> 8);
        bytes[o + 2] = (uint8_t)three;
    }
    uint32_t a = BASE64URL[s[40]], b = BASE64URL[s[41]], c = BASE64URL[s[42]];
    if ((a | b | c) == XX)
        return outside(s, 40);
    if (n > 43)
        return 43;
    bytes[30] = (uint8_t)(a << 2 | b >> 4);
    bytes[31] = (uint8_t)(b << 4 | c >> 2);
    if (out_n >= 32)
        memcpy(out, bytes, 32);
    return IN_FORM;
}

uint64_t PLAIN(write_condition)(const uint8_t *bytes, size_t bytes_n, uint8_t *out, size_t n)
{
    if (bytes_n != 32)
        return 1;
    if (n < 43)
        return 23;
    for (size_t i = 0, o = 0; i < 30; i += 3, o += 4) {
        uint32_t three = (uint32_t)bytes[i] << 16 | (uint32_t)bytes[i + 1] << 8 | bytes[i + 2];
        out[o] = (uint8_t)BASE64URL_DIGITS[three >> 18];
        out[o + 1] = (uint8_t)BASE64URL_DIGITS[three >> 12 & 63];
        out[o + 2] = (uint8_t)BASE64URL_DIGITS[three >> 6 & 63];
        out[o + 3] = (uint8_t)BASE64URL_DIGITS[three & 63];
    }
    out[40] = (uint8_t)BASE64URL_DIGITS[bytes[30] >> 2];
    out[41] = (uint8_t)BASE64URL_DIGITS[(bytes[30] << 4 | bytes[31] >> 4) & 63];
    out[42] = (uint8_t)BASE64URL_DIGITS[bytes[31] << 2 & 63];
    return WRITTEN(43);
}

/* ---- packet, name, currency, abort code ---- */

uint64_t PLAIN(read_packet)(const uint8_t *s, size_t n)
{
    size_t most = n < 32768 ? n : 32768, i = 0;
    while (i < most && BASE64URL[s[i]] != XX)
        i++;
    if (i == 0)
        return 0;
    for (int equals = 0; equals < 2 && i < most && s[i] == '='; equals++)
        i++;
    return i < n ? i : IN_FORM;
}

uint64_t PLAIN(read_name)(const uint8_t *s, size_t n)
{
    size_t most = n < 32 ? n : 32, i = 0;
    while (i < most && s[i] >= 0x21 && s[i] <= 0x7e)
        i++;
    return i < n || n == 0 ? i : IN_FORM;
}

uint64_t PLAIN(read_currency)(const uint8_t *s, size_t n)
{
    size_t most = n < 3 ? n : 3, i = 0;
    while (i < most && s[i] >= 'A' && s[i] <= 'Z')
        i++;
    return i == 3 && n == 3 ? IN_FORM : i;
}

uint64_t PLAIN(read_code)(const uint8_t *s, size_t n, uint16_t *code)
{
    size_t most = n < 4 ? n : 4, i = 0;
    unsigned value = 0;
    if (n > 0 && s[0] == '0')
        return 0;
    for (; i < most && digit(s[i]) <= 9; i++)
        value = value * 10 + digit(s[i]);
    if (i != 4 || n != 4)
        return i;
    *code = (uint16_t)value;
    return IN_FORM;
}
