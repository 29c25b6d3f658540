/* The listener, the whole read and the desk as an embedded C programmer would
 * tune them, on the records of include/anthercup.h and with its answers: a
 * table of octet kinds and one of types for each edition, one of classes for
 * each way, the record taken as two words (low octet first, so for
 * little-endian machines), each stage reading and writing only what it needs,
 * contents in runs, a header judged at once where its length octet is there
 * too. Portable C99: no intrinsics, no alignment asked.
 */
#include "tuned.h"

#include <string.h>

/* Kept out of what calls it, so that the common path stays short. */
#ifdef __GNUC__
#define APART __attribute__((noinline))
#else
#define APART
#endif

enum { KIND, SIZE, HEADER, LENGTH, CONTENT, MESSAGE, REFUSED };
enum {
    CARRIED,
    DATE,
    NUMBER,
    ABSENT,
    NAME,
    LAMP,
    IDENTITY,
    CALL_TYPE,
    WAITING,
    FORWARDED,
    USER,
    SHORT_TEXT,
    MOMENT,
    CHARGE,
    DURATION,
    TERMINAL,
    DISPLAY,
    SERVICE,
    EXTENSION,
    OLD_NUMBER,
    OLD_FORWARDED,
    OLD_USER,
    CLASSES
};
enum { OLD = 1, EDITIONS };
enum { STRICT, LENIENT, WAYS };
enum {
    CODE_VALUE,
    DATE_VALUE,
    STATE_VALUE,
    TEXT_VALUE,
    CARRIED_VALUE,
    MOMENT_VALUE,
    DURATION_VALUE,
    MARKED_VALUE
};

/* How contents are judged: the first octet by a set, or by none; each octet by
 * a set; or by places, as the class has them. */
enum { FIRST, EACH, DATED, CHARGED, LASTING, TERMINALS, SHOWN, EXTENDED };

/* The kinds that an octet belongs to, a bit for each set that octets are judged
 * by; the old edition's classes have the bits of the present ones, in a table
 * of its own. */
enum {
    IN_NUMBER = 1,
    IN_NAME = 2,
    IN_ABSENT = 4,
    IN_LAMP = 8,
    IN_IDENTITY = 16,
    IN_CALL_TYPE = 32,
    IN_FORWARDED = 64,
    IN_USER = 128,
    IN_DISPLAY = 256,
    IN_SERVICE = 512,
    IN_CONNECTION = 1024,
    IN_DIGIT = 2048,
    IN_LETTER = 4096,
    IN_COMMA = 8192,
    IN_DASH = 16384
};

#define LOW(x)                                                      \
    ((x) == 0x00 ? IN_LAMP | IN_IDENTITY : 0)                       \
        | ((x) >= 1 && (x) <= 7 ? IN_CALL_TYPE : 0)                 \
        | ((x) <= 6 ? IN_FORWARDED : 0) | ((x) <= 15 ? IN_USER : 0) \
        | ((x) == 0x10 || (x) == 0x11 ? IN_CALL_TYPE : 0)
#define MID(x)                                                    \
    ((x) >= 0x20 && (x) <= 0x7E ? IN_NAME : 0)                    \
        | (((x) >= '0' && (x) <= '9') || (x) == ' ' || (x) == '#' \
                   || ((x) >= '(' && (x) <= '*') || (x) == '-'    \
               ? IN_NUMBER                                        \
               : 0)                                               \
        | ((x) == 'O' || (x) == 'P' ? IN_ABSENT : 0)              \
        | ((x) == 0x55 ? IN_IDENTITY : 0)                         \
        | ((x) == 0x50 || (x) == 0x51 ? IN_CALL_TYPE : 0)
#define HIGH(x)                                                         \
    ((x) >= 0x81 ? IN_CALL_TYPE : 0) | ((x) >= 0x80 ? IN_FORWARDED : 0) \
        | ((x) == 0xFF ? IN_LAMP | IN_IDENTITY : 0)
#define SHOW(x)                                           \
    (((x) & 127) <= 1 || (((x) & 127) >= 3 && ((x) & 127) <= 6) \
             || ((x) & 127) >= 0x70                       \
         ? IN_DISPLAY                                     \
         : 0)                                             \
        | ((x) <= 1 || (x) >= 0x80 ? IN_SERVICE : 0)      \
        | ((x) <= 7 ? IN_CONNECTION : 0)
#define PAY(x)                                        \
    ((x) >= '0' && (x) <= '9' ? IN_DIGIT : 0)         \
        | ((x) >= 'A' && (x) <= 'Z' ? IN_LETTER : 0)  \
        | ((x) == ',' ? IN_COMMA : 0) | ((x) == '-' ? IN_DASH : 0)
#define OF(x) (uint16_t)((LOW(x)) | (MID(x)) | (HIGH(x)) | (SHOW(x)) | (PAY(x)))
#define OLD_OF(x)                                                           \
    (uint16_t)(((x) == 0x00 || (x) == 0xFF ? IN_LAMP : 0)                   \
               | ((x) <= 6 ? IN_FORWARDED : 0)                              \
               | ((x) == 0 || ((x) >= 3 && (x) <= 5)                        \
                          || ((x) >= 0x0A && (x) <= 0x0D) || (x) == 0x0F    \
                      ? IN_USER                                             \
                      : 0)                                                  \
               | ((x) >= 0x20 && (x) <= 0x7E ? IN_NAME : 0)                 \
               | ((x) >= '0' && (x) <= '9' ? IN_NUMBER : 0)                 \
               | ((x) == 'O' || (x) == 'P' ? IN_ABSENT : 0))
#define ROW4(of, x) of(x), of((x) + 1), of((x) + 2), of((x) + 3)
#define ROW16(of, x) \
    ROW4(of, x), ROW4(of, (x) + 4), ROW4(of, (x) + 8), ROW4(of, (x) + 12)
#define ROW64(of, x) \
    ROW16(of, x), ROW16(of, (x) + 16), ROW16(of, (x) + 32), ROW16(of, (x) + 48)
static const uint16_t kinds_of[EDITIONS][256] = {
    {ROW64(OF, 0), ROW64(OF, 64), ROW64(OF, 128), ROW64(OF, 192)},
    {ROW64(OLD_OF, 0), ROW64(OLD_OF, 64), ROW64(OLD_OF, 128),
     ROW64(OLD_OF, 192)},
};

static const uint8_t class_of[EDITIONS][256] = {
    {
        [0x01] = DATE,
        [0x02] = NUMBER,
        [0x03] = NUMBER,
        [0x04] = ABSENT,
        [0x07] = NAME,
        [0x08] = ABSENT,
        [0x0B] = LAMP,
        [0x0D] = IDENTITY,
        [0x0E] = NUMBER,
        [0x0F] = MOMENT,
        [0x10] = NUMBER,
        [0x11] = CALL_TYPE,
        [0x12] = NUMBER,
        [0x13] = WAITING,
        [0x15] = FORWARDED,
        [0x16] = USER,
        [0x1A] = NUMBER,
        [0x20] = CHARGE,
        [0x21] = CHARGE,
        [0x22] = CHARGE,
        [0x23] = DURATION,
        [0x30] = SHORT_TEXT,
        [0x31] = SHORT_TEXT,
        [0x40] = TERMINAL,
        [0x50] = DISPLAY,
        [0x55] = SERVICE,
        [0xE0] = EXTENSION,
    },
    {
        [0x01] = DATE,
        [0x02] = OLD_NUMBER,
        [0x04] = ABSENT,
        [0x07] = SHORT_TEXT,
        [0x0B] = LAMP,
        [0x12] = OLD_NUMBER,
        [0x15] = OLD_FORWARDED,
        [0x16] = OLD_USER,
    },
};

/* The classes that a record may have, a bit each: of the present edition, of
 * the old one, and of all that are not known; carried ones in no strict way. */
#define COMMON (1 << CARRIED | 1 << DATE | 1 << ABSENT | 1 << LAMP)
static const uint32_t classes_of[EDITIONS + 1] = {
    (1 << OLD_NUMBER) - 1,
    COMMON | 1 << SHORT_TEXT | 1 << OLD_NUMBER | 1 << OLD_FORWARDED
        | 1 << OLD_USER,
    (1 << CLASSES) - 1,
};

/* By way and class: the least length and how far above it the greatest is, 1
 * where only even lengths are among them, how contents are judged, the set of
 * octets (0: none), of terminals and displays that of all but the first, and
 * the form of the value. In the strict way no length of a carried type fits
 * any room (document 02, Q-11). */
#define CODED(set) {1, 0, 0, FIRST, set, CODE_VALUE}
#define WRITTEN(most, set) {1, most - 1, 0, EACH, set, TEXT_VALUE}
#define LISTED                                                               \
    {8, 0, 0, DATED, 0, DATE_VALUE}, WRITTEN(20, IN_NUMBER),                 \
        CODED(IN_ABSENT), WRITTEN(50, IN_NAME), CODED(IN_LAMP),              \
        {3, 0, 0, FIRST, IN_IDENTITY, STATE_VALUE}, CODED(IN_CALL_TYPE),     \
        CODED(0), CODED(IN_FORWARDED), CODED(IN_USER), WRITTEN(20, IN_NAME), \
        {8, 2, 1, DATED, 0, MOMENT_VALUE}, {14, 0, 0, CHARGED, 0, TEXT_VALUE}, \
        {6, 0, 0, LASTING, 0, DURATION_VALUE},                               \
        {2, 19, 0, TERMINALS, IN_NUMBER, MARKED_VALUE},                      \
        {1, 252, 0, SHOWN, IN_NAME, MARKED_VALUE}, CODED(IN_SERVICE),        \
        {10, 0, 0, EXTENDED, 0, TEXT_VALUE}, WRITTEN(18, IN_NUMBER),         \
        CODED(IN_FORWARDED), CODED(IN_USER)
static const struct rule {
    uint8_t least, span, even, style;
    uint16_t kinds;
    uint8_t form;
} rules_of[WAYS][CLASSES] = {
    {{255, 0, 0, FIRST, 0, CARRIED_VALUE}, LISTED},
    {{1, 252, 0, FIRST, 0, CARRIED_VALUE}, LISTED},
};

/* The bit of a word that names the edition; 16 and 17 name none. */
static uint64_t named(unsigned edition)
{
    return (uint64_t)edition << 63;
}

static uint64_t word(unsigned number, unsigned place, unsigned size,
                     size_t taken)
{
    return number | (uint64_t)place << 8 | (uint64_t)size << 24
           | (uint64_t)taken << 40;
}

/* a refusal's word with its parameter's number (document 02, Q-3) */
static uint64_t fault(unsigned number, unsigned place, unsigned parameter,
                      size_t taken)
{
    return word(number, place, 0, taken) | (uint64_t)parameter << 56;
}

static uint64_t load(const uint8_t *p)
{
    uint64_t w;
    memcpy(&w, p, 8);
    return w;
}

static void store(uint8_t *p, uint64_t w)
{
    memcpy(p, &w, 8);
}

static void record(uint8_t *r, uint64_t low, uint64_t high)
{
    store(r, low);
    store(r + 8, high);
}

/* a length of the class that leaves 0 or at least 3 octets of the room */
static int length_fits(struct rule c, unsigned room, unsigned n)
{
    unsigned left = room - n - 2;
    return n - c.least <= c.span && !(n & c.even)
           && (left == 0 || left - 3 < 253);
}

static int possible(struct rule c, unsigned room)
{
    unsigned over = room - c.least - 2u;
    return (over <= c.span && !(over & c.even)) || over - 3 < 253;
}

/* The number of a type that is not possible. */
static unsigned impossible(unsigned class, unsigned way)
{
    return class == CARRIED && way == STRICT ? 10 : 3;
}

/* The days of a month (document 02, Q-2); what is no month has 31. */
static unsigned days_in(unsigned month)
{
    static const uint8_t days[13] = {31, 31, 29, 31, 30, 31, 30,
                                     31, 31, 30, 31, 30, 31};
    return month <= 12 ? days[month] : 31;
}

/* A date, or, where seconds may follow, a moment. */
static int date_octet(unsigned seconds, unsigned index, unsigned memory,
                      unsigned x)
{
    unsigned v = x - '0';
    switch (index) {
    case 0:
        return v <= 1;
    case 1:
        return v <= 9 && 10 * memory + v - 1 <= 11;
    case 2:
        return v <= 9 && 10 * v <= memory;
    case 3:
        return v <= 9 && v <= memory && (memory <= 21 || v);
    case 4:
        return v <= 2;
    case 5:
        return v <= 9 && 10 * memory + v <= 23;
    case 6:
        return v <= 5;
    case 7:
        return v <= 9 && 10 * memory + v <= 59;
    case 8:
        return !seconds || v <= 5;
    case 9:
        return !seconds || (v <= 9 && 10 * memory + v <= 59);
    default:
        return 1;
    }
}

/* What is remembered of a date behind the octet x at `index`: the tens of the
 * month, its days, what is left of them from the tens of the day on; after that
 * the last digit. */
static unsigned remember(unsigned index, unsigned memory, unsigned x)
{
    unsigned v = x >= '0' ? x - '0' : 0;
    if (index == 1)
        return days_in(10 * memory + v);
    if (index == 2)
        return 10 * v <= memory ? memory - 10 * v : 0;
    return v;
}

/* No octet may stand here: no memory. */
enum { NONE = 256 };

/* Of what a charge's last ten octets are, by what is remembered: in front of
 * the price's place, and from it on (document 02, Q-4). A comma is remembered
 * by the next. */
static const uint16_t charged[6][2] = {
    {IN_DIGIT | IN_COMMA, IN_DIGIT | IN_COMMA},
    {IN_DIGIT, IN_DIGIT},
    {IN_DIGIT, IN_DIGIT | IN_COMMA},
    {IN_DIGIT, IN_DIGIT},
    {IN_DIGIT, IN_DASH},
    {IN_DASH, IN_DASH},
};
enum { CURRENCY = 3, COST = 4, PRICE = 9, CHARGE_END = 14 };

/* What is remembered behind the flags: 08H not available, 10H in units. */
static unsigned flagged(unsigned memory, unsigned flags)
{
    unsigned by = flags & 0x18;
    if (memory == 0)
        return by & 0x08 ? NONE : by >> 3;
    if (memory > 1 || !by)
        return NONE;
    return by & 0x08 ? 5 : 4;
}

/* The three octets of a currency are of one set. */
static unsigned currency(unsigned memory)
{
    return memory == 0 ? IN_LETTER : memory == 1 ? IN_DASH : 0;
}

/* The greatest digits of a duration: hours, minutes, seconds. */
static const uint8_t lasting[6] = {9, 9, 5, 9, 5, 9};

static int lasting_octet(unsigned index, unsigned memory, unsigned x)
{
    unsigned v = x - '0';
    return index >= 6
           || (v <= lasting[index]
               && (!(index & 1) || 10 * memory + v <= (index < 2 ? 99 : 59)));
}

static int is_mark(unsigned x, unsigned length)
{
    return x - 2 <= 1 || (x == 1 && length == 2);
}

/* The country's code is digits, then spaces; then come characters. */
static int extension_octet(const uint16_t *kinds, unsigned index,
                           unsigned memory, unsigned x)
{
    if (index >= 3)
        return index >= 10 || kinds[x] & IN_NAME;
    if (x == ' ')
        return index > 0;
    return kinds[x] & IN_DIGIT && !(index == 2 && memory == 1);
}

static unsigned charge_step(const uint16_t *kinds, unsigned index,
                            unsigned memory, unsigned x)
{
    unsigned kind = kinds[x];
    if (index >= CHARGE_END)
        return 0;
    if (index >= COST) {
        kind &= memory <= 5 ? charged[memory][index >= PRICE] : 0;
        return kind ? memory + (kind == IN_COMMA) : NONE;
    }
    if (index == CURRENCY)
        return flagged(memory, x);
    if (index == 0)
        return kind & IN_LETTER ? 0 : kind & IN_DASH ? 1 : NONE;
    return kind & currency(memory) ? memory : NONE;
}

/* What is remembered behind the octet x at `index` of contents that are judged
 * by places, or NONE. */
static unsigned step(struct rule c, const uint16_t *kinds, unsigned length,
                     unsigned index, unsigned memory, unsigned x)
{
    switch (c.style) {
    case DATED:
        return date_octet(c.span, index, memory, x)
                   ? remember(index, memory, x)
                   : NONE;
    case CHARGED:
        return charge_step(kinds, index, memory, x);
    case LASTING:
        if (!lasting_octet(index, memory, x))
            return NONE;
        return x >= '0' ? x - '0' : 0;
    case TERMINALS:
        if (index == 0)
            return is_mark(x, length) ? x == 1 : NONE;
        return kinds[x] & (memory == 1 ? IN_CONNECTION : c.kinds) ? memory
                                                                  : NONE;
    case SHOWN:
        return kinds[x] & (index ? c.kinds : IN_DISPLAY) ? 0 : NONE;
    default:
        if (!extension_octet(kinds, index, memory, x))
            return NONE;
        return index == 1 && x == ' ';
    }
}

/* What is remembered behind octets that may stand, the first at `index`. */
static unsigned step_all(struct rule c, const uint16_t *kinds,
                         const uint8_t *p, const uint8_t *end, unsigned length,
                         unsigned index, unsigned memory)
{
    if (c.style <= EACH)
        return 0;
    while (p < end)
        memory = step(c, kinds, length, index++, memory, *p++);
    return memory;
}

/* The first place from p on whose octet is not of the set, or the end. */
static const uint8_t *fine_each(const uint16_t *kinds, unsigned set,
                                const uint8_t *p, const uint8_t *end)
{
    while (p < end && kinds[*p] & set)
        p++;
    return p;
}

/* As many octets as this from p on, or those up to the end. */
static const uint8_t *stop_at(const uint8_t *p, const uint8_t *end,
                              unsigned octets)
{
    return (size_t)(end - p) < octets ? end : p + octets;
}

/* The same of a charge's part in front of its price's place, or behind it. */
static const uint8_t *fine_charged(const uint16_t *kinds, unsigned part,
                                   const uint8_t *p, const uint8_t *end,
                                   unsigned *memory)
{
    for (; p < end; p++) {
        unsigned kind = kinds[*p] & charged[*memory][part];
        if (!kind)
            break;
        *memory += kind == IN_COMMA;
    }
    return p;
}

/* The same of a charge, part by part; its first octet stands at `index`. */
static const uint8_t *fine_charge(const uint16_t *kinds, const uint8_t *p,
                                  const uint8_t *end, unsigned index,
                                  unsigned memory)
{
    const uint8_t *stop;
    if (index < CURRENCY) {
        stop = stop_at(p, end, CURRENCY - index);
        if (index == 0) {
            memory = charge_step(kinds, 0, 0, *p);
            if (memory == NONE)
                return p;
            p++;
        }
        p = fine_each(kinds, currency(memory), p, stop);
        if (p < stop || p == end)
            return p;
        index = CURRENCY;
    }
    if (index == CURRENCY) {
        memory = flagged(memory, *p);
        if (memory == NONE)
            return p;
        p++;
        index = COST;
    }
    if (index < CHARGE_END && memory > 5)
        return p;
    if (index < PRICE) {
        stop = stop_at(p, end, PRICE - index);
        p = fine_charged(kinds, 0, p, stop, &memory);
        if (p < stop || p == end)
            return p;
        index = PRICE;
    }
    if (index < CHARGE_END) {
        stop = stop_at(p, end, CHARGE_END - index);
        p = fine_charged(kinds, 1, p, stop, &memory);
        if (p < stop)
            return p;
    }
    return end;
}

/* Tens that came before bear on the first octet alone: the others are within
 * their limits where each digit is. */
static const uint8_t *fine_lasting(const uint8_t *p, const uint8_t *end,
                                   unsigned index, unsigned memory)
{
    if (!lasting_octet(index, memory, *p))
        return p;
    for (p++, index++; p < end && index < 6; p++, index++)
        if ((uint8_t)(*p - '0') > lasting[index])
            return p;
    return end;
}

static const uint8_t *fine_extension(const uint16_t *kinds, const uint8_t *p,
                                     const uint8_t *end, unsigned index,
                                     unsigned memory)
{
    const uint8_t *stop;
    for (; p < end && index < 3; p++, index++) {
        if (!extension_octet(kinds, index, memory, *p))
            return p;
        memory = *p == ' ';
    }
    if (index >= 10)
        return end;
    stop = stop_at(p, end, 10 - index);
    p = fine_each(kinds, IN_NAME, p, stop);
    return p < stop ? p : end;
}

/* The same of contents that are judged by places. */
static APART const uint8_t *
fine_placed(const struct rule *c, const uint16_t *kinds, const uint8_t *p,
            const uint8_t *end, unsigned length, unsigned index,
            unsigned memory)
{
    switch (c->style) {
    case DATED:
        for (; p < end; p++) {
            if (!date_octet(c->span, index, memory, *p))
                break;
            memory = remember(index++, memory, *p);
        }
        return p;
    case CHARGED:
        return fine_charge(kinds, p, end, index, memory);
    case LASTING:
        return fine_lasting(p, end, index, memory);
    case TERMINALS:
        if (index == 0) {
            if (!is_mark(*p, length))
                return p;
            memory = *p++ == 1;
        }
        return fine_each(kinds, memory == 1 ? IN_CONNECTION : c->kinds, p, end);
    case SHOWN:
        if (index == 0) {
            if (!(kinds[*p] & IN_DISPLAY))
                return p;
            p++;
        }
        return fine_each(kinds, c->kinds, p, end);
    default:
        return fine_extension(kinds, p, end, index, memory);
    }
}

/* The first place from p on whose octet may not stand there, or the end; the
 * first of them, one at least, stands at `index`. Octets are judged by the
 * edition's kinds. */
static inline const uint8_t *fine(const struct rule *c, const uint16_t *kinds,
                                  const uint8_t *p, const uint8_t *end,
                                  unsigned length, unsigned index,
                                  unsigned memory)
{
    if (c->style == FIRST)
        return index || !c->kinds || kinds[*p] & c->kinds ? end : p;
    if (c->style == EACH) {
        while (kinds[*p] & c->kinds)
            if (++p == end)
                break;
        return p;
    }
    return fine_placed(c, kinds, p, end, length, index, memory);
}

static unsigned sum_of(const uint8_t *p, const uint8_t *end, unsigned sum)
{
    uint8_t s = (uint8_t)sum;
    while (p < end)
        s = (uint8_t)(s + *p++);
    return s;
}

/* What a record keeps of its reset, edition and way, in its second word. */
static uint64_t kept_of(unsigned edition, unsigned way)
{
    return (uint64_t)edition << 24 | (uint64_t)way << 32;
}

uint64_t tuned_reset(uint8_t edition, uint8_t way, uint8_t *r, size_t size)
{
    if (size != 16)
        return word(17, 0, 0, 0);
    if (edition >= EDITIONS || way >= WAYS)
        return word(16, 0, 0, 0);
    record(r, 0, kept_of(edition, way));
    return named(edition);
}

static uint64_t refused(uint8_t *r, unsigned number, unsigned place,
                        unsigned parameter, size_t taken)
{
    unsigned edition = r[11];
    record(r, REFUSED | (uint64_t)place << 16,
           number << 8 | parameter << 16 | kept_of(edition, r[12]));
    return fault(number, place, parameter, taken) | named(edition);
}

/* A run of octets, or none; tuned_listen has judged the record of a waiting
 * listener. What the run took is summed where it stops; a parameter is counted
 * as its type is looked at. */
static uint64_t run_on(uint8_t *r, const uint8_t *o, size_t count)
{
    const uint64_t low = load(r);
    const uint8_t *p = o, *end = o + count, *stop, *good;
    const unsigned edition = r[11];
    const uint64_t kept = kept_of(edition, r[12]);
    const struct rule *rules = rules_of[r[12]];
    const uint8_t *classes = class_of[edition];
    const uint16_t *kinds = kinds_of[edition];
    unsigned room = r[8], parameter = r[10],
             sum = (unsigned)(low >> 8) & 0xff,
             place = (unsigned)(low >> 16) & 0xffff, class, length, index = 0,
             memory = 0, number;
    if (count == 0)
        return named(edition);
    switch (low & 0xff) {
    case KIND:
        number = 1;
        if (*p != 0x80 && *p != 0x82)
            goto refuse;
        if (++p == end) {
            record(r, SIZE | ((sum + *o) & 0xff) << 8 | 1 << 16, kept);
            return word(0, 0, 0, count) | named(edition);
        }
        /* fall through */
    case SIZE:
        room = *p;
        number = 2;
        if (room < 3)
            goto refuse;
        p++;
        break;
    case HEADER:
        break;
    case LENGTH:
        class = (unsigned)(low >> 32);
        number = 4;
        if (!length_fits(rules[class], room, *p))
            goto refuse;
        length = *p++;
        room -= length + 2;
        if (p == end)
            goto cut;
        goto content;
    default:
        class = (unsigned)(low >> 32) & 0xff;
        length = (unsigned)(low >> 40) & 0xff;
        index = (unsigned)(low >> 48) & 0xff;
        memory = (unsigned)(low >> 56);
    content:
        number = 5;
        stop = (size_t)(end - p) < length - index ? end : p + (length - index);
        good = fine(&rules[class], kinds, p, stop, length, index, memory);
        if (good < stop) {
            p = good;
            goto refuse;
        }
        if ((size_t)(stop - p) < length - index) {
            memory = step_all(rules[class], kinds, p, stop, length, index,
                              memory);
            index += (unsigned)(stop - p);
            p = stop;
            goto cut;
        }
        p = stop;
    }
    while (p < end) {
        if (room == 0) {
            p++;
            place += (unsigned)(p - o);
            if (sum_of(o, p, sum))
                return refused(r, 6, place - 1, 0, (size_t)(p - o));
            record(r, MESSAGE | place << 16, kept);
            return word(0, 0, place, (size_t)(p - o)) | named(edition);
        }
        class = classes[*p];
        parameter++;
        /* a length that fits says that the type was possible */
        if (p + 1 == end || !length_fits(rules[class], room, p[1])) {
            number = impossible(class, r[12]);
            if (!possible(rules[class], room))
                goto refuse;
            number = 4;
            if (++p < end)
                goto refuse;
            record(r,
                   LENGTH | (uint64_t)sum_of(o, p, sum) << 8
                       | (uint64_t)(place + count) << 16
                       | (uint64_t) class << 32,
                   room | parameter << 16 | kept);
            return word(0, 0, 0, count) | named(edition);
        }
        length = p[1];
        room -= length + 2;
        p += 2;
        index = memory = 0;
        if ((size_t)(end - p) < length) {
            if (p == end)
                goto cut;
            goto content;
        }
        stop = p + length;
        number = 5;
        p = fine(&rules[class], kinds, p, stop, length, 0, 0);
        if (p < stop)
            goto refuse;
    }
    record(r,
           HEADER | (uint64_t)sum_of(o, p, sum) << 8
               | (uint64_t)(place + count) << 16,
           room | parameter << 16 | kept);
    return word(0, 0, 0, count) | named(edition);
cut:
    record(r,
           CONTENT | (uint64_t)sum_of(o, p, sum) << 8
               | (uint64_t)(place + count) << 16 | (uint64_t) class << 32
               | (uint64_t)length << 40 | (uint64_t)index << 48
               | (uint64_t)memory << 56,
           room | parameter << 16 | kept);
    return word(0, 0, 0, count) | named(edition);
refuse:
    return refused(r, number, place + (unsigned)(p - o), parameter,
                   (size_t)(p - o) + 1);
}

/* A record of a waiting listener, a message or a refusal is in range, and what
 * it does not use is 0. No parameter, where there must be one, wraps to more
 * than any place has room for. Any edition and any way may stand. */
static int room_and_parameter_alone(const uint8_t *r)
{
    return !(load(r + 8) & ~UINT64_C(0xffffff00ff));
}

static int book_alone(const uint8_t *r)
{
    return !(load(r + 8) & ~UINT64_C(0xffff000000));
}

static int class_known(const uint8_t *r, unsigned edition)
{
    return r[4] < CLASSES && classes_of[edition] >> r[4] & 1
           && (r[4] != CARRIED || r[12] != STRICT);
}

static int content_known(const uint8_t *r, unsigned place, unsigned edition)
{
    return room_and_parameter_alone(r) && class_known(r, edition) && r[6] < r[5]
           && place + r[5] - r[6] + r[8] - 5u <= 252
           && 3u * (uint8_t)(r[10] - 1) + 4 + r[6] <= place;
}

static int header_known(const uint8_t *r, unsigned place)
{
    return !(load(r) >> 32) && room_and_parameter_alone(r)
           && place + r[8] - 5u <= 252 && 3u * r[10] + 2 <= place;
}

static int length_known(const uint8_t *r, unsigned place, unsigned edition)
{
    return !(load(r) >> 40) && class_known(r, edition)
           && room_and_parameter_alone(r) && r[8]
           && place + r[8] - 6u <= 252
           && 3u * (uint8_t)(r[10] - 1) + 3 <= place;
}

static int start_known(const uint8_t *r)
{
    return load(r) >> 16 == r[0] && book_alone(r);
}

static int message_known(const uint8_t *r, unsigned place)
{
    return !(load(r) & 0xffffffff0000ff00) && book_alone(r)
           && place - 6 <= 252;
}

/* a parameter's with 3 to 5, none's with 1, 2 and 6; 10 is a parameter's, and
 * known in the strict way and where edition or way is not */
static int refusal_known(const uint8_t *r, unsigned place)
{
    return !(load(r) & 0xffffffff0000ff00)
           && !(load(r + 8) & ~UINT64_C(0xffffffff00))
           && (r[9] - 1u <= 5
               || (r[9] == 10
                   && (r[11] >= EDITIONS || r[12] == STRICT || r[12] >= WAYS)))
           && place <= 257
           && (r[9] - 3u <= 2 || r[9] == 10 ? r[10] - 1u <= 84 : !r[10]);
}

static int in_range(const uint8_t *r, unsigned place, unsigned edition)
{
    if (edition > EDITIONS)
        edition = EDITIONS;
    switch (r[0]) {
    case KIND:
    case SIZE:
        return start_known(r);
    case HEADER:
        return header_known(r, place);
    case LENGTH:
        return length_known(r, place, edition);
    case CONTENT:
        return content_known(r, place, edition);
    case MESSAGE:
        return message_known(r, place);
    case REFUSED:
        return refusal_known(r, place);
    default:
        return 0;
    }
}

static void spot(uint8_t *r, unsigned stage, unsigned sum, unsigned place)
{
    uint32_t w = stage | (sum & 0xff) << 8 | place << 16;
    memcpy(r, &w, 4);
}

/* An octet of contents that may stand. */
static uint64_t taken_one(uint8_t *r, unsigned place, unsigned edition,
                          unsigned x)
{
    if (++r[6] == r[5]) {
        store(r, HEADER | ((r[1] + x) & 0xff) << 8
                     | (uint64_t)(place + 1) << 16);
    } else {
        spot(r, CONTENT, r[1] + x, place + 1);
    }
    return word(0, 0, 0, 1) | named(edition);
}

/* A date or a moment. */
static APART uint64_t at_dated(uint8_t *r, unsigned place, unsigned edition,
                               unsigned x)
{
    if (!date_octet(r[4] == MOMENT, r[6], r[7], x))
        return refused(r, 5, place, r[10], 1);
    r[7] = (uint8_t)remember(r[6], r[7], x);
    return taken_one(r, place, edition, x);
}

/* Other contents that are judged by places. */
static APART uint64_t at_placed(uint8_t *r, unsigned place, unsigned edition,
                                unsigned x)
{
    unsigned memory = step(rules_of[LENIENT][r[4]], kinds_of[edition], r[5],
                           r[6], r[7], x);
    if (memory == NONE)
        return refused(r, 5, place, r[10], 1);
    r[7] = (uint8_t)memory;
    return taken_one(r, place, edition, x);
}

/* What a stage does with a run, its record, place and edition being handed
 * over. One octet of a parameter, as a modem hands them over: only what the
 * stage uses is read and written. Behind its type the way bears on nothing: a
 * carried one that is known is lenient. Anything else goes to run_on. */
static uint64_t at_content(uint8_t *r, unsigned place, unsigned edition,
                           const uint8_t *o, size_t count)
{
    const struct rule *c;
    unsigned x;
    if (!content_known(r, place, edition))
        return word(17, 0, 0, 0);
    if (count != 1)
        return run_on(r, o, count);
    x = *o;
    c = &rules_of[LENIENT][r[4]];
    if (c->style > EACH)
        return c->style == DATED ? at_dated(r, place, edition, x)
                                 : at_placed(r, place, edition, x);
    if (c->kinds && (r[6] == 0 || c->style == EACH)
        && !(kinds_of[edition][x] & c->kinds))
        return refused(r, 5, place, r[10], 1);
    r[7] = 0;
    return taken_one(r, place, edition, x);
}

static uint64_t at_header(uint8_t *r, unsigned place, unsigned edition,
                          const uint8_t *o, size_t count)
{
    unsigned x, class;
    if (!header_known(r, place))
        return word(17, 0, 0, 0);
    if (count != 1)
        return run_on(r, o, count);
    x = *o;
    if (r[8] == 0) {
        if ((r[1] + x) & 0xff)
            return refused(r, 6, place, 0, 1);
        record(r, MESSAGE | (uint64_t)(place + 1) << 16,
               kept_of(edition, r[12]));
        return word(0, 0, place + 1, 1) | named(edition);
    }
    class = class_of[edition][x];
    if (!possible(rules_of[r[12]][class], r[8]))
        return refused(r, impossible(class, r[12]), place, r[10] + 1u, 1);
    spot(r, LENGTH, r[1] + x, place + 1);
    r[4] = (uint8_t) class;
    r[10]++;
    return word(0, 0, 0, 1) | named(edition);
}

static uint64_t at_length(uint8_t *r, unsigned place, unsigned edition,
                          const uint8_t *o, size_t count)
{
    unsigned x;
    if (!length_known(r, place, edition))
        return word(17, 0, 0, 0);
    if (count != 1)
        return run_on(r, o, count);
    x = *o;
    if (!length_fits(rules_of[LENIENT][r[4]], r[8], x))
        return refused(r, 4, place, r[10], 1);
    spot(r, CONTENT, r[1] + x, place + 1);
    r[5] = (uint8_t)x;
    r[8] = (uint8_t)(r[8] - 2 - x);
    return word(0, 0, 0, 1) | named(edition);
}

static uint64_t at_start(uint8_t *r, unsigned place, unsigned edition,
                         const uint8_t *o, size_t count)
{
    (void)place;
    (void)edition;
    if (!start_known(r))
        return word(17, 0, 0, 0);
    return run_on(r, o, count);
}

/* A message, or a refusal: no octet is taken. */
static uint64_t at_end(uint8_t *r, unsigned place, unsigned edition,
                       const uint8_t *o, size_t count)
{
    (void)o;
    (void)count;
    if (r[0] == MESSAGE && message_known(r, place))
        return word(0, 0, place, 0) | named(edition);
    if (r[0] == REFUSED && refusal_known(r, place))
        return fault(r[9], place, r[10], 0) | named(edition);
    return word(17, 0, 0, 0);
}

/* Edition or way is not known: 17 where the record is out of range, else 16. */
static uint64_t at_none(uint8_t *r, unsigned place, unsigned edition,
                        const uint8_t *o, size_t count)
{
    (void)o;
    (void)count;
    return word(in_range(r, place, edition) ? 16 : 17, 0, 0, 0);
}

uint64_t tuned_listen(uint8_t *r, size_t size, const uint8_t *o, size_t count)
{
    static uint64_t (*const at[])(uint8_t *, unsigned, unsigned,
                                  const uint8_t *, size_t) = {
        at_start, at_start, at_header, at_length,
        at_content, at_end, at_end, at_none};
    unsigned stage, edition;
    if (size != 16 || r[0] > REFUSED)
        return word(17, 0, 0, 0);
    edition = r[11];
    /* both below 2 */
    stage = (edition | r[12]) < 2 ? r[0] : REFUSED + 1;
    return at[stage](r, r[2] | (unsigned)r[3] << 8, edition, o, count);
}

/* The verdict on a whole message, 0 or 1 to 8 and 10 with place and parameter
 * as a word that names no edition; `texts` gets the text octets of an accepted
 * one. */
static uint64_t judge(unsigned edition, unsigned way, const uint8_t *o,
                      size_t n, unsigned *texts)
{
    const uint8_t *classes = class_of[edition];
    const uint16_t *kinds = kinds_of[edition];
    const struct rule *rules = rules_of[way];
    const uint8_t *p = o + 2, *end = o + n, *stop;
    unsigned room, text = 0, number, parameter = 0;
    if (n == 0)
        return word(8, 0, 0, 0);
    if (o[0] != 0x80 && o[0] != 0x82)
        return word(1, 0, 0, 0);
    if (n == 1)
        return word(8, 1, 0, 0);
    room = o[1];
    if (room < 3)
        return word(2, 1, 0, 0);
    while (room) {
        struct rule c;
        unsigned length;
        if (p == end)
            return word(8, (unsigned)n, 0, 0);
        c = rules[classes[*p]];
        parameter++;
        if (p + 1 == end || !length_fits(c, room, p[1])) {
            number = impossible(classes[*p], way);
            if (!possible(c, room))
                goto refuse;
            number = 4;
            if (++p < end)
                goto refuse;
            return word(8, (unsigned)n, 0, 0);
        }
        length = p[1];
        p += 2;
        room -= length + 2;
        number = 5;
        if ((size_t)(end - p) < length) {
            if (p < end)
                p = fine(&c, kinds, p, end, length, 0, 0);
            if (p < end)
                goto refuse;
            return word(8, (unsigned)n, 0, 0);
        }
        stop = p + length;
        p = fine(&c, kinds, p, stop, length, 0, 0);
        if (p < stop)
            goto refuse;
        if (c.form == TEXT_VALUE || c.form == CARRIED_VALUE)
            text += length;
        else if (c.form == MARKED_VALUE)
            text += length - 1;
    }
    if (p == end)
        return word(8, (unsigned)n, 0, 0);
    if (sum_of(o, p + 1, 0))
        return word(6, (unsigned)(p - o), 0, 0);
    p++;
    if (p != end)
        return word(7, (unsigned)(p - o), 0, 0);
    *texts = text;
    return 0;
refuse:
    return fault(number, (unsigned)(p - o), parameter, 0);
}

static unsigned digits(const uint8_t *p)
{
    return 10u * (p[0] & 15u) + (p[1] & 15u);
}

uint64_t tuned_read(uint8_t edition, uint8_t way, const uint8_t *o, size_t n,
                    uint8_t *draft, size_t draft_size, uint8_t *texts,
                    size_t texts_size)
{
    const uint8_t *p, *end;
    uint8_t *cell = draft + 8, *to = texts;
    unsigned text = 0;
    uint64_t answer;
    if (draft_size != 688)
        return word(17, 0, 0, 0);
    if (edition >= EDITIONS || way >= WAYS)
        return word(16, 0, 0, 0);
    answer = judge(edition, way, o, n, &text);
    if (answer)
        return answer | named(edition);
    if (texts_size < text)
        return word(9, text, 0, 0) | named(edition);
    for (p = o + 2, end = o + n - 1; p < end; cell += 8) {
        unsigned type = p[0], length = p[1];
        unsigned form = rules_of[way][class_of[edition][type]].form;
        uint64_t value;
        p += 2;
        switch (form) {
        case CODE_VALUE:
            value = p[0];
            break;
        case DATE_VALUE:
            value = digits(p) | digits(p + 2) << 8 | digits(p + 4) << 16
                    | digits(p + 6) << 24;
            break;
        case MOMENT_VALUE:
            value = digits(p) | digits(p + 2) << 8 | digits(p + 4) << 16
                    | digits(p + 6) << 24;
            if (length == 10)
                value |= (uint64_t)(digits(p + 8) + 1) << 32;
            break;
        case DURATION_VALUE:
            value = digits(p) | digits(p + 2) << 8 | digits(p + 4) << 16;
            break;
        case STATE_VALUE:
            value = p[0] | (unsigned)p[2] << 16 | (unsigned)p[1] << 24;
            break;
        case MARKED_VALUE:
            value = p[0] | (unsigned)(to - texts) << 16
                    | (uint64_t)(length - 1) << 32;
            memcpy(to, p + 1, length - 1);
            to += length - 1;
            break;
        default:
            value = (unsigned)(to - texts) | length << 16;
            memcpy(to, p, length);
            to += length;
        }
        store(cell, type | form << 8 | value << 16);
        p += length;
    }
    store(draft, o[0] | (uint64_t)(cell - draft - 8) / 8 << 8
                     | (uint64_t)edition << 16);
    memset(cell, 0, (size_t)(draft + 688 - cell));
    return word(0, 0, text, 0) | named(edition);
}

uint64_t tuned_new_desk(uint8_t *desk, size_t size)
{
    if (size != 52)
        return word(17, 0, 0, 0);
    memset(desk, 0, 52);
    return 0;
}

static uint32_t place_at(const uint8_t *desk, unsigned i)
{
    const uint8_t *p = desk + 4 + 3 * i;
    return p[0] | (uint32_t)p[1] << 8 | (uint32_t)p[2] << 16;
}

static void put(uint8_t *desk, unsigned i, uint32_t place)
{
    uint8_t *p = desk + 4 + 3 * i;
    p[0] = (uint8_t)place;
    p[1] = (uint8_t)(place >> 8);
    p[2] = (uint8_t)(place >> 16);
}

static int is_desk(const uint8_t *desk)
{
    uint32_t held[16];
    unsigned count = 0;
    if (desk[0] > 1 || (desk[0] == 0 && desk[1]) || desk[2] > 2 || desk[3])
        return 0;
    for (unsigned i = 0; i < 16; i++) {
        uint32_t place = place_at(desk, i);
        if (place == 0)
            continue;
        if (place > 65536)
            return 0;
        for (unsigned j = 0; j < count; j++)
            if (held[j] == place)
                return 0;
        held[count++] = place;
    }
    return 1;
}

static unsigned find(const uint8_t *desk, uint32_t place)
{
    unsigned i = 0;
    while (i < 16 && place_at(desk, i) != place)
        i++;
    return i;
}

/* A notice of the old edition says the lamp alone. */
uint64_t tuned_settle(uint8_t edition, uint8_t way, uint8_t *desk, size_t size,
                      const uint8_t *o, size_t n)
{
    const uint8_t *waiting = NULL, *lamp = NULL, *state = NULL;
    unsigned text, at;
    uint64_t answer;
    if (size != 52 || !is_desk(desk))
        return word(17, 0, 0, 0);
    if (edition >= EDITIONS || way >= WAYS)
        return word(16, 0, 0, 0);
    answer = judge(edition, way, o, n, &text);
    if (answer || o[0] != 0x82)
        return answer | named(edition);
    for (const uint8_t *p = o + 2; p < o + n - 1; p += 2 + p[1]) {
        if (p[0] == 0x13 && !waiting)
            waiting = p + 2;
        if (p[0] == 0x0B && !lamp)
            lamp = p + 2;
        if (p[0] == 0x0D && !state)
            state = p + 2;
    }
    if (edition == OLD)
        waiting = state = NULL;
    if (state && state[0] != 0x55) {
        uint32_t place = 1 + (state[1] * 256u + state[2]);
        at = find(desk, place);
        if (state[0] == 0x00) {
            if (at < 16)
                put(desk, at, 0);
        } else if (at == 16) {
            at = find(desk, 0);
            if (at == 16)
                return word(21, 0, 0, 0) | named(edition);
            put(desk, at, place);
        }
    }
    if (waiting)
        desk[0] = 1, desk[1] = *waiting;
    if (lamp)
        desk[2] = *lamp ? 2 : 1;
    return named(edition);
}
