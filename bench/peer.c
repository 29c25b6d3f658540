/* A plain C listener as a firmware programmer would write it by hand, on the record that include/anthercup.h lays out:
 * the record's size, every code and number, and that unused octets are 0, are judged at entry, then its edition and
 * way; every octet is judged by document 01's rules and document 02's, or by the old edition's, as it
 * arrives, a type without a row by the way, and parameters are counted as they begin. */
#include "peer.h"

#include <string.h>

enum { KIND, SIZE, HEADER, LENGTH, CONTENT, MESSAGE, REFUSED };
enum { CARRIED, DATE, NUMBER, ABSENT, NAME, LAMP, IDENTITY, CALL_TYPE, WAITING, FORWARDED, USER, SHORT_TEXT, MOMENT,
       CHARGE, DURATION, TERMINAL, DISPLAY, SERVICE, EXTENSION, OLD_NUMBER, OLD_FORWARDED, OLD_USER, CLASSES };
enum { PRESENT, OLD };
enum { STRICT, LENIENT };

struct state {
    unsigned stage, sum, place, class, length, index, memory, room, number, parameter, edition, way;
};

static const uint8_t class_of[2][256] = {
    {[0x01] = DATE, [0x02] = NUMBER, [0x03] = NUMBER, [0x04] = ABSENT, [0x07] = NAME, [0x08] = ABSENT, [0x0B] = LAMP,
     [0x0D] = IDENTITY, [0x0E] = NUMBER, [0x0F] = MOMENT, [0x10] = NUMBER, [0x11] = CALL_TYPE, [0x12] = NUMBER,
     [0x13] = WAITING, [0x15] = FORWARDED, [0x16] = USER, [0x1A] = NUMBER, [0x20] = CHARGE, [0x21] = CHARGE,
     [0x22] = CHARGE, [0x23] = DURATION, [0x30] = SHORT_TEXT, [0x31] = SHORT_TEXT, [0x40] = TERMINAL, [0x50] = DISPLAY,
     [0x55] = SERVICE, [0xE0] = EXTENSION},
    {[0x01] = DATE, [0x02] = OLD_NUMBER, [0x04] = ABSENT, [0x07] = SHORT_TEXT, [0x0B] = LAMP, [0x12] = OLD_NUMBER,
     [0x15] = OLD_FORWARDED, [0x16] = OLD_USER},
};
static const uint8_t least[CLASSES] = {1, 8, 1, 1, 1, 1, 3, 1, 1, 1, 1, 1, 8, 14, 6, 2, 1, 1, 10, 1, 1, 1};
static const uint8_t most[CLASSES] = {253, 8, 20, 1, 50, 1, 3, 1, 1, 1, 1, 20, 10, 14, 6, 21, 253, 1, 10, 18, 1, 1};
static const uint8_t from[5] = {1, 1, 0, 0, 0}, to[5] = {12, 31, 23, 59, 59};
static const uint8_t days[13] = {31, 31, 29, 31, 30, 31, 30, 31, 31, 30, 31, 30, 31};

static uint64_t word(unsigned edition, unsigned number, unsigned place, unsigned size, size_t taken,
                     unsigned parameter) {
    return number | (uint64_t)place << 8 | (uint64_t)size << 24 | (uint64_t)taken << 40 | (uint64_t)parameter << 56
         | (uint64_t)edition << 63;
}

/* 16 and 17 name no edition */
static uint64_t refused(unsigned number) { return word(0, number, 0, 0, 0, 0); }

static int among(unsigned lo, unsigned hi, unsigned x) { return lo <= x && x <= hi; }

static int book_known(const struct state *s) { return s->edition <= OLD && s->way <= LENIENT; }

/* each edition has classes of its own; of one that is not known any may stand. Nothing is carried in the strict way */
static int class_known(const struct state *s) {
    if (s->class == CARRIED) return s->way != STRICT;
    if (s->edition == PRESENT) return s->class <= EXTENSION;
    if (s->edition == OLD && s->class <= EXTENSION)
        return s->class == DATE || s->class == ABSENT || s->class == LAMP || s->class == SHORT_TEXT;
    return s->class <= OLD_USER;
}

/* a refusal's: 10 in the strict way, and where edition or way is not known */
static int number_known(const struct state *s) {
    return among(1, 6, s->number) || (s->number == 10 && (s->way == STRICT || !book_known(s)));
}

/* a refusal's: with a type, a length or contents from 1 to the most that a message holds, else none */
static int parameter_known(const struct state *s) {
    return among(3, 5, s->number) || s->number == 10 ? among(1, 85, s->parameter) : s->parameter == 0;
}

static int in_range(const struct state *s) {
    unsigned inner = s->class | s->length | s->index | s->memory, least_place = 3 * s->parameter;
    switch (s->stage) {
    case KIND: return (inner | s->room | s->number | s->parameter | s->place) == 0;
    case SIZE: return (inner | s->room | s->number | s->parameter) == 0 && s->place == 1;
    case HEADER: return (inner | s->number) == 0 && among(5, 257, s->place + s->room) && least_place + 2 <= s->place;
    case LENGTH:
        return (s->length | s->index | s->memory | s->number) == 0 && class_known(s) && s->room >= 1
            && among(6, 258, s->place + s->room) && s->parameter >= 1 && least_place <= s->place;
    case CONTENT:
        return s->number == 0 && class_known(s) && s->index < s->length
            && among(5 + s->index, 257 + s->index, s->place + s->length + s->room) && s->parameter >= 1
            && least_place + 1 + s->index <= s->place;
    case MESSAGE: return (inner | s->sum | s->room | s->number | s->parameter) == 0 && among(6, 258, s->place);
    case REFUSED:
        return (inner | s->sum | s->room) == 0 && number_known(s) && s->place <= 257 && parameter_known(s);
    default: return 0;
    }
}

static int load(struct state *s, const uint8_t *r) {
    if (r[13] | r[14] | r[15]) return 0;
    s->stage = r[0];
    s->sum = r[1];
    s->place = r[2] | (unsigned)r[3] << 8;
    s->class = r[4];
    s->length = r[5];
    s->index = r[6];
    s->memory = r[7];
    s->room = r[8];
    s->number = r[9];
    s->parameter = r[10];
    s->edition = r[11];
    s->way = r[12];
    return in_range(s);
}

static void store(const struct state *s, uint8_t *r) {
    r[0] = (uint8_t)s->stage;
    r[1] = (uint8_t)s->sum;
    r[2] = (uint8_t)s->place;
    r[3] = (uint8_t)(s->place >> 8);
    r[4] = (uint8_t)s->class;
    r[5] = (uint8_t)s->length;
    r[6] = (uint8_t)s->index;
    r[7] = (uint8_t)s->memory;
    r[8] = (uint8_t)s->room;
    r[9] = (uint8_t)s->number;
    r[10] = (uint8_t)s->parameter;
    r[11] = (uint8_t)s->edition;
    r[12] = (uint8_t)s->way;
    memset(r + 13, 0, 3);
}

static void ends(struct state *s, unsigned stage, unsigned place, unsigned number, unsigned parameter) {
    unsigned edition = s->edition, way = s->way;
    memset(s, 0, sizeof *s);
    s->edition = edition;
    s->way = way;
    s->stage = stage;
    s->place = place;
    s->number = number;
    s->parameter = parameter;
}

static int room_left(unsigned n, unsigned room) { return room == n + 2 || room >= n + 5; }

/* a moment has 8 octets or 10 */
static int is_length(unsigned c, unsigned n) { return among(least[c], most[c], n) && !(c == MOMENT && n == 9); }

static int possible(unsigned c, unsigned room) {
    return room >= least[c] + 5u || (room >= 2 && is_length(c, room - 2));
}

/* document 02, Q-2: the days of a month; what is no month has 31 */
static unsigned days_in(unsigned month) { return month <= 12 ? days[month] : 31; }

static unsigned value_of(unsigned x) { return x >= '0' ? x - '0' : 0; }

/* of a date the tens of the month are remembered, then its days, then what is left of them from the tens of the day
 * on; after that the last digit */
static unsigned date_memory(unsigned index, unsigned memory, unsigned x) {
    unsigned v = value_of(x);
    if (index == 1) return days_in(10 * memory + v);
    if (index == 2) return 10 * v <= memory ? memory - 10 * v : 0;
    return v;
}

/* a digit of a pair from low to high, its tens or, behind them, its ones */
static int pair_octet(unsigned low, unsigned high, int ones, unsigned tens, unsigned v) {
    if (ones) return among(low, high, 10 * tens + v);
    return low <= 10 * v + 9 && 10 * v <= high;
}

/* a date, of 8 octets, or a moment, of up to 10: its last pair is the second */
static int date_octet(const struct state *s, unsigned octets, unsigned x) {
    if (s->index >= octets) return 1;
    unsigned pair = s->index >> 1, v = x - '0';
    if (v > 9) return 0;
    if (s->index == 2) return 10 * v <= s->memory;
    if (s->index == 3) return v <= s->memory && (s->memory <= 21 || v > 0);
    return pair_octet(from[pair], to[pair], s->index & 1, s->memory, v);
}

static int duration_octet(const struct state *s, unsigned x) {
    if (s->index >= 6) return 1;
    return x - '0' <= 9 && pair_octet(0, s->index < 2 ? 99 : 59, s->index & 1, s->memory, x - '0');
}

static int is_digit(unsigned x) { return among('0', '9', x); }

static int is_number(unsigned x) { return is_digit(x) || among('(', '*', x) || x == '#' || x == ' ' || x == '-'; }

static int is_character(unsigned x) { return among(0x20, 0x7E, x); }

/* the flags of a charge: not available, in units */
enum { NOT_AVAILABLE = 0x08, IN_UNITS = 0x10 };

/* document 02, Q-4: what is remembered of a charge: of its currency that it is letters or dashes; then what the ten
 * octets are, of a cost and of a price whether the comma has come */
enum { LETTERS, DASHES };
enum { COST, COST_DECIMALS, PRICED, PRICE_DECIMALS, UNITS, NOTHING };

static int charged_octet(const struct state *s, unsigned x) {
    int price = s->index >= 9;
    switch (s->memory) {
    case COST: return is_digit(x) || x == ',';
    case PRICED: return is_digit(x) || (price && x == ',');
    case COST_DECIMALS:
    case PRICE_DECIMALS: return is_digit(x);
    case UNITS: return price ? x == '-' : is_digit(x);
    default: return s->memory == NOTHING && x == '-';
    }
}

static int charge_octet(const struct state *s, unsigned x) {
    if (s->index >= 14) return 1;
    if (s->index == 0) return among('A', 'Z', x) || x == '-';
    if (s->index >= 4) return charged_octet(s, x);
    if (s->memory > DASHES) return 0;
    if (s->index < 3) return s->memory == DASHES ? x == '-' : among('A', 'Z', x);
    return s->memory == DASHES ? (x & (NOT_AVAILABLE | IN_UNITS)) != 0 : (x & NOT_AVAILABLE) == 0;
}

static unsigned charge_memory(const struct state *s, unsigned x) {
    if (s->index >= 14) return 0;
    if (s->index == 0) return x == '-' ? DASHES : LETTERS;
    if (s->index != 3) return s->index > 3 && x == ',' ? s->memory + 1 : s->memory;
    if (x & NOT_AVAILABLE) return NOTHING;
    if (x & IN_UNITS) return s->memory == DASHES ? UNITS : PRICED;
    return COST;
}

/* a connection type, its code behind it, has two octets; of the others the rest is a number */
static int terminal_octet(const struct state *s, unsigned x) {
    if (s->index == 0) return x == 2 || x == 3 || (x == 1 && s->length == 2);
    return s->memory == 1 ? x <= 7 : is_number(x);
}

static int display_octet(const struct state *s, unsigned x) {
    unsigned code = x & 0x7F;
    return s->index ? is_character(x) : code <= 1 || among(3, 6, code) || code >= 0x70;
}

/* of the country's code the second octet is remembered where it is a space */
static int extension_octet(const struct state *s, unsigned x) {
    switch (s->index) {
    case 0: return is_digit(x);
    case 1: return is_digit(x) || x == ' ';
    case 2: return x == ' ' || (s->memory != 1 && is_digit(x));
    default: return s->index >= 10 || is_character(x);
    }
}

static unsigned remember(const struct state *s, unsigned x) {
    switch (s->class) {
    case DATE:
    case MOMENT: return date_memory(s->index, s->memory, x);
    case CHARGE: return charge_memory(s, x);
    case DURATION: return value_of(x);
    case TERMINAL: return s->index ? s->memory : x == 1;
    case EXTENSION: return s->index == 1 && x == ' ';
    default: return 0;
    }
}

static int content_octet(const struct state *s, unsigned x) {
    switch (s->class) {
    case DATE: return date_octet(s, 8, x);
    case MOMENT: return date_octet(s, 10, x);
    case CHARGE: return charge_octet(s, x);
    case DURATION: return duration_octet(s, x);
    case TERMINAL: return terminal_octet(s, x);
    case DISPLAY: return display_octet(s, x);
    case EXTENSION: return extension_octet(s, x);
    case NUMBER: return is_number(x);
    case NAME:
    case SHORT_TEXT: return is_character(x);
    case OLD_NUMBER: return is_digit(x);
    case ABSENT: return s->index || x == 'O' || x == 'P';
    case LAMP: return s->index || x == 0x00 || x == 0xFF;
    case IDENTITY: return s->index || x == 0x00 || x == 0x55 || x == 0xFF;
    case CALL_TYPE: return s->index || among(1, 7, x) || among(0x10, 0x11, x) || among(0x50, 0x51, x) || x >= 0x81;
    case FORWARDED: return s->index || x <= 6 || x >= 0x80;
    case USER: return s->index || x <= 0x0F;
    case SERVICE: return s->index || x <= 1 || x >= 0x80;
    case OLD_FORWARDED: return s->index || x <= 6;
    case OLD_USER: return s->index || x == 0 || among(3, 5, x) || among(0x0A, 0x0D, x) || x == 0x0F;
    default: return 1;
    }
}

static void at_content(struct state *s) {
    if (s->index < s->length) {
        s->stage = CONTENT;
        return;
    }
    s->stage = HEADER;
    s->class = s->length = s->index = s->memory = 0;
}

/* the number of a refused octet, 0 for one that is taken; a type begins a parameter, refused or not */
static unsigned judge(struct state *s, unsigned x) {
    switch (s->stage) {
    case KIND:
        if (x != 0x80 && x != 0x82) return 1;
        s->stage = SIZE;
        return 0;
    case SIZE:
        if (x < 3) return 2;
        s->stage = HEADER;
        s->room = x;
        return 0;
    case HEADER:
        s->parameter++;
        if (s->way == STRICT && class_of[s->edition][x] == CARRIED) return 10;
        if (!possible(class_of[s->edition][x], s->room)) return 3;
        s->stage = LENGTH;
        s->class = class_of[s->edition][x];
        return 0;
    case LENGTH:
        if (!is_length(s->class, x) || !room_left(x, s->room)) return 4;
        s->length = x;
        s->room -= x + 2;
        at_content(s);
        return 0;
    default:
        if (!content_octet(s, x)) return 5;
        s->memory = remember(s, x);
        s->index++;
        at_content(s);
        return 0;
    }
}

static size_t hear(struct state *s, const uint8_t *o, size_t n) {
    size_t taken = 0;
    while (taken < n && s->stage < MESSAGE) {
        unsigned x = o[taken++], number;
        if (s->stage == HEADER && s->room == 0) {
            if (((s->sum + x) & 0xff) == 0) ends(s, MESSAGE, s->place + 1, 0, 0);
            else ends(s, REFUSED, s->place, 6, 0);
        } else if ((number = judge(s, x)) != 0) {
            ends(s, REFUSED, s->place, number, s->parameter);
        } else {
            s->sum = (s->sum + x) & 0xff;
            s->place++;
        }
    }
    return taken;
}

uint64_t peer_reset(uint8_t edition, uint8_t way, uint8_t *record, size_t size) {
    if (size != 16) return refused(17);
    if (edition > OLD || way > LENIENT) return refused(16);
    memset(record, 0, 16);
    record[11] = edition;
    record[12] = way;
    return word(edition, 0, 0, 0, 0, 0);
}

uint64_t peer_listen(uint8_t *record, size_t size, const uint8_t *octets, size_t count) {
    struct state s;
    if (size != 16 || !load(&s, record)) return refused(17);
    if (!book_known(&s)) return refused(16);
    size_t taken = hear(&s, octets, count);
    store(&s, record);
    if (s.stage == REFUSED) return word(s.edition, s.number, s.place, 0, taken, s.parameter);
    return word(s.edition, 0, 0, s.stage == MESSAGE ? s.place : 0, taken, 0);
}
