/*
 * Traffic after 01's "The message" and the rest of source 004's parameters
 * (02, Q-4): a builder that fills a room L with legal parameters, for the
 * strict way with those of listed types alone, and what damages what it built.
 * Its tables of types, one for each edition, say how contents are made, apart
 * from any reader's tables of how they are judged.
 */
#include "traffic.h"

#include <string.h>

enum { STRICT, LENIENT };

/* ---- The generator of numbers ---- */

void traffic_start(struct traffic *t, uint64_t seed)
{
    t->seed = seed;
    t->sort = TRAFFIC_VALID;
    t->edition = 0;
    t->way = LENIENT;
}

uint32_t traffic_number(struct traffic *t, uint32_t below)
{
    uint64_t z = t->seed += UINT64_C(0x9E3779B97F4A7C15);

    z = (z ^ (z >> 30)) * UINT64_C(0xBF58476D1CE4E5B9);
    z = (z ^ (z >> 27)) * UINT64_C(0x94D049BB133111EB);
    z ^= z >> 31;
    return (uint32_t)(((z >> 32) * below) >> 32);
}

static uint8_t any_octet(struct traffic *t)
{
    return (uint8_t)traffic_number(t, 256);
}

static size_t from_to(struct traffic *t, size_t low, size_t high)
{
    return low + traffic_number(t, (uint32_t)(high - low + 1));
}

/* Half of the time one of the two limits. */
static size_t near_limits(struct traffic *t, size_t low, size_t high)
{
    switch (traffic_number(t, 4)) {
    case 0:
        return low;
    case 1:
        return high;
    default:
        return from_to(t, low, high);
    }
}

/* ---- The tables of types ---- */

enum form {
    RANGES, DATE, IDENTITY, DURATION, CHARGE, TERMINAL, DISPLAY, EXTENSION
};

/* Of octets that hang on one another the ranges are of those that may stand
 * somewhere. */
struct make {
    uint8_t type, low, high, form;
    uint8_t ranges;
    uint8_t range[6][2];
};

#define NUMBER_OCTETS 6, {{'0', '9'}, {'*', '*'}, {'#', '#'}, {' ', ' '}, \
                          {'-', '-'}, {'(', ')'}}
#define NAME_OCTETS 1, {{0x20, 0x7E}}
#define CHARGE_OCTETS 5, {{'0', '9'}, {',', ','}, {'-', '-'}, {'A', 'Z'}, \
                          {0x00, 0x1F}}
#define ANY_OCTETS 1, {{0x00, 0xFF}}

#define DIGITS 1, {{'0', '9'}}

#define MAKES 28
#define CALLER 1    /* in both editions */
#define EUROPEAN 14 /* likewise: these and all up to the carried ones */
#define CARRIED (MAKES - 1)

/* By edition: those that it lists, then those that only the other one lists,
 * and last carried types, whose number is chosen. */
static const struct make makes[2][MAKES] = {{
    {0x01, 8, 8, DATE, DIGITS},
    {0x02, 1, 20, RANGES, NUMBER_OCTETS},
    {0x03, 1, 20, RANGES, NUMBER_OCTETS},
    {0x04, 1, 1, RANGES, 1, {{'O', 'P'}}},
    {0x07, 1, 50, RANGES, NAME_OCTETS},
    {0x08, 1, 1, RANGES, 1, {{'O', 'P'}}},
    {0x0B, 1, 1, RANGES, 2, {{0x00, 0x00}, {0xFF, 0xFF}}},
    {0x0D, 3, 3, IDENTITY, 3, {{0x00, 0x00}, {0x55, 0x55}, {0xFF, 0xFF}}},
    {0x0E, 1, 20, RANGES, NUMBER_OCTETS},
    {0x11, 1, 1, RANGES, 4, {{0x01, 0x07}, {0x10, 0x11}, {0x50, 0x51},
                             {0x81, 0xFF}}},
    {0x12, 1, 20, RANGES, NUMBER_OCTETS},
    {0x13, 1, 1, RANGES, ANY_OCTETS},
    {0x15, 1, 1, RANGES, 2, {{0x00, 0x06}, {0x80, 0xFF}}},
    {0x16, 1, 1, RANGES, 1, {{0x00, 0x0F}}},
    {0x0F, 8, 10, DATE, DIGITS},
    {0x10, 1, 20, RANGES, NUMBER_OCTETS},
    {0x1A, 1, 20, RANGES, NUMBER_OCTETS},
    {0x20, 14, 14, CHARGE, CHARGE_OCTETS},
    {0x21, 14, 14, CHARGE, CHARGE_OCTETS},
    {0x22, 14, 14, CHARGE, CHARGE_OCTETS},
    {0x23, 6, 6, DURATION, DIGITS},
    {0x30, 1, 20, RANGES, NAME_OCTETS},
    {0x31, 1, 20, RANGES, NAME_OCTETS},
    {0x40, 2, 21, TERMINAL, NUMBER_OCTETS},
    {0x50, 1, 253, DISPLAY, 6, {{0x00, 0x01}, {0x03, 0x06}, {0x70, 0x7F},
                                {0x80, 0x81}, {0x83, 0x86}, {0xF0, 0xFF}}},
    {0x55, 1, 1, RANGES, 2, {{0x00, 0x01}, {0x80, 0xFF}}},
    {0xE0, 10, 10, EXTENSION, 3, {{'0', '9'}, {' ', ' '}, {0x20, 0x7E}}},
    {0x00, 1, 253, RANGES, ANY_OCTETS},
}, {
    {0x01, 8, 8, DATE, DIGITS},
    {0x02, 1, 18, RANGES, DIGITS},
    {0x04, 1, 1, RANGES, 1, {{'O', 'P'}}},
    {0x07, 1, 20, RANGES, NAME_OCTETS},
    {0x0B, 1, 1, RANGES, 2, {{0x00, 0x00}, {0xFF, 0xFF}}},
    {0x12, 1, 18, RANGES, DIGITS},
    {0x15, 1, 1, RANGES, 1, {{0x00, 0x06}}},
    {0x16, 1, 1, RANGES, 4, {{0x00, 0x00}, {0x03, 0x05}, {0x0A, 0x0D},
                             {0x0F, 0x0F}}},
    {0x03, 1, 253, RANGES, ANY_OCTETS},
    {0x08, 1, 253, RANGES, ANY_OCTETS},
    {0x0D, 1, 253, RANGES, ANY_OCTETS},
    {0x0E, 1, 253, RANGES, ANY_OCTETS},
    {0x11, 1, 253, RANGES, ANY_OCTETS},
    {0x13, 1, 253, RANGES, ANY_OCTETS},
    {0x0F, 1, 253, RANGES, ANY_OCTETS},
    {0x10, 1, 253, RANGES, ANY_OCTETS},
    {0x1A, 1, 253, RANGES, ANY_OCTETS},
    {0x20, 1, 253, RANGES, ANY_OCTETS},
    {0x21, 1, 253, RANGES, ANY_OCTETS},
    {0x22, 1, 253, RANGES, ANY_OCTETS},
    {0x23, 1, 253, RANGES, ANY_OCTETS},
    {0x30, 1, 253, RANGES, ANY_OCTETS},
    {0x31, 1, 253, RANGES, ANY_OCTETS},
    {0x40, 1, 253, RANGES, ANY_OCTETS},
    {0x50, 1, 253, RANGES, ANY_OCTETS},
    {0x55, 1, 253, RANGES, ANY_OCTETS},
    {0xE0, 1, 253, RANGES, ANY_OCTETS},
    {0x00, 1, 253, RANGES, ANY_OCTETS},
}};

/* How many of them the edition lists. */
static const uint8_t listed[2] = {27, 8};

static const struct make *make_of(const struct traffic *t, size_t row)
{
    return &makes[t->edition][row];
}

/* How many of them messages are made of. */
static uint32_t rows_for(const struct traffic *t)
{
    return t->way == STRICT ? listed[t->edition] : MAKES;
}

/* What fills a room: something carried; for the strict way a caller, up to 18
 * digits. */
static const struct make *filler(const struct traffic *t)
{
    return make_of(t, t->way == STRICT ? CALLER : CARRIED);
}

/* Something carried, or a display: no room takes a longer one. */
static int is_longest(const struct make *make)
{
    return make->high == 253;
}

static int has_length(const struct make *make, size_t n)
{
    if (make->type == 0x0F && make->form == DATE && n == 9)
        return 0;
    return n >= make->low && n <= make->high;
}

static int fits(size_t n, size_t room)
{
    return n + 2 == room || n + 5 <= room;
}

/* Some length of the type fits the room. */
static int is_possible(const struct make *make, size_t room)
{
    for (size_t n = make->low; n <= make->high; n++) {
        if (has_length(make, n) && fits(n, room))
            return 1;
    }
    return 0;
}

/* Types of which 85 fill a message. */
static const uint8_t shortest_types[8] = {
    0x04, 0x08, 0x0B, 0x11, 0x13, 0x15, 0x16, 0x55
};

static const struct make *present_make(uint8_t type)
{
    for (size_t i = 0; i < listed[0]; i++) {
        if (makes[0][i].type == type)
            return &makes[0][i];
    }
    return NULL;
}

/* A type that neither edition lists, often a neighbour of a listed one. */
static uint8_t carried_type(struct traffic *t)
{
    static const uint8_t unlisted[] = {
        0x00, 0x05, 0x06, 0x09, 0x0A, 0x0C, 0x14, 0x17, 0x19, 0x1B, 0x1F,
        0x24, 0x2F, 0x32, 0x3F, 0x41, 0x4F, 0x51, 0x54, 0x56, 0x80, 0xDF,
        0xE1, 0xFF
    };
    uint8_t type = unlisted[traffic_number(t, sizeof unlisted)];

    if (traffic_number(t, 2) == 0) {
        do {
            type = (uint8_t)from_to(t, 0x17, 0xFF);
        } while (present_make(type) != NULL);
    }
    return type;
}

/* Likewise; in the old edition often one that the present one lists. */
static uint8_t unlisted_type(struct traffic *t)
{
    size_t row = from_to(t, listed[t->edition], CARRIED);

    return row == CARRIED ? carried_type(t) : make_of(t, row)->type;
}

/* ---- Legal contents ---- */

static uint8_t octet_of(struct traffic *t, const struct make *make)
{
    const uint8_t *range = make->range[traffic_number(t, make->ranges)];

    return (uint8_t)near_limits(t, range[0], range[1]);
}

/* The days of the months (02, Q-2). */
static const uint8_t days[12] = {31, 29, 31, 30, 31, 30,
                                 31, 31, 30, 31, 30, 31};

static void put_pair(uint8_t *c, size_t value)
{
    c[0] = (uint8_t)('0' + value / 10);
    c[1] = (uint8_t)('0' + value % 10);
}

/* Of 8 octets, or with seconds of 10. */
static void make_date(struct traffic *t, uint8_t *c, size_t n)
{
    size_t month = near_limits(t, 1, 12);

    put_pair(c, month);
    put_pair(c + 2, near_limits(t, 1, days[month - 1]));
    put_pair(c + 4, near_limits(t, 0, 23));
    put_pair(c + 6, near_limits(t, 0, 59));
    if (n >= 10)
        put_pair(c + 8, near_limits(t, 0, 59));
}

static void make_duration(struct traffic *t, uint8_t *c)
{
    put_pair(c, near_limits(t, 0, 99));
    put_pair(c + 2, near_limits(t, 0, 59));
    put_pair(c + 4, near_limits(t, 0, 59));
}

/* n octets, each from a low one to a high one. */
static void put_range(struct traffic *t, uint8_t *c, size_t n, uint8_t low,
                      uint8_t high)
{
    for (size_t i = 0; i < n; i++)
        c[i] = (uint8_t)near_limits(t, low, high);
}

/* Digits, one of them often a comma. */
static void put_amount(struct traffic *t, uint8_t *c, size_t n)
{
    put_range(t, c, n, '0', '9');
    if (traffic_number(t, 2) == 0)
        c[near_limits(t, 0, n - 1)] = ',';
}

#define NOT_AVAILABLE 0x08
#define IN_UNITS 0x10

/* A cost, units with a price, units alone, or what is not available. */
static void make_charge(struct traffic *t, uint8_t *c)
{
    uint8_t free = traffic_number(t, 2) == 0 ? 0 : any_octet(t) & 0xE7;
    uint32_t sort = traffic_number(t, 4);

    memset(c, '-', 14);
    if (sort < 2)
        put_range(t, c, 3, 'A', 'Z');
    c[3] = free;
    if (sort == 0) {
        put_amount(t, c + 4, 10);
    } else if (sort < 3) {
        c[3] = free | IN_UNITS;
        put_range(t, c + 4, 5, '0', '9');
        if (sort == 1)
            put_amount(t, c + 9, 5);
    } else {
        c[3] = free | NOT_AVAILABLE;
        if (traffic_number(t, 2) == 0)
            c[3] |= IN_UNITS;
    }
}

/* A connection and its code, or a number or subaddress; the row is that of the
 * numbers' octets. */
static void make_terminal(struct traffic *t, const struct make *make,
                          uint8_t *c, size_t n)
{
    if (n == 2 && traffic_number(t, 2) == 0) {
        c[0] = 0x01;
        c[1] = (uint8_t)near_limits(t, 0x00, 0x07);
        return;
    }
    c[0] = (uint8_t)from_to(t, 0x02, 0x03);
    for (size_t i = 1; i < n; i++)
        c[i] = octet_of(t, make);
}

/* A country of one to three digits, and what is the operator's. */
static void make_extension(struct traffic *t, uint8_t *c)
{
    size_t digits = from_to(t, 1, 3);

    memset(c, ' ', 3);
    put_range(t, c, digits, '0', '9');
    put_range(t, c + 3, 7, 0x20, 0x7E);
}

/* Of a wrong length: the first octets of what is legal, or more behind it. */
static void make_contents(struct traffic *t, const struct make *make,
                          uint8_t *c, size_t n)
{
    uint8_t whole[14];
    size_t size = make->form == DATE && n < 10 ? 8 : make->high;

    for (size_t i = 0; i < n; i++) {
        int free = make->form == IDENTITY && i > 0;

        c[i] = free ? any_octet(t) : octet_of(t, make);
    }
    switch (make->form) {
    case DATE:
        make_date(t, whole, size);
        break;
    case DURATION:
        make_duration(t, whole);
        break;
    case CHARGE:
        make_charge(t, whole);
        break;
    case EXTENSION:
        make_extension(t, whole);
        break;
    case TERMINAL:
        if (n > 0)
            make_terminal(t, make, c, n);
        return;
    case DISPLAY:
        if (n > 1)
            put_range(t, c + 1, n - 1, 0x20, 0x7E);
        return;
    default:
        return;
    }
    memcpy(c, whole, n < size ? n : size);
}

/* ---- Valid messages ---- */

/* Which types a message is made of, so that repeats and pairs are common. */
struct palette {
    size_t count;
    uint8_t of[2 * MAKES]; /* rows of the edition's makes */
    int shortest;          /* always the shortest length */
};

static void add_type(const struct traffic *t, struct palette *p, uint8_t type)
{
    for (size_t i = 0; i < rows_for(t); i++) {
        if (make_of(t, i)->type == type)
            p->of[p->count++] = (uint8_t)i;
    }
}

static void add_rows(struct palette *p, size_t from, size_t to)
{
    for (size_t i = from; i < to; i++)
        p->of[p->count++] = (uint8_t)i;
}

/* In the old edition its eight types stand beside all that it carries, so they
 * are there twice. */
static void choose_palette(struct traffic *t, struct palette *p)
{
    static const uint8_t pairs[4] = {0x02, 0x04, 0x07, 0x08};
    uint32_t sort = traffic_number(t, 10);

    p->count = 0;
    p->shortest = traffic_number(t, 4) == 0;
    if (sort == 0) {
        for (size_t i = 0; i < 4; i++)
            add_type(t, p, pairs[i]);
    } else if (sort == 1) {
        for (size_t i = 0; i < sizeof shortest_types; i++)
            add_type(t, p, shortest_types[i]);
    } else if (sort < 4) {
        for (size_t i = 0; i < 2; i++)
            p->of[p->count++] = (uint8_t)traffic_number(t, rows_for(t));
    } else if (sort < 6 && rows_for(t) > EUROPEAN) {
        add_rows(p, EUROPEAN, CARRIED);
    } else {
        add_rows(p, 0, rows_for(t));
        if (t->edition == 1)
            add_rows(p, 0, listed[1]);
    }
}

static size_t choose_room(struct traffic *t)
{
    switch (traffic_number(t, 16)) {
    case 0:
        return 3;
    case 1:
        return traffic_number(t, 2) == 0 ? 255 : from_to(t, 245, 255);
    case 2:
        return from_to(t, 3, 255);
    default:
        return from_to(t, 3, 60);
    }
}

/* A row of the palette. Where the old edition carries what the present one
 * lists, half of the time with contents that the present one takes. */
static const struct make *draw(struct traffic *t, const struct palette *p)
{
    size_t row = p->of[traffic_number(t, (uint32_t)p->count)];
    const struct make *make = make_of(t, row);

    if (row >= listed[t->edition] && row < CARRIED
        && traffic_number(t, 2) == 0)
        return present_make(make->type);
    return make;
}

/* A type of the palette and a length for the room; if many tries find none one
 * parameter fills the room, or, where that is too large for a caller, takes
 * three octets of it. */
static const struct make *choose(struct traffic *t, const struct palette *p,
                                 size_t room, size_t *n)
{
    for (int tries = 0; tries < 40; tries++) {
        const struct make *make = draw(t, p);
        size_t high = make->high < room - 2 ? make->high : room - 2;

        if (high < make->low)
            continue;
        *n = p->shortest ? make->low : near_limits(t, make->low, high);
        if (is_longest(make) && *n > 12 && traffic_number(t, 4) != 0)
            *n = from_to(t, 1, 12);
        if (has_length(make, *n) && fits(*n, room))
            return make;
    }
    *n = t->way == LENIENT || room <= 20 ? room - 2 : 1;
    return filler(t);
}

static void lay_down(struct traffic *t, const struct make *make, uint8_t *q,
                     size_t n)
{
    q[0] = make == make_of(t, CARRIED) ? carried_type(t) : make->type;
    q[1] = (uint8_t)n;
    make_contents(t, make, q + 2, n);
}

/* Makes the octet after L parameters octets the right checksum. */
static void set_sum(uint8_t *out)
{
    size_t end = out[1] + 2u;
    unsigned sum = 0;

    for (size_t i = 0; i < end; i++)
        sum += out[i];
    out[end] = (uint8_t)(0u - sum);
}

/* A valid message with L = room; gives the place of its last parameter. */
static size_t build(struct traffic *t, uint8_t *out, size_t room)
{
    struct palette p;
    size_t place = 2, last = 2;

    choose_palette(t, &p);
    out[0] = traffic_number(t, 2) == 0 ? 0x80 : 0x82;
    out[1] = (uint8_t)room;
    while (room > 0) {
        size_t n;
        const struct make *make = choose(t, &p, room, &n);

        lay_down(t, make, out + place, n);
        last = place;
        place += 2 + n;
        room -= 2 + n;
    }
    set_sum(out);
    return last;
}

/* 85 parameters, or one display or one carried parameter of 253 octets, for
 * the strict way any that fill 255; gives the place of the last one. */
static size_t build_longest(struct traffic *t, uint8_t *out)
{
    size_t last = 2;

    out[0] = traffic_number(t, 2) == 0 ? 0x80 : 0x82;
    out[1] = 255;
    if (traffic_number(t, 2) == 0) {
        if (t->edition == 0 && traffic_number(t, 2) == 0)
            lay_down(t, present_make(0x50), out + 2, 253);
        else if (t->way == STRICT)
            return build(t, out, 255);
        else
            lay_down(t, make_of(t, CARRIED), out + 2, 253);
    } else {
        for (size_t i = 0; i < 85; i++) {
            struct palette p = {0, {0}, 0};

            last = 2 + 3 * i;
            while (p.count == 0)
                add_type(t, &p, shortest_types[traffic_number(
                                    t, sizeof shortest_types)]);
            lay_down(t, make_of(t, p.of[0]), out + last, 1);
        }
    }
    set_sum(out);
    return last;
}

/* ---- Damage: each gets a valid message of n octets, gives the new n ---- */

static void change(struct traffic *t, uint8_t *octet)
{
    switch (traffic_number(t, 4)) {
    case 0:
        *octet = (uint8_t)(*octet + 1);
        break;
    case 1:
        *octet = (uint8_t)(*octet - 1);
        break;
    case 2:
        *octet = (uint8_t)(*octet ^ (1u << traffic_number(t, 8)));
        break;
    default:
        *octet = (uint8_t)(*octet + 1 + traffic_number(t, 255));
        break;
    }
}

/* One octet of the message from `from` on is changed; the checksum at the
 * message's old end then makes the sum right again. */
static void change_summed(struct traffic *t, uint8_t *out, size_t n,
                          size_t from)
{
    unsigned sum = 0;

    change(t, &out[from_to(t, from, n - 2)]);
    for (size_t i = 0; i < n - 1; i++)
        sum += out[i];
    out[n - 1] = (uint8_t)(0u - sum);
}

static size_t extend(struct traffic *t, uint8_t *out, size_t n)
{
    size_t more = from_to(t, 1, TRAFFIC_OCTETS - n);

    if (traffic_number(t, 2) == 0)
        more = 1;
    for (size_t i = 0; i < more; i++)
        out[n + i] = any_octet(t);
    return n + more;
}

/* L says 1 or 2 more than its parameters fill. */
static size_t bad_room(struct traffic *t, uint8_t *out)
{
    size_t more = from_to(t, 1, 2);

    build(t, out, from_to(t, 3, 253));
    for (size_t i = 0; i < more; i++)
        out[out[1] + 2u + i] = any_octet(t);
    out[1] = (uint8_t)(out[1] + more);
    set_sum(out);
    return out[1] + 3u;
}

/* After valid parameters comes one with a length that is not its type's: one
 * beside its limits, or of 0FH often the one between its two. */
static size_t bad_length(struct traffic *t, uint8_t *out, int zero)
{
    const struct make *make = make_of(t, traffic_number(t, rows_for(t)));
    size_t n = 0, place;

    build(t, out, from_to(t, 3, 150));
    place = out[1] + 2u;
    if (!zero && !is_longest(make))
        n = traffic_number(t, 2) == 0 ? make->high + 1u : make->low - 1u;
    if (!zero && make->low < 9 && !has_length(make, 9) && make->high > 9
        && traffic_number(t, 2) == 0)
        n = 9;
    lay_down(t, make, out + place, n);
    out[1] = (uint8_t)(out[1] + 2 + n);
    if (traffic_number(t, 2) == 0) { /* not the last parameter */
        lay_down(t, filler(t), out + place + 2 + n, 4);
        out[1] = (uint8_t)(out[1] + 6);
    }
    set_sum(out);
    return out[1] + 3u;
}

/* After valid parameters comes one, of 50 octets at most, with an octet beside
 * its type's ranges, or with any octet in its place. */
static size_t bad_contents(struct traffic *t, uint8_t *out)
{
    const struct make *make = make_of(t, traffic_number(t,
                                                        listed[t->edition]));
    size_t n, place;
    uint8_t *octet;

    do {
        n = near_limits(t, make->low, make->high < 50 ? make->high : 50);
    } while (!has_length(make, n));
    build(t, out, from_to(t, 3, 150));
    place = out[1] + 2u;
    lay_down(t, make, out + place, n);
    octet = &out[place + 2 + traffic_number(t, (uint32_t)n)];
    *octet = octet_of(t, make);
    change(t, octet);
    out[1] = (uint8_t)(out[1] + 2 + n);
    set_sum(out);
    return out[1] + 3u;
}

/* After valid parameters comes a type in a room that none of its lengths fills,
 * or all but for 1 or 2: a type of one length, 0FH or 40H. */
static size_t bad_type(struct traffic *t, uint8_t *out)
{
    const struct make *make;
    size_t room, place;

    do {
        make = make_of(t, traffic_number(t, rows_for(t)));
        room = make->low + from_to(t, 3, 4);
        if (make->low > 1 && traffic_number(t, 2) == 0)
            room = from_to(t, 3, make->low + 1u);
    } while (is_possible(make, room));
    build(t, out, from_to(t, 3, 200));
    place = out[1] + 2u;
    lay_down(t, make, out + place, make->low);
    out[1] = (uint8_t)(out[1] + room);
    set_sum(out);
    return out[1] + 3u;
}

/* ---- Octets that might each stand where they do, but not together ---- */

/* A date whose month is often February or one of 30 days and whose day is
 * often its last, or the one after it. Says whether the month has the day. */
static int limit_date(struct traffic *t, uint8_t *c, size_t n)
{
    static const uint8_t often[] = {2, 2, 2, 4, 6, 9, 11};
    size_t month = from_to(t, 1, 12), day;

    if (traffic_number(t, 2) == 0)
        month = often[traffic_number(t, sizeof often)];
    switch (traffic_number(t, 8)) {
    case 0:
        day = 0;
        break;
    case 1:
    case 2:
        day = days[month - 1];
        break;
    case 3:
    case 4:
        day = days[month - 1] + 1u;
        break;
    case 5:
        day = from_to(t, 28, 32);
        break;
    case 6:
        day = from_to(t, 0, 49);
        break;
    default:
        day = from_to(t, 1, days[month - 1]);
        break;
    }
    make_date(t, c, n);
    put_pair(c, month);
    put_pair(c + 2, day);
    return day >= 1 && day <= days[month - 1];
}

/* Currency, flags and digits that are not each other's, a comma or a dash more,
 * or one of them less. */
static void mismatch_charge(struct traffic *t, uint8_t *c)
{
    uint8_t *octet = &c[4 + traffic_number(t, 10)];

    switch (traffic_number(t, 8)) {
    case 0:
        memset(c, c[0] == '-' ? 'X' : '-', 3);
        break;
    case 1:
        c[traffic_number(t, 3)] = c[0] == '-' ? 'X' : '-';
        break;
    case 2:
        c[3] ^= NOT_AVAILABLE;
        break;
    case 3:
        c[3] ^= IN_UNITS;
        break;
    case 4:
        c[3] ^= NOT_AVAILABLE | IN_UNITS;
        break;
    case 5:
        *octet = ',';
        break;
    case 6:
        *octet = *octet == '-' ? '0' : '-';
        break;
    default:
        c[4 + traffic_number(t, 9)] = c[13] = ',';
        break;
    }
}

/* A connection of another length, or with an octet of a number behind it; a
 * number with a code. */
static void mismatch_terminal(struct traffic *t, uint8_t *c, size_t n)
{
    uint8_t code = (uint8_t)near_limits(t, 0x00, 0x08);

    switch (traffic_number(t, 3)) {
    case 0:
        memset(c + 1, code, n - 1);
        c[0] = 0x01;
        break;
    case 1:
        c[0] = 0x01;
        break;
    default:
        c[from_to(t, 1, n - 1)] = code;
        break;
    }
}

/* No two numbers are drawn in one expression, here and elsewhere: which of them
 * comes first is the compiler's choice, and traffic must not hang on it. */
static void mismatch(struct traffic *t, const struct make *make, uint8_t *c,
                     size_t n)
{
    size_t value;

    switch (make->form) {
    case DATE:
        if (n == 10 && traffic_number(t, 2) == 0)
            put_pair(c + 8, from_to(t, 58, 61));
        else
            limit_date(t, c, n);
        break;
    case DURATION:
        value = from_to(t, 58, 61);
        put_pair(c + 2 * from_to(t, 1, 2), value);
        break;
    case CHARGE:
        mismatch_charge(t, c);
        break;
    case TERMINAL:
        mismatch_terminal(t, c, n);
        break;
    default: /* a third digit of a country behind a space */
        c[1] = ' ';
        c[2] = (uint8_t)near_limits(t, '0', '9');
        break;
    }
}

/* Such a parameter, alone or behind valid ones; in the old edition a date, or
 * for the lenient way one that it carries. */
static size_t mismatched(struct traffic *t, uint8_t *out)
{
    const struct make *make = &makes[0][0];
    size_t n, place;

    out[1] = 0;
    if (traffic_number(t, 2) == 0)
        build(t, out, from_to(t, 3, 60));
    if (t->edition == 0 || t->way == LENIENT) {
        do {
            make = &makes[0][traffic_number(t, CARRIED)];
        } while (make->form == RANGES || make->form == IDENTITY
                 || make->form == DISPLAY);
    }
    do {
        n = near_limits(t, make->low, make->high);
    } while (!has_length(make, n));
    place = out[1] + 2u;
    lay_down(t, make, out + place, n);
    mismatch(t, make, out + place + 2, n);
    out[0] = traffic_number(t, 2) == 0 ? 0x80 : 0x82;
    out[1] = (uint8_t)(out[1] + 2 + n);
    set_sum(out);
    return out[1] + 3u;
}

static size_t short_length(struct traffic *t, uint8_t *out, size_t n)
{
    out[1] = (uint8_t)traffic_number(t, 3);
    set_sum(out);
    return traffic_number(t, 2) == 0 ? n : out[1] + 3u;
}

static size_t noise(struct traffic *t, uint8_t *out)
{
    size_t n = from_to(t, 0, TRAFFIC_OCTETS);

    for (size_t i = 0; i < n; i++)
        out[i] = any_octet(t);
    if (n > 3 && traffic_number(t, 4) != 0) {
        out[0] = traffic_number(t, 2) == 0 ? 0x80 : 0x82;
        if (traffic_number(t, 2) == 0)
            out[2] = make_of(t, traffic_number(t, MAKES))->type;
        out[3] = (uint8_t)from_to(t, 0, 21);
    }
    return n;
}

/* Some parameter, now and then more than one, has a type that the edition does
 * not list; all else is right. */
static void unlist(struct traffic *t, uint8_t *out)
{
    size_t at[85];
    uint32_t count = 0;

    for (size_t place = 2; place < out[1] + 2u; place += 2u + out[place + 1])
        at[count++] = place;
    do {
        size_t place = at[traffic_number(t, count)];

        out[place] = unlisted_type(t);
    } while (traffic_number(t, 8) == 0);
    set_sum(out);
}

static size_t damage(struct traffic *t, uint8_t *out, size_t n, size_t last)
{
    switch (t->sort) {
    case TRAFFIC_CHANGED:
        change(t, &out[traffic_number(t, (uint32_t)n)]);
        return n;
    case TRAFFIC_CHANGED_SUMMED:
        change_summed(t, out, n, 0);
        return n;
    case TRAFFIC_TRUNCATED:
        return traffic_number(t, (uint32_t)n);
    case TRAFFIC_EXTENDED:
        return extend(t, out, n);
    case TRAFFIC_BAD_ROOM:
        return bad_room(t, out);
    case TRAFFIC_WRONG_SUM:
        change(t, &out[n - 1]);
        return n;
    case TRAFFIC_LENGTH_0:
        return bad_length(t, out, 1);
    case TRAFFIC_BAD_LENGTH:
        return bad_length(t, out, 0);
    case TRAFFIC_BAD_TYPE:
        return bad_type(t, out);
    case TRAFFIC_BAD_CONTENTS:
        return bad_contents(t, out);
    case TRAFFIC_SHORT_L:
        return short_length(t, out, n);
    case TRAFFIC_LATE:
        change_summed(t, out, n, last);
        return n;
    case TRAFFIC_NOISE:
        return noise(t, out);
    case TRAFFIC_MISMATCHED:
        return mismatched(t, out);
    case TRAFFIC_UNLISTED:
        unlist(t, out);
        return n;
    default:
        return n;
    }
}

size_t traffic_next(struct traffic *t, uint8_t out[TRAFFIC_OCTETS])
{
    size_t last;

    memset(out, 0, TRAFFIC_OCTETS);
    t->sort = TRAFFIC_VALID;
    if (traffic_number(t, 5) >= 2)
        t->sort = (enum traffic_sort)from_to(t, 1, TRAFFIC_UNLISTED - 1);
    if (t->edition == 0 && traffic_number(t, 16) == 0)
        t->sort = TRAFFIC_MISMATCHED;
    if (t->way == STRICT && traffic_number(t, 6) == 0)
        t->sort = TRAFFIC_UNLISTED;
    if (traffic_number(t, 64) == 0)
        last = build_longest(t, out);
    else
        last = build(t, out, choose_room(t));
    return damage(t, out, out[1] + 3u, last);
}

/* State and reference, few enough of them to meet again. */
static size_t put_reference(struct traffic *t, uint8_t *out, size_t n)
{
    static const uint8_t states[] = {0xFF, 0xFF, 0xFF, 0x00, 0x00, 0x55};
    static const uint16_t ends[] = {0, 1, 255, 256, 65535};
    uint32_t which = traffic_number(t, 24);
    unsigned reference = which < 5 ? ends[which] : 0x1000u + which;

    out[n++] = 0x0D;
    out[n++] = 3;
    out[n++] = states[traffic_number(t, sizeof states)];
    out[n++] = (uint8_t)(reference >> 8);
    out[n++] = (uint8_t)reference;
    return n;
}

size_t traffic_about(struct traffic *t, uint8_t out[TRAFFIC_OCTETS])
{
    size_t n = 2;
    uint8_t sum = 0;

    t->sort = TRAFFIC_VALID;
    out[0] = traffic_number(t, 16) == 0 ? 0x80 : 0x82;
    if (traffic_number(t, 2) == 0) {
        out[n++] = 0x0B;
        out[n++] = 1;
        out[n++] = traffic_number(t, 2) == 0 ? 0x00 : 0xFF;
    }
    n = put_reference(t, out, n);
    if (traffic_number(t, 8) == 0)
        n = put_reference(t, out, n);
    if (traffic_number(t, 2) == 0) {
        out[n++] = 0x13;
        out[n++] = 1;
        out[n++] = (uint8_t)traffic_number(t, 256);
    }
    out[1] = (uint8_t)(n - 2);
    for (size_t i = 0; i < n; i++)
        sum = (uint8_t)(sum + out[i]);
    out[n++] = (uint8_t)(0 - sum);
    if (traffic_number(t, 32) == 0) {
        t->sort = TRAFFIC_WRONG_SUM;
        change(t, &out[n - 1]);
    }
    return n;
}

/* Beside the date: nothing, another one, or a number that looks like a day. */
static size_t put_neighbour(struct traffic *t, uint8_t *out, size_t n)
{
    switch (traffic_number(t, 4)) {
    case 0:
        out[n] = 0x01;
        out[n + 1] = 8;
        make_date(t, out + n + 2, 8);
        return n + 10;
    case 1:
        out[n] = 0x02;
        out[n + 1] = 2;
        put_pair(out + n + 2, from_to(t, 28, 32));
        return n + 4;
    default:
        return n;
    }
}

size_t traffic_dated(struct traffic *t, uint8_t out[TRAFFIC_OCTETS])
{
    int left = traffic_number(t, 3) == 0;
    uint8_t octets = left && traffic_number(t, 2) == 0 ? 10 : 8;
    size_t n = 2, date;

    out[0] = traffic_number(t, 2) == 0 ? 0x80 : 0x82;
    n = put_neighbour(t, out, n);
    out[n++] = left ? 0x0F : 0x01;
    out[n++] = octets;
    date = n;
    t->sort = limit_date(t, out + n, octets) ? TRAFFIC_VALID
                                             : TRAFFIC_BAD_CONTENTS;
    if (left && t->edition == 1 && t->way == STRICT)
        t->sort = TRAFFIC_UNLISTED;
    n = put_neighbour(t, out, n + octets);
    out[1] = (uint8_t)(n - 2);
    set_sum(out);
    n++;
    switch (traffic_number(t, 8)) {
    case 0:
        t->sort = TRAFFIC_TRUNCATED;
        return from_to(t, date, date + octets);
    case 1:
        t->sort = TRAFFIC_CHANGED_SUMMED;
        change(t, &out[from_to(t, date, date + octets - 1u)]);
        set_sum(out);
        return n;
    case 2:
        t->sort = TRAFFIC_WRONG_SUM;
        change(t, &out[n - 1]);
        return n;
    default:
        return n;
    }
}
