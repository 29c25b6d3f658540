/*
 * The second reader, whole messages first: 01's "The message" is the table
 * below and second_is_message; "Listening" asks of each prefix whether it is
 * a message or can still become one; the read, the desk, the caption and the
 * listing look only at octets that are known to be a message. No state is
 * handed from octet to octet. A listing that comes back is cut into lines,
 * each read by itself, and of the first k lines, for each k, it is asked
 * whether they begin a listing. Each edition has a table of its own: 01's and
 * the rest of source 004's parameters are the present one's (02, Q-4), source
 * 001's is the old one's (02, Q-5); by the strict way a message is made of its
 * rows alone (02, Q-11). -DSECOND_WRONG=N makes it wrong on purpose: 1 in a
 * limit, 2 in the line for a caller, 3 in what counts, 4 in the days of
 * February, 5 in where a 30th of February is refused; in the parameter's
 * number 6, which counts from 0, and 7, which passes over carried ones; in the
 * old edition 8, which takes 19 digits, 9, which has the present pairs, and
 * 10, which has the present calling users; 11 names no edition, and 12 takes
 * unknown editions for the present one; in the strict way 13, which refuses an
 * unlisted type at its length only, 14, which says 3 for 10, 15, which goes by
 * the present table in the old edition, and 16, which carries; 17 takes
 * unknown ways for the lenient one, and 18 settles by the lenient way alone.
 * Of the European parameters 19 takes a charge with two commas, 20 reads a
 * moment without seconds as one with 00, and 21 a mark into its text. Of
 * listings that come back (02, Q-1) 22 takes leading zeros, 23 small hex
 * digits, 24 both of a pair, and 25 a last line that is not ended; 26 counts
 * lines from 0, 27 does not look behind the end, 28 touches the octet behind
 * the message, 29 says 62 ahead of 61, 30 takes a key twice, and 31 fills an
 * area that is too short.
 */
#include "second.h"

#include <string.h>

#ifndef SECOND_WRONG
#define SECOND_WRONG 0
#endif
#if SECOND_WRONG == 1
#define NUMBER_LIMIT 18 /* a comparison with this must fail */
#else
#define NUMBER_LIMIT 20
#endif

#if SECOND_WRONG == 8
#define OLD_NUMBER_LIMIT 19 /* likewise */
#else
#define OLD_NUMBER_LIMIT 18
#endif

#if SECOND_WRONG == 9
#define OLD_NAME_RIVAL 0x08 /* likewise */
#else
#define OLD_NAME_RIVAL 0x07 /* the old sheet has no 08H: the name itself */
#endif

#if SECOND_WRONG == 10
#define OLD_USERS USER /* likewise */
#else
#define OLD_USERS OLD_USER
#endif

#if SECOND_WRONG == 4
#define FEBRUARY 28 /* likewise */
#else
#define FEBRUARY 29 /* no year is sent (02, Q-2) */
#endif

#if SECOND_WRONG == 19
#define COMMAS 2 /* likewise */
#else
#define COMMAS 1 /* in a cost or a price (004, 5.4.18) */
#endif

#define SHOWMSG_LOOKS_AT 259

/* ---- The tables of types ---- */

/* Contents: each octet is in a set, or octets hang on those before them. */
enum contents {
    ANY, DIGIT, IN_NUMBER, IN_NAME, REASON, LAMP, STATE, CALL_TYPE, FORWARDED,
    USER, OLD_FORWARDED, OLD_USER, LETTER, DASH, SPACE, DIGIT_OR_SPACE,
    CONNECTION_CODE, DISPLAY_MARK, SERVICE,
    CALENDAR, CLOCK, IDENTITY, CHARGE, TERMINAL, DISPLAY, EXTENSION
};

struct range {
    uint8_t low, high;
};

static const struct {
    size_t count;
    struct range range[6];
} sets[] = {
    [ANY] = {1, {{0x00, 0xFF}}},
    [DIGIT] = {1, {{'0', '9'}}},
    [IN_NUMBER] = {6, {{'0', '9'}, {'*', '*'}, {'#', '#'}, {' ', ' '},
                       {'-', '-'}, {'(', ')'}}},
    [IN_NAME] = {1, {{0x20, 0x7E}}},
    [REASON] = {1, {{'O', 'P'}}},
    [LAMP] = {2, {{0x00, 0x00}, {0xFF, 0xFF}}},
    [STATE] = {3, {{0x00, 0x00}, {0x55, 0x55}, {0xFF, 0xFF}}},
    [CALL_TYPE] = {4, {{0x01, 0x07}, {0x10, 0x11}, {0x50, 0x51},
                       {0x81, 0xFF}}},
    [FORWARDED] = {2, {{0x00, 0x06}, {0x80, 0xFF}}},
    [USER] = {1, {{0x00, 0x0F}}},
    [OLD_FORWARDED] = {1, {{0x00, 0x06}}},
    [OLD_USER] = {4, {{0x00, 0x00}, {0x03, 0x05}, {0x0A, 0x0D},
                      {0x0F, 0x0F}}},
    [LETTER] = {1, {{'A', 'Z'}}},
    [DASH] = {1, {{'-', '-'}}},
    [SPACE] = {1, {{' ', ' '}}},
    [DIGIT_OR_SPACE] = {2, {{'0', '9'}, {' ', ' '}}},
    /* 004, table 32 */
    [CONNECTION_CODE] = {1, {{0x00, 0x07}}},
    /* 004, table 33: information that is not stored, and stored; the ranges
     * for network operators too, as 11H and 15H have them in 01 */
    [DISPLAY_MARK] = {6, {{0x00, 0x01}, {0x03, 0x06}, {0x70, 0x7F},
                          {0x80, 0x81}, {0x83, 0x86}, {0xF0, 0xFF}}},
    /* 004, table 34 */
    [SERVICE] = {2, {{0x00, 0x01}, {0x80, 0xFF}}},
};

/* How a value is printed after its key. */
enum look { AS_IT_IS, MONTH_TO_SECOND, HOUR_TO_SECOND, OFF_OR_ON,
            WITH_REFERENCE, HEX, DECIMAL, CURRENCY_AND_COST, FUNCTION,
            MARK_AND_TEXT };

struct rule {
    char key[18];      /* showmsg's, of the present edition */
    uint8_t low, high; /* of n; 0 for a type without a row */
    uint8_t kind;      /* of value, in a draft */
    uint8_t contents;
    uint8_t look;
    uint8_t rival;     /* the other type of the pair, or the type itself */
};

/* 01's table, and from 0FH on among it the rest of 004's table 7 (02, Q-4);
 * table 33 prints 0FH for 50H. */
static const struct rule present[256] = {
    [0x01] = {"time", 8, 8, SECOND_DATE, CALENDAR, MONTH_TO_SECOND, 0x01},
    [0x02] = {"caller", 1, NUMBER_LIMIT, SECOND_TEXT, IN_NUMBER, AS_IT_IS,
              0x04},
    [0x03] = {"called", 1, NUMBER_LIMIT, SECOND_TEXT, IN_NUMBER, AS_IT_IS,
              0x03},
    [0x04] = {"caller-absent", 1, 1, SECOND_CODE, REASON, AS_IT_IS, 0x02},
    [0x07] = {"name", 1, 50, SECOND_TEXT, IN_NAME, AS_IT_IS, 0x08},
    [0x08] = {"name-absent", 1, 1, SECOND_CODE, REASON, AS_IT_IS, 0x07},
    [0x0B] = {"lamp", 1, 1, SECOND_CODE, LAMP, OFF_OR_ON, 0x0B},
    [0x0D] = {"message", 3, 3, SECOND_STATE, IDENTITY, WITH_REFERENCE, 0x0D},
    [0x0E] = {"depositor", 1, NUMBER_LIMIT, SECOND_TEXT, IN_NUMBER, AS_IT_IS,
              0x0E},
    [0x0F] = {"left-time", 8, 10, SECOND_MOMENT, CALENDAR, MONTH_TO_SECOND,
              0x0F},
    [0x10] = {"network-caller", 1, NUMBER_LIMIT, SECOND_TEXT, IN_NUMBER,
              AS_IT_IS, 0x10},
    [0x11] = {"call-type", 1, 1, SECOND_CODE, CALL_TYPE, HEX, 0x11},
    [0x12] = {"first-called", 1, NUMBER_LIMIT, SECOND_TEXT, IN_NUMBER,
              AS_IT_IS, 0x12},
    [0x13] = {"waiting", 1, 1, SECOND_CODE, ANY, DECIMAL, 0x13},
    [0x15] = {"forwarded", 1, 1, SECOND_CODE, FORWARDED, HEX, 0x15},
    [0x16] = {"user", 1, 1, SECOND_CODE, USER, HEX, 0x16},
    [0x1A] = {"redirecting", 1, NUMBER_LIMIT, SECOND_TEXT, IN_NUMBER, AS_IT_IS,
              0x1A},
    [0x20] = {"charge", 14, 14, SECOND_TEXT, CHARGE, CURRENCY_AND_COST, 0x20},
    [0x21] = {"additional-charge", 14, 14, SECOND_TEXT, CHARGE,
              CURRENCY_AND_COST, 0x21},
    [0x22] = {"extra-charge", 14, 14, SECOND_TEXT, CHARGE, CURRENCY_AND_COST,
              0x22},
    [0x23] = {"duration", 6, 6, SECOND_DURATION, CLOCK, HOUR_TO_SECOND, 0x23},
    [0x30] = {"provider", 1, 20, SECOND_TEXT, IN_NAME, AS_IT_IS, 0x30},
    [0x31] = {"carrier", 1, 20, SECOND_TEXT, IN_NAME, AS_IT_IS, 0x31},
    [0x40] = {"terminal", 2, 21, SECOND_MARKED, TERMINAL, FUNCTION, 0x40},
    [0x50] = {"display", 1, SECOND_TEXTS, SECOND_MARKED, DISPLAY,
              MARK_AND_TEXT, 0x50},
    [0x55] = {"service", 1, 1, SECOND_CODE, SERVICE, HEX, 0x55},
    [0xE0] = {"extension", 10, 10, SECOND_TEXT, EXTENSION, AS_IT_IS, 0xE0},
};

/* Source 001's eight types: numbers are digits, and only the caller and the
 * reason for its absence shut each other out. */
static const struct rule old[256] = {
    [0x01] = {"", 8, 8, SECOND_DATE, CALENDAR, AS_IT_IS, 0x01},
    [0x02] = {"", 1, OLD_NUMBER_LIMIT, SECOND_TEXT, DIGIT, AS_IT_IS, 0x04},
    [0x04] = {"", 1, 1, SECOND_CODE, REASON, AS_IT_IS, 0x02},
    [0x07] = {"", 1, 20, SECOND_TEXT, IN_NAME, AS_IT_IS, OLD_NAME_RIVAL},
    [0x0B] = {"", 1, 1, SECOND_CODE, LAMP, AS_IT_IS, 0x0B},
    [0x12] = {"", 1, OLD_NUMBER_LIMIT, SECOND_TEXT, DIGIT, AS_IT_IS, 0x12},
    [0x15] = {"", 1, 1, SECOND_CODE, OLD_FORWARDED, AS_IT_IS, 0x15},
    [0x16] = {"", 1, 1, SECOND_CODE, OLD_USERS, AS_IT_IS, 0x16},
};

static const struct rule *const tables[SECOND_EDITIONS] = {
    [SECOND_PRESENT] = present, [SECOND_OLD] = old
};

static const struct rule carried = {
    "", 1, SECOND_TEXTS, SECOND_CARRIED, ANY, AS_IT_IS, 0
};

static int is_known(uint8_t edition, uint8_t way)
{
    return (edition < SECOND_EDITIONS || SECOND_WRONG == 12)
        && (way < SECOND_WAYS || SECOND_WRONG == 17);
}

static const struct rule *table_of(uint8_t edition)
{
    return tables[edition < SECOND_EDITIONS ? edition : SECOND_PRESENT];
}

/* What an answer by this known edition names. */
static uint8_t named(uint8_t edition)
{
    if (SECOND_WRONG == 11 || edition >= SECOND_EDITIONS)
        return 0;
    return edition;
}

static int is_listed(uint8_t edition, uint8_t type)
{
    return table_of(edition)[type].high != 0;
}

static const struct rule *rule_of(uint8_t edition, uint8_t type)
{
    return is_listed(edition, type) ? &table_of(edition)[type] : &carried;
}

/* Whether a parameter of this type is taken at all: not by the strict way
 * where the edition does not list it (02, Q-11). */
static int is_taken(uint8_t edition, uint8_t way, uint8_t type)
{
    if (way != SECOND_STRICT || SECOND_WRONG == 16)
        return 1;
    return is_listed(SECOND_WRONG == 15 ? SECOND_PRESENT : edition, type);
}

/* ---- Whole contents ---- */

static int in_set(unsigned set, uint8_t octet)
{
    for (size_t i = 0; i < sets[set].count; i++) {
        if (octet >= sets[set].range[i].low && octet <= sets[set].range[i].high)
            return 1;
    }
    return 0;
}

static int all_in_set(unsigned set, const uint8_t *c, size_t n)
{
    for (size_t i = 0; i < n; i++) {
        if (!in_set(set, c[i]))
            return 0;
    }
    return 1;
}

static unsigned two_digits(const uint8_t *c)
{
    return (c[0] - (unsigned)'0') * 10u + (c[1] - (unsigned)'0');
}

/* The last day of a month from 1 to 12 (02, Q-2). */
static unsigned last_day(unsigned month)
{
    switch (month) {
    case 2:
        return FEBRUARY;
    case 4: case 6: case 9: case 11:
        return 30;
    default:
        return 31;
    }
}

/* Numbers of two digits, each in its field's range. */
static int legal_pairs(const uint8_t *c, size_t pairs,
                       const struct range *field)
{
    for (size_t i = 0; i < pairs; i++, c += 2) {
        if (!all_in_set(DIGIT, c, 2) || two_digits(c) < field[i].low
            || two_digits(c) > field[i].high)
            return 0;
    }
    return 1;
}

/* Month, day, hour and minute, and behind them perhaps seconds (004, 5.4.1 and
 * 5.4.10); the month has the day. */
static int legal_date(const uint8_t *c, size_t n)
{
    static const struct range field[5] = {{1, 12}, {1, 31}, {0, 23}, {0, 59},
                                          {0, 59}};

    return legal_pairs(c, n / 2, field)
        && two_digits(c + 2) <= last_day(two_digits(c));
}

/* Hours, minutes and seconds (004, 5.4.21). */
static int legal_duration(const uint8_t *c)
{
    static const struct range field[3] = {{0, 99}, {0, 59}, {0, 59}};

    return legal_pairs(c, 3, field);
}

/* Digits; one of them, anywhere, may be a comma instead. */
static int legal_amount(const uint8_t *c, size_t n)
{
    size_t commas = 0;

    for (size_t i = 0; i < n; i++) {
        if (c[i] == ',')
            commas++;
        else if (!in_set(DIGIT, c[i]))
            return 0;
    }
    return commas <= COMMAS;
}

/* Bits 4 and 5 of a charge's flags; the others bind nothing. */
#define NOT_AVAILABLE 0x08
#define IN_UNITS 0x10

/*
 * Currency, flags and ten octets (004, 5.4.18 to 5.4.20). What is not available
 * is dashes throughout, be it in units or not; a cost has a currency; units,
 * which have no comma, have a currency and a price, or dashes for both.
 */
static int legal_charge(const uint8_t *c)
{
    const uint8_t flags = c[3], *cost = c + 4, *units = cost, *price = cost + 5;
    int letters = all_in_set(LETTER, c, 3), dashes = all_in_set(DASH, c, 3);

    if (flags & NOT_AVAILABLE)
        return dashes && all_in_set(DASH, cost, 10);
    if (!(flags & IN_UNITS))
        return letters && legal_amount(cost, 10);
    return all_in_set(DIGIT, units, 5)
        && ((letters && legal_amount(price, 5))
            || (dashes && all_in_set(DASH, price, 5)));
}

enum { CONNECTION = 0x01, SUBSCRIBER = 0x02, SUBADDRESS = 0x03 };

/* A connection type, whose code is one octet, or a number or subaddress of 1 to
 * 20 digits (004, 5.4.24). */
static int legal_terminal(const uint8_t *c, size_t n)
{
    if (c[0] == CONNECTION)
        return n == 2 && in_set(CONNECTION_CODE, c[1]);
    return (c[0] == SUBSCRIBER || c[0] == SUBADDRESS)
        && all_in_set(IN_NUMBER, c + 1, n - 1);
}

/* A country of one to three digits, spaces behind them, and seven characters
 * (004, 5.4.27). */
static int legal_extension(const uint8_t *c)
{
    return in_set(DIGIT, c[0]) && in_set(DIGIT_OR_SPACE, c[1])
        && in_set(c[1] == ' ' ? SPACE : DIGIT_OR_SPACE, c[2])
        && all_in_set(IN_NAME, c + 3, 7);
}

/* A moment has 8 octets or, with its seconds, 10 (004, 5.4.10). */
static int is_length(const struct rule *rule, size_t n)
{
    if (rule->kind == SECOND_MOMENT && n == 9)
        return 0;
    return n >= rule->low && n <= rule->high;
}

static int legal_contents(uint8_t edition, uint8_t type, const uint8_t *c,
                          size_t n)
{
    const struct rule *rule = rule_of(edition, type);

    if (!is_length(rule, n))
        return 0;
    switch (rule->contents) {
    case ANY:
        return 1;
    case CALENDAR:
        return legal_date(c, n);
    case CLOCK:
        return legal_duration(c);
    case IDENTITY:
        return in_set(STATE, c[0]);
    case CHARGE:
        return legal_charge(c);
    case TERMINAL:
        return legal_terminal(c, n);
    case DISPLAY:
        return in_set(DISPLAY_MARK, c[0]) && all_in_set(IN_NAME, c + 1, n - 1);
    case EXTENSION:
        return legal_extension(c);
    default:
        return all_in_set(rule->contents, c, n);
    }
}

/* ---- Whole messages ---- */

/*
 * Splits o[2..end) into parameters, each judged whole, as far as they stand
 * whole before end. Gives the place after the last of them, or 0 if one of
 * them is not legal.
 */
static size_t split(uint8_t edition, uint8_t way, const uint8_t *o, size_t end)
{
    size_t place = 2;

    while (place + 2 <= end && place + 2 + o[place + 1] <= end) {
        if (!is_taken(edition, way, o[place])
            || !legal_contents(edition, o[place], o + place + 2, o[place + 1]))
            return 0;
        place += 2u + o[place + 1];
    }
    return place;
}

static int is_message_type(uint8_t octet)
{
    return octet == 0x80 || octet == 0x82;
}

static unsigned sum_of(const uint8_t *o, size_t n)
{
    unsigned sum = 0;

    for (size_t i = 0; i < n; i++)
        sum += o[i];
    return sum % 256u;
}

int second_is_message(uint8_t edition, uint8_t way, const uint8_t *o, size_t n)
{
    return is_known(edition, way) && n >= 6 && is_message_type(o[0])
        && o[1] >= 3 && n == o[1] + 3u
        && split(edition, way, o, n - 1) == n - 1 && sum_of(o, n) == 0;
}

/* ---- What can still become a whole message ---- */

/* Some parameters of listed types fill the room: none if it is 0, callers of 1
 * to 3 digits, which take 3 to 5 octets each, if it is at least 3; 1 and 2 are
 * too small for any. So in both editions, each listing callers, and by both
 * ways (02, Q-11). */
static int can_be_filled(size_t room)
{
    return room == 0 || room >= 3;
}

static int length_allowed(uint8_t edition, uint8_t type, size_t n, size_t room)
{
    return is_length(rule_of(edition, type), n) && 2 + n <= room
        && can_be_filled(room - 2 - n);
}

static int some_length_allowed(uint8_t edition, uint8_t type, size_t room)
{
    const struct rule *rule = rule_of(edition, type);

    for (size_t n = rule->low; n <= rule->high; n++) {
        if (length_allowed(edition, type, n, room))
            return 1;
    }
    return 0;
}

/*
 * Samples of legal contents, of each length that they have: how one begins,
 * and what fills it up. Whatever begins legal contents goes on as one of them
 * does: the tens of a month or a day with 0 or with 1, and the rest of a date
 * with 0; letters with letters, no flags and digits, which are as good as
 * units with a price; dashes with units alone, or as what is not available; a
 * number with digits, a connection with its code; a country with spaces.
 */
struct sample {
    size_t octets; /* of the beginning; 0 where there is no sample */
    char begin[10];
    char fill;
};

#define SAMPLES 3

static const struct sample samples[][SAMPLES] = {
    [CALENDAR] = {{4, "0101", '0'}, {4, "1010", '0'}},
    [CLOCK] = {{1, "0", '0'}},
    [IDENTITY] = {{1, "\x00", 0x00}},
    [CHARGE] = {{4, "AAA\x00", '0'}, {9, "---\x10" "00000", '-'},
                {4, "---\x08", '-'}},
    [TERMINAL] = {{1, "\x02", '0'}, {1, "\x01", 0x00}},
    [DISPLAY] = {{1, "\x00", ' '}},
    [EXTENSION] = {{1, "0", ' '}},
};

/* The k-th sample of the contents, n octets long; 0 if there is none. */
static int sample(unsigned contents, size_t k, uint8_t *c, size_t n)
{
    const struct sample *s = &samples[contents][k];

    if (contents < CALENDAR) {
        memset(c, sets[contents].range[0].low, n);
        return k == 0;
    }
    memset(c, s->fill, n);
    memcpy(c, s->begin, s->octets);
    return s->octets != 0;
}

/* Some legal whole contents of n octets, a length of the type, begin with
 * c[0..heard). */
static int begins_contents(uint8_t edition, uint8_t type, const uint8_t *c,
                           size_t heard, size_t n)
{
    const unsigned contents = rule_of(edition, type)->contents;
    uint8_t whole[SECOND_TEXTS];

    for (size_t k = 0; k < SAMPLES && sample(contents, k, whole, n); k++) {
        memcpy(whole, c, heard);
        if (legal_contents(edition, type, whole, n))
            return 1;
    }
    return SECOND_WRONG == 5 && contents == CALENDAR && heard == 3
        && c[2] == '3';
}

/* q[0..heard) is less than one parameter, in a room of its own and of all
 * that follow it. */
static int begins_parameters(uint8_t edition, uint8_t way, const uint8_t *q,
                             size_t heard, size_t room)
{
    if (heard == 0)
        return can_be_filled(room);
    if (!is_taken(edition, way, q[0]))
        return SECOND_WRONG == 13 && heard == 1;
    if (heard == 1)
        return some_length_allowed(edition, q[0], room);
    return length_allowed(edition, q[0], q[1], room)
        && begins_contents(edition, q[0], q + 2, heard - 2, q[1]);
}

int second_can_go_on(uint8_t edition, uint8_t way, const uint8_t *o, size_t n)
{
    size_t place;

    if (!is_known(edition, way))
        return 0;
    if (n == 0)
        return 1;
    if (!is_message_type(o[0]))
        return 0;
    if (n == 1)
        return 1;
    if (o[1] < 3 || n >= o[1] + 3u)
        return 0;
    place = split(edition, way, o, n);
    return place != 0
        && begins_parameters(edition, way, o + place, n - place,
                             o[1] + 2u - place);
}

size_t second_begun(uint8_t edition, const uint8_t *o, size_t n)
{
    size_t begin = 2, begun = 0;

    while (begin < n && begin < o[1] + 2u) {
        begun += SECOND_WRONG != 7 || is_listed(edition, o[begin]);
        begin = begin + 1 < n ? begin + 2 + o[begin + 1] : n;
    }
    return SECOND_WRONG == 6 && begun > 0 ? begun - 1 : begun;
}

/* ---- "Listening" ---- */

/* The number that belongs to the role of the octet at place, the octets
 * before it being the beginning of some message: 10 for a type that is not
 * taken, in any room, so ahead of 3 (02, Q-11). */
static unsigned number_of_role(uint8_t edition, uint8_t way, const uint8_t *o,
                               size_t place)
{
    size_t begin = 2;

    if (place < 2)
        return place == 0 ? 1 : 2;
    if (place == o[1] + 2u)
        return 6;
    while (begin + 2 <= place && begin + 2 + o[begin + 1] <= place)
        begin += 2u + o[begin + 1];
    if (!is_taken(edition, way, o[begin]))
        return SECOND_WRONG == 14 ? 3 : 10;
    return place == begin ? 3 : place == begin + 1 ? 4 : 5;
}

/* The parameter that the octet at place belongs to, likewise: the last that
 * begins there or before (02, Q-3). Message type, length and checksum belong
 * to none. */
static size_t parameter_of_role(uint8_t edition, const uint8_t *o,
                                size_t place)
{
    if (place < 2 || place == o[1] + 2u)
        return 0;
    return second_begun(edition, o, place + 1);
}

struct second_answer second_listen(uint8_t edition, uint8_t way,
                                   const uint8_t *o, size_t n)
{
    static const struct second_answer unknown = {SECOND_REFUSED, 16, 0, 0, 0,
                                                 0, 0};
    struct second_answer a = {SECOND_WAITS, 0, 0, 0, 0, n, named(edition)};

    if (!is_known(edition, way))
        return unknown;
    for (size_t k = 0; k <= n; k++) {
        if (second_is_message(edition, way, o, k)) {
            a.answer = SECOND_MESSAGE;
            a.size = a.taken = k;
            break;
        }
        if (!second_can_go_on(edition, way, o, k)) {
            a.answer = SECOND_REFUSED;
            a.number = number_of_role(edition, way, o, k - 1);
            a.place = k - 1;
            a.parameter = parameter_of_role(edition, o, k - 1);
            a.taken = k;
            break;
        }
    }
    return a;
}

/* The whole read without its text area: 16, 1 to 6 or 10, then 8, then 7. */
static struct second_verdict judge(uint8_t edition, uint8_t way,
                                   const uint8_t *o, size_t n)
{
    struct second_answer a = second_listen(edition, way, o, n);
    struct second_verdict v = {0, 0, 0, a.edition};

    if (a.answer == SECOND_REFUSED) {
        v.number = a.number;
        v.place = a.place;
        v.parameter = a.parameter;
    } else if (a.answer == SECOND_WAITS) {
        v.number = 8;
        v.place = n;
    } else if (a.size < n) {
        v.number = 7;
        v.place = a.size;
    }
    return v;
}

/* ---- The parameters of an accepted message ---- */

struct parameter {
    uint8_t type;
    size_t start, length; /* of the contents */
};

/* Gives the parameter at *place and moves *place after it; 0 after the last. */
static int next_parameter(const uint8_t *o, size_t *place, struct parameter *q)
{
    if (*place == o[1] + 2u)
        return 0;
    q->type = o[*place];
    q->start = *place + 2;
    q->length = o[*place + 1];
    *place = q->start + q->length;
    return 1;
}

/* "What counts": the first of a type and its rival, if it is of the type. */
static int counts(uint8_t edition, const uint8_t *o, uint8_t type,
                  struct parameter *q)
{
    size_t place = 2;

    if (!is_listed(edition, type))
        return 0;
    while (next_parameter(o, &place, q)) {
        if (q->type == type
            || (SECOND_WRONG != 3
                && q->type == rule_of(edition, type)->rival))
            return q->type == type;
    }
    return 0;
}

int second_counted(uint8_t edition, uint8_t way, const uint8_t *o, size_t n,
                   uint8_t type, size_t *start, size_t *length)
{
    struct parameter q;

    if (!second_is_message(edition, way, o, n)
        || !counts(edition, o, type, &q))
        return 0;
    *start = q.start;
    *length = q.length;
    return 1;
}

static unsigned reference_of(const uint8_t *c)
{
    return c[1] * 256u + c[2];
}

/* ---- "Drafts" ---- */

static int has_text(unsigned kind)
{
    return kind == SECOND_TEXT || kind == SECOND_CARRIED
        || kind == SECOND_MARKED;
}

/* How many octets of the contents stand before its text. */
static size_t before_text(unsigned kind)
{
    return kind == SECOND_MARKED && SECOND_WRONG != 21 ? 1 : 0;
}

static size_t texts_needed(uint8_t edition, const uint8_t *o)
{
    struct parameter q;
    size_t place = 2, octets = 0;

    while (next_parameter(o, &place, &q)) {
        unsigned kind = rule_of(edition, q.type)->kind;
        if (has_text(kind))
            octets += q.length - before_text(kind);
    }
    return octets;
}

static void set_text(struct second_draft *draft, struct second_entry *entry,
                     const uint8_t *c, size_t n)
{
    memcpy(draft->texts + draft->text_octets, c, n);
    entry->start = draft->text_octets;
    entry->length = (uint16_t)n;
    draft->text_octets = (uint16_t)(draft->text_octets + n);
}

static void set_pairs(struct second_entry *entry, const uint8_t *c,
                      size_t pairs)
{
    for (size_t i = 0; i < pairs; i++)
        entry->number[i] = (uint16_t)two_digits(c + 2 * i);
}

static void set_entry(uint8_t edition, struct second_draft *draft, uint8_t type,
                      const uint8_t *c, size_t n)
{
    struct second_entry *entry = &draft->entry[draft->entries++];

    entry->type = type;
    entry->kind = rule_of(edition, type)->kind;
    switch (entry->kind) {
    case SECOND_CODE:
    case SECOND_MARKED:
        entry->number[0] = c[0];
        break;
    case SECOND_STATE:
        entry->number[0] = c[0];
        entry->number[1] = (uint16_t)reference_of(c);
        break;
    case SECOND_DATE:
        set_pairs(entry, c, 4);
        break;
    case SECOND_MOMENT:
        set_pairs(entry, c, n / 2);
        if (n == 10 || SECOND_WRONG == 20)
            entry->number[4]++;
        break;
    case SECOND_DURATION:
        set_pairs(entry, c, 3);
        break;
    default:
        break;
    }
    if (has_text(entry->kind)) {
        size_t before = before_text(entry->kind);
        set_text(draft, entry, c + before, n - before);
    }
}

struct second_verdict second_read(uint8_t edition, uint8_t way,
                                  const uint8_t *o, size_t n, size_t area_len,
                                  struct second_draft *draft)
{
    struct second_verdict v = judge(edition, way, o, n);
    struct parameter q;
    size_t place = 2;

    if (v.number != 0)
        return v;
    if (texts_needed(edition, o) > area_len) {
        v.number = 9;
        v.place = texts_needed(edition, o);
        return v;
    }
    memset(draft, 0, sizeof *draft);
    draft->message_type = o[0];
    draft->edition = v.edition;
    while (next_parameter(o, &place, &q))
        set_entry(edition, draft, q.type, o + q.start, q.length);
    return v;
}

/* ---- "The desk" ---- */

void second_clear(struct second_desk *desk)
{
    desk->waiting = SECOND_UNKNOWN;
    desk->lamp = SECOND_UNKNOWN;
    for (int i = 0; i < SECOND_PLACES; i++)
        desk->open[i] = SECOND_FREE;
}

/* How many places hold this. */
static int places_with(const struct second_desk *desk, long what)
{
    int n = 0;

    for (int i = 0; i < SECOND_PLACES; i++)
        n += desk->open[i] == what;
    return n;
}

static int out_of_range(const struct second_desk *desk)
{
    if (desk->waiting < SECOND_UNKNOWN || desk->waiting > 255
        || desk->lamp < SECOND_UNKNOWN || desk->lamp > 1)
        return 1;
    for (int i = 0; i < SECOND_PLACES; i++) {
        long held = desk->open[i];
        if (held < SECOND_FREE || held > 65535)
            return 1;
        if (held != SECOND_FREE && places_with(desk, held) > 1)
            return 1;
    }
    return 0;
}

/* Puts `to` into the lowest place that holds `from`. */
static void replace(struct second_desk *desk, long from, long to)
{
    int i = 0;

    while (i < SECOND_PLACES && desk->open[i] != from)
        i++;
    if (i < SECOND_PLACES)
        desk->open[i] = to;
}

struct second_verdict second_settle(uint8_t edition, uint8_t way,
                                    struct second_desk *desk, const uint8_t *o,
                                    size_t n)
{
    struct second_verdict v = {17, 0, 0, 0};
    struct parameter q;

    if (out_of_range(desk))
        return v;
    if (SECOND_WRONG == 18 && way == SECOND_STRICT)
        way = SECOND_LENIENT;
    v = judge(edition, way, o, n);
    if (v.number != 0 || o[0] != 0x82)
        return v;
    if (counts(edition, o, 0x0D, &q)) {
        long reference = o[q.start + 1] * 256L + o[q.start + 2];
        int there = places_with(desk, reference) == 1;
        if (o[q.start] == 0xFF && !there) {
            if (places_with(desk, SECOND_FREE) == 0) {
                v.number = 21;
                return v;
            }
            replace(desk, SECOND_FREE, reference);
        }
        if (o[q.start] == 0x00 && there)
            replace(desk, reference, SECOND_FREE);
    }
    if (counts(edition, o, 0x13, &q))
        desk->waiting = o[q.start];
    if (counts(edition, o, 0x0B, &q))
        desk->lamp = o[q.start] == 0xFF;
    return v;
}

/* ---- "What showmsg prints" ---- */

struct page {
    char *out;
    size_t n;
};

static void put(struct page *page, char c)
{
    page->out[page->n++] = c;
}

static void put_words(struct page *page, const char *words)
{
    while (*words != '\0')
        put(page, *words++);
}

static void put_octets(struct page *page, const uint8_t *c, size_t n)
{
    for (size_t i = 0; i < n; i++)
        put(page, (char)c[i]);
}

static void put_decimal(struct page *page, size_t value)
{
    size_t unit = 1;

    while (value / unit >= 10)
        unit *= 10;
    for (; unit > 0; unit /= 10)
        put(page, "0123456789"[value / unit % 10]);
}

static void put_hex(struct page *page, uint8_t octet)
{
    put(page, "0123456789ABCDEF"[octet / 16]);
    put(page, "0123456789ABCDEF"[octet % 16]);
}

/* Pairs of digits, n octets in all, and what stands between them. */
static void put_pairs(struct page *page, const uint8_t *c, size_t n,
                      const char *between)
{
    for (size_t i = 0; i < n; i += 2) {
        if (i > 0)
            put(page, *between++);
        put_octets(page, c + i, 2);
    }
}

static void put_state(struct page *page, const uint8_t *c)
{
    put_words(page, c[0] == 0x00 ? "off " : c[0] == 0x55 ? "unset " : "on ");
    put_decimal(page, reference_of(c));
}

static void put_charge(struct page *page, const uint8_t *c)
{
    put_octets(page, c, 3);
    put(page, ' ');
    put_hex(page, c[3]);
    put(page, ' ');
    put_octets(page, c + 4, 10);
}

static void put_function(struct page *page, const uint8_t *c, size_t n)
{
    if (c[0] == CONNECTION) {
        put_words(page, "connection ");
        put_hex(page, c[1]);
        return;
    }
    put_words(page, c[0] == SUBSCRIBER ? "number " : "subaddress ");
    put_octets(page, c + 1, n - 1);
}

static void put_value(struct page *page, const struct rule *rule,
                      const uint8_t *c, size_t n)
{
    switch (rule->look) {
    case MONTH_TO_SECOND:
        put_pairs(page, c, n, "- ::");
        if (SECOND_WRONG == 20 && rule->kind == SECOND_MOMENT && n == 8)
            put_words(page, ":00");
        break;
    case HOUR_TO_SECOND:
        put_pairs(page, c, n, "::");
        break;
    case OFF_OR_ON:
        put_words(page, c[0] == 0xFF ? "on" : "off");
        break;
    case WITH_REFERENCE:
        put_state(page, c);
        break;
    case HEX:
        put_hex(page, c[0]);
        break;
    case DECIMAL:
        put_decimal(page, c[0]);
        break;
    case CURRENCY_AND_COST:
        put_charge(page, c);
        break;
    case FUNCTION:
        put_function(page, c, n);
        break;
    case MARK_AND_TEXT:
        put_hex(page, c[0]);
        put(page, ' ');
        put_octets(page, c + 1, n - 1);
        break;
    default:
        put_octets(page, c, n);
        break;
    }
}

static void put_number_line(struct page *page, const char *key, size_t value)
{
    put_words(page, key);
    put(page, '=');
    put_decimal(page, value);
    put(page, '\n');
}

static size_t carried_in(const uint8_t *o)
{
    struct parameter q;
    size_t place = 2, number = 0;

    while (next_parameter(o, &place, &q))
        number += is_listed(SECOND_PRESENT, q.type) ? 0 : 1;
    return number;
}

/* showmsg's order of keys is the order of the types. */
static void put_message(struct page *page, const uint8_t *o)
{
    struct parameter q;

    put_words(page, o[0] == 0x80 ? "kind=call\n" : "kind=notice\n");
    for (unsigned type = 0; type < 256; type++) {
        if (!counts(SECOND_PRESENT, o, (uint8_t)type, &q))
            continue;
        put_words(page, present[type].key);
        put(page, '=');
        put_value(page, &present[type], o + q.start, q.length);
        put(page, '\n');
    }
    put_number_line(page, "carried", carried_in(o));
}

size_t second_listing(const uint8_t *o, size_t n, char *out)
{
    struct page page = {out, 0};
    struct second_verdict v;

    if (n > SHOWMSG_LOOKS_AT)
        n = SHOWMSG_LOOKS_AT;
    v = judge(SECOND_PRESENT, SECOND_LENIENT, o, n);
    if (v.number == 0) {
        put_message(&page, o);
    } else {
        put_number_line(&page, "refused", v.number);
        put_number_line(&page, "at", v.place);
        put_number_line(&page, "in", v.parameter);
    }
    return page.n;
}

/* ---- "The caption" ---- */

/* The first place in d[from..to) that holds the octet, or to. */
static size_t find(const uint8_t *d, size_t from, size_t to, uint8_t octet)
{
    while (from < to && d[from] != octet)
        from++;
    return from;
}

/* Sets the part after the first = of the first line for the caller. */
static int look_up(const uint8_t *d, size_t octets, const uint8_t *caller,
                   size_t n, struct second_part *part)
{
    size_t end;

    for (size_t line = 0; line < octets; line = end + 1) {
        size_t equals;

        end = find(d, line, octets, 0x0A);
        equals = find(d, line, end, '=');
        if (equals < end
            && (equals - line == n || (SECOND_WRONG == 2 && equals - line > n))
            && memcmp(d + line, caller, n) == 0) {
            part->slice = SECOND_IN_DIRECTORY;
            part->start = equals + 1;
            part->length = end - (equals + 1);
            return 1;
        }
    }
    return 0;
}

struct second_part second_caption(uint8_t edition, uint8_t way,
                                  const uint8_t *o, size_t n,
                                  const uint8_t *directory, size_t octets)
{
    struct second_verdict v = judge(edition, way, o, n);
    struct second_part part = {v.number, v.place, v.parameter, v.edition,
                               SECOND_IN_MESSAGE, 0, 0};
    struct parameter q;
    int by_name;

    if (v.number != 0)
        return part;
    by_name = counts(edition, o, 0x07, &q);
    if (!by_name && !counts(edition, o, 0x02, &q))
        return part;
    if (by_name
        || !look_up(directory, octets, o + q.start, q.length, &part)) {
        part.start = q.start;
        part.length = q.length;
    }
    return part;
}

/* ---- Listings come back as messages (02, Q-1) ---- */

static int starts(const uint8_t *v, size_t n, const char *words)
{
    return n >= strlen(words) && memcmp(v, words, strlen(words)) == 0;
}

static int is_words(const uint8_t *v, size_t n, const char *words)
{
    return n == strlen(words) && starts(v, n, words);
}

/*
 * Values, by their look: each of these gives the number of octets that v[0..n)
 * stands for, at most SECOND_TEXTS, and the octets; 0 where no value has such a
 * look. Whether they are a value is for legal_contents to say.
 */

/* As it is, but not longer than c has room for. */
static size_t from_octets(const uint8_t *v, size_t n, size_t room, uint8_t *c)
{
    if (n > room)
        return 0;
    memcpy(c, v, n);
    return n;
}

/* Pairs, and between them these characters, or the first of them. */
static size_t from_pairs(const uint8_t *v, size_t n, const char *between,
                         uint8_t *c)
{
    size_t octets = 0;

    if (n % 3 != 2 || n / 3 > strlen(between))
        return 0;
    for (size_t i = 0; i < n; i++) {
        if (i % 3 != 2)
            c[octets++] = v[i];
        else if (v[i] != (uint8_t)between[i / 3])
            return 0;
    }
    return octets;
}

/* The digit's number, 16 if it is none: capital letters only. */
static unsigned hex_digit(uint8_t x)
{
    if (in_set(DIGIT, x))
        return x - (unsigned)'0';
    if (x >= 'A' && x <= 'F')
        return 10u + x - 'A';
    if (SECOND_WRONG == 23 && x >= 'a' && x <= 'f')
        return 10u + x - 'a';
    return 16;
}

static size_t from_hex(const uint8_t *v, size_t n, uint8_t *c)
{
    if (n != 2 || hex_digit(v[0]) > 15 || hex_digit(v[1]) > 15)
        return 0;
    c[0] = (uint8_t)(hex_digit(v[0]) * 16 + hex_digit(v[1]));
    return 1;
}

/* The number in decimal without leading zeros, at most the limit; -1 if it is
 * none. */
static long decimal_of(const uint8_t *v, size_t n, long limit)
{
    long value = 0;

    if (n == 0 || (n > 1 && v[0] == '0' && SECOND_WRONG != 22))
        return -1;
    for (size_t i = 0; i < n && value <= limit; i++) {
        if (!in_set(DIGIT, v[i]))
            return -1;
        value = value * 10 + (v[i] - '0');
    }
    return value <= limit ? value : -1;
}

static size_t from_decimal(const uint8_t *v, size_t n, uint8_t *c)
{
    long value = decimal_of(v, n, 255);

    c[0] = (uint8_t)value;
    return value < 0 ? 0 : 1;
}

static size_t from_lamp(const uint8_t *v, size_t n, uint8_t *c)
{
    c[0] = is_words(v, n, "on") ? 0xFF : 0x00;
    return is_words(v, n, "on") || is_words(v, n, "off") ? 1 : 0;
}

/* A state, a space and the reference. */
static size_t from_state(const uint8_t *v, size_t n, uint8_t *c)
{
    static const struct {
        const char *words;
        uint8_t octet;
    } states[] = {{"off ", 0x00}, {"unset ", 0x55}, {"on ", 0xFF}};
    long reference = -1;

    for (size_t i = 0; i < sizeof states / sizeof *states; i++) {
        size_t before = strlen(states[i].words);
        if (!starts(v, n, states[i].words))
            continue;
        reference = decimal_of(v + before, n - before, 65535);
        c[0] = states[i].octet;
        c[1] = (uint8_t)(reference / 256);
        c[2] = (uint8_t)(reference % 256);
    }
    return reference < 0 ? 0 : 3;
}

/* Currency, flags and ten octets, with spaces between. */
static size_t from_charge(const uint8_t *v, size_t n, uint8_t *c)
{
    if (n != 17 || v[3] != ' ' || from_hex(v + 4, 2, c + 3) == 0
        || v[6] != ' ')
        return 0;
    memcpy(c, v, 3);
    memcpy(c + 4, v + 7, 10);
    return 14;
}

/* A connection and its code, or a number or subaddress. */
static size_t from_function(const uint8_t *v, size_t n, uint8_t *c)
{
    static const struct {
        const char *words;
        uint8_t octet;
    } functions[] = {{"connection ", CONNECTION}, {"number ", SUBSCRIBER},
                     {"subaddress ", SUBADDRESS}};
    size_t octets = 0;

    for (size_t i = 0; i < sizeof functions / sizeof *functions; i++) {
        size_t before = strlen(functions[i].words);
        if (!starts(v, n, functions[i].words))
            continue;
        c[0] = functions[i].octet;
        octets = c[0] == CONNECTION
            ? from_hex(v + before, n - before, c + 1)
            : from_octets(v + before, n - before, SECOND_TEXTS - 1, c + 1);
    }
    return octets == 0 ? 0 : 1 + octets;
}

/* A mark, a space and a text, perhaps of nothing. */
static size_t from_display(const uint8_t *v, size_t n, uint8_t *c)
{
    if (n < 3 || from_hex(v, 2, c) == 0 || v[2] != ' '
        || n - 3 > SECOND_TEXTS - 1)
        return 0;
    memcpy(c + 1, v + 3, n - 3);
    return 1 + n - 3;
}

static size_t from_look(unsigned look, const uint8_t *v, size_t n, uint8_t *c)
{
    switch (look) {
    case MONTH_TO_SECOND:
        return from_pairs(v, n, "- ::", c);
    case HOUR_TO_SECOND:
        return from_pairs(v, n, "::", c);
    case OFF_OR_ON:
        return from_lamp(v, n, c);
    case WITH_REFERENCE:
        return from_state(v, n, c);
    case HEX:
        return from_hex(v, n, c);
    case DECIMAL:
        return from_decimal(v, n, c);
    case CURRENCY_AND_COST:
        return from_charge(v, n, c);
    case FUNCTION:
        return from_function(v, n, c);
    case MARK_AND_TEXT:
        return from_display(v, n, c);
    default:
        return from_octets(v, n, SECOND_TEXTS, c);
    }
}

/* A line is the kind, a value or the last one, or stands in no listing. */
enum line_sort { NO_LINE, KIND_LINE, VALUE_LINE, LAST_LINE };

struct line {
    enum line_sort sort;
    uint8_t type;                  /* of the message, or of the parameter */
    size_t n;                      /* of its contents */
    uint8_t contents[SECOND_TEXTS];
    size_t end;                    /* where the text goes on behind it */
};

static void read_value(uint8_t type, const uint8_t *v, size_t n,
                       struct line *line)
{
    line->type = type;
    line->n = from_look(present[type].look, v, n, line->contents);
    if (line->n > 0
        && legal_contents(SECOND_PRESENT, type, line->contents, line->n))
        line->sort = VALUE_LINE;
}

/* v[0..n) by itself, without its line end. */
static void read_line(const uint8_t *v, size_t n, struct line *line)
{
    const size_t value = find(v, 0, n, '=') + 1;

    line->sort = NO_LINE;
    if (is_words(v, n, "carried=0"))
        line->sort = LAST_LINE;
    if (is_words(v, n, "kind=call") || is_words(v, n, "kind=notice")) {
        line->sort = KIND_LINE;
        line->type = is_words(v, n, "kind=call") ? 0x80 : 0x82;
    }
    for (unsigned type = 0; type < 256 && value <= n; type++) {
        if (is_listed(SECOND_PRESENT, (uint8_t)type)
            && is_words(v, value - 1, present[type].key))
            read_value((uint8_t)type, v + value, n - value, line);
    }
}

/* More lines than a listing has: the kind, at most one for each of 27 keys,
 * and the last. No others need be looked at. */
#define LINES 30

/* Reads the ended lines of the text, LINES at most, and gives their number. */
static size_t read_lines(const uint8_t *text, size_t n, struct line *line)
{
    size_t count = 0, at = 0, end;

    while (count < LINES && at < n) {
        end = find(text, at, n, 0x0A);
        if (end == n && SECOND_WRONG != 25)
            break;
        read_line(text + at, end - at, &line[count]);
        at = end < n ? end + 1 : n;
        line[count++].end = at;
    }
    return count;
}

/* One value line may stand before another: its type is the lower one, and not
 * the other of a pair. */
static int may_follow(uint8_t type, uint8_t before)
{
    if (SECOND_WRONG == 30 && type == before)
        return 1;
    return before < type
        && (present[type].rival != before || SECOND_WRONG == 24);
}

/* These k lines are the first of some listing: the kind is the first and no
 * other, the last one, if it is among them, the k-th and behind a value, and of
 * any two values one may follow the other. */
static int begin_listing(const struct line *line, size_t k)
{
    for (size_t i = 0; i < k; i++) {
        if (line[i].sort == NO_LINE || (line[i].sort == KIND_LINE) != (i == 0)
            || (line[i].sort == LAST_LINE && (i < 2 || i + 1 < k)))
            return 0;
        for (size_t j = 1; j < i && line[i].sort == VALUE_LINE; j++) {
            if (!may_follow(line[i].type, line[j].type))
                return 0;
        }
    }
    return 1;
}

/* The octets of the parameters that the value lines among k lines make. */
static size_t octets_of(const struct line *line, size_t k)
{
    size_t octets = 0;

    for (size_t i = 0; i < k; i++)
        octets += line[i].sort == VALUE_LINE ? 2 + line[i].n : 0;
    return octets;
}

/* The message that the k lines of a listing make; gives its size. */
static size_t make_message(const struct line *line, size_t k, uint8_t *o)
{
    size_t place = 2;

    o[0] = line[0].type;
    o[1] = (uint8_t)octets_of(line, k);
    for (size_t i = 1; i + 1 < k; i++) {
        o[place] = line[i].type;
        o[place + 1] = (uint8_t)line[i].n;
        memcpy(o + place + 2, line[i].contents, line[i].n);
        place += 2 + line[i].n;
    }
    o[place] = (uint8_t)(256u - sum_of(o, place));
    return place + 1;
}

struct second_made second_message_of(const char *text, size_t n, uint8_t *out,
                                     size_t room)
{
    struct second_made made = {0, 0, 0, named(SECOND_PRESENT)};
    struct line line[LINES];
    uint8_t o[258];
    size_t count = read_lines((const uint8_t *)text, n, line), k = 0;
    int whole;

    while (k < count && begin_listing(line, k + 1))
        k++;
    whole = k > 0 && line[k - 1].sort == LAST_LINE
        && (line[k - 1].end == n || SECOND_WRONG == 27);
    if (octets_of(line, k) > 255 && (whole || SECOND_WRONG == 29)) {
        made.number = 62;
    } else if (!whole) {
        made.number = 61;
        made.place = SECOND_WRONG == 26 ? k : k + 1;
    } else if (room < octets_of(line, k) + 3) {
        made.number = 15;
        made.place = octets_of(line, k) + 3;
    }
    if (made.number == 0 || (made.number == 15 && SECOND_WRONG == 31)) {
        size_t size = make_message(line, k, o);
        memcpy(out, o, size < room ? size : room);
        if (SECOND_WRONG == 28 && size < room)
            out[size] = 0;
        made.size = made.number == 0 ? size : 0;
    }
    return made;
}
