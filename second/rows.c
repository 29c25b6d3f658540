/*
 * Writes what the program `rows` reads and what it must print: the rows of
 * 01's table, of 02's calendar (Q-2), parameters at fault (Q-3) and European
 * parameters (Q-4) and of the other editions and ways, whose outcomes stand
 * here by hand, and both sides of every limit of both editions by both ways,
 * with what the second reader says; of the limits of 02 the refusals stand
 * here too. Each case is an
 * edition (0 the present one, 1 the old, Q-5), a way (0 strict, 1 lenient,
 * Q-11), the octets' number in two octets, and the octets. Usage: rows CASES
 * LINES
 */
#include <stdio.h>
#include <string.h>

#include "second.h"

static FILE *cases, *lines;
static int wrong;

/* ---- One case ---- */

/* The edition and the way of the cases made from here on. */
static uint8_t edition = SECOND_PRESENT, way = SECOND_LENIENT;

static void go_by(unsigned of_edition, unsigned of_way)
{
    edition = (uint8_t)of_edition;
    way = (uint8_t)of_way;
}

static void put(const uint8_t *o, size_t n, const char *line)
{
    uint8_t head[4] = {edition, way, (uint8_t)(n >> 8), (uint8_t)n};

    fwrite(head, 1, 4, cases);
    fwrite(o, 1, n, cases);
    for (size_t i = 0; i < n; i++)
        fprintf(lines, "%02x ", o[i]);
    fprintf(lines, "| %s\n", line);
}

/* ---- What the second reader says ---- */

static char said[2 * SECOND_LISTING];

/* A listing is of the present edition and the lenient way; the others have a
 * title. Gives where it ends, as do all of these. */
static size_t say_title(const uint8_t *o, size_t n)
{
    size_t listed;

    if (edition != SECOND_PRESENT || way != SECOND_LENIENT)
        return (size_t)sprintf(said, "edition %u way %u ", edition, way);
    listed = second_listing(o, n, said);
    for (size_t i = 0; i < listed; i++)
        said[i] = said[i] == '\n' ? ' ' : said[i];
    return listed;
}

static size_t say_heard(size_t at, const char *who, struct second_answer heard)
{
    at += (size_t)sprintf(said + at, "| %s ", who);
    if (heard.answer == SECOND_WAITS)
        at += (size_t)sprintf(said + at, "waits");
    else if (heard.answer == SECOND_MESSAGE)
        at += (size_t)sprintf(said + at, "size %zu", heard.size);
    else
        at += (size_t)sprintf(said + at, "%u at %zu in %zu", heard.number,
                              heard.place, heard.parameter);
    return at + (size_t)sprintf(said + at, ", took %zu, edition %u",
                                heard.taken, heard.edition);
}

static size_t say_read(size_t at, const uint8_t *o, size_t n)
{
    struct second_draft draft;
    struct second_verdict read =
        second_read(edition, way, o, n, SECOND_TEXTS, &draft);

    if (read.number)
        return at + (size_t)sprintf(said + at, " | read %u at %zu in %zu",
                                    read.number, read.place, read.parameter);
    return at + (size_t)sprintf(said + at, " | read size %zu", n);
}

/* A listener that is reset by the function that names no way is strict, and
 * stands beside one that is told the strict way. By an unknown number nothing
 * is read. */
static void put_case(const uint8_t *o, size_t n, const char *by_hand)
{
    size_t at = say_title(o, n);

    at = say_heard(at, "L", second_listen(edition, way, o, n));
    if (way == SECOND_STRICT) {
        said[at++] = ' ';
        at = say_heard(at, "default",
                       second_listen(edition, SECOND_STRICT, o, n));
    }
    if (edition < SECOND_EDITIONS && way < SECOND_WAYS)
        at = say_read(at, o, n);
    said[at] = '\0';
    put(o, n, by_hand ? by_hand : said);
    if (by_hand && strcmp(by_hand, said)) {
        printf("rows: by hand %s\n      the second reader %s\n", by_hand,
               said);
        wrong = 1;
    }
}

/* the octets of "80 0B 01" */
static size_t octets_of(const char *hex, uint8_t *o)
{
    size_t n = 0;
    unsigned x;
    int used;

    while (sscanf(hex, " %2x%n", &x, &used) == 1) {
        o[n++] = (uint8_t)x;
        hex += used;
    }
    return n;
}

static void hex_case(const char *hex, const char *by_hand)
{
    uint8_t o[300];
    put_case(o, octets_of(hex, o), by_hand);
}

/* The second reader must refuse these octets so; number 0: not at all. */
static void spoilt_case(const uint8_t *o, size_t n, unsigned number,
                        size_t place, size_t parameter)
{
    struct second_answer heard = second_listen(edition, way, o, n);

    put_case(o, n, NULL);
    if (heard.number != number || heard.place != place
        || heard.parameter != parameter) {
        printf("rows: %zu octets to be %u at %zu in %zu: the second reader "
               "says %u at %zu in %zu\n", n, number, place, parameter,
               heard.number, heard.place, heard.parameter);
        wrong = 1;
    }
}

/* By hand, in the present edition by the lenient way: a refusal with number,
 * place, parameter and octets taken; octets that end early; an accepted
 * message. */
#define SPOILT(k, p, q, taken)                                             \
    "refused=" k " at=" p " in=" q " | L " k " at " p " in " q ", took "   \
    taken ", edition 0 | read " k " at " p " in " q
#define EARLY(n)                                                           \
    "refused=8 at=" n " in=0 | L waits, took " n                           \
    ", edition 0 | read 8 at " n " in 0"
#define ACCEPTED(n)                                                        \
    " | L size " n ", took " n ", edition 0 | read size " n
#define FOLLOWED(n)                                                        \
    "refused=7 at=" n " in=0 | L size " n ", took " n                      \
    ", edition 0 | read 7 at " n " in 0"

/* ---- 01's table ---- */

static const char *const table[][2] = {
    {"", EARLY("0")},
    {"81", SPOILT("1", "0", "0", "1")},
    {"80 02", SPOILT("2", "1", "0", "2")},
    {"80 03", EARLY("2")},
    {"80 0B 01", SPOILT("3", "2", "1", "3")},
    {"80 0A 01", EARLY("3")},
    {"80 0C 01", SPOILT("3", "2", "1", "3")},
    {"80 0D 01", EARLY("3")},
    {"80 16 02 14", EARLY("4")},
    {"80 17 02 14", SPOILT("4", "3", "1", "4")},
    {"80 17 02 15", SPOILT("4", "3", "1", "4")},
    {"80 FF 05 FD", EARLY("4")},
    {"80 FF 05 FC", SPOILT("4", "3", "1", "4")},
    {"80 0A 01 08 31 33", SPOILT("5", "5", "1", "6")},
    {"82 03 0B 01 80", SPOILT("5", "4", "1", "5")},
    {"82 03 0B 01 FF 70",
     "kind=notice lamp=on carried=0" ACCEPTED("6")},
    {"82 03 0B 01 FF 71", SPOILT("6", "5", "0", "6")},
    {"82 03 0B 01 FF 70 00", FOLLOWED("6")},
    {"82 03 13 01 02 65",
     "kind=notice waiting=2 carried=0" ACCEPTED("6")},
    {"82 06 13 01 02 13 01 05 49",
     "kind=notice waiting=2 carried=0" ACCEPTED("9")},
    {"80 06 04 01 50 02 01 37 EB",
     "kind=call caller-absent=P carried=0" ACCEPTED("9")},
    {"80 11 01 08 30 36 31 35 31 34 33 30 02 05 34 30 39 31 32 CB",
     "kind=call time=06-15 14:30 caller=40912 carried=0" ACCEPTED("20")},
};

/* ---- 02, Q-2: the day exists in its month ---- */

static const char *const calendar_table[][2] = {
    /* in February a 3 spoils the message, and 29 is a day of it */
    {"80 0A 01 08 30 32 33", SPOILT("5", "6", "1", "7")},
    {"80 0A 01 08 30 32 32 39", EARLY("8")},
    {"80 0A 01 08 30 32 32 39 30 30 30 30 E0",
     "kind=call time=02-29 00:00 carried=0" ACCEPTED("13")},
    {"80 0A 01 08 30 32 33 30 30 30 30 30 E8", SPOILT("5", "6", "1", "7")},
    {"80 0A 01 08 30 32 30 30", SPOILT("5", "7", "1", "8")},
    /* in April a 3 does not, but a 1 after it does */
    {"80 0A 01 08 30 34 33", EARLY("7")},
    {"80 0A 01 08 30 34 33 31", SPOILT("5", "7", "1", "8")},
    {"80 0A 01 08 30 34 33 30 32 33 35 39 D3",
     "kind=call time=04-30 23:59 carried=0" ACCEPTED("13")},
    {"80 0A 01 08 30 34 33 31 32 33 35 39 D2", SPOILT("5", "7", "1", "8")},
    /* in January neither does */
    {"80 0A 01 08 30 31 33 31", EARLY("8")},
    {"80 0A 01 08 30 31 33 32", SPOILT("5", "7", "1", "8")},
    {"80 0A 01 08 30 31 30 30", SPOILT("5", "7", "1", "8")},
    /* the month bears on its own day alone: not on the hour, the minute, a
     * number or the next date */
    {"82 18 01 08 30 32 32 39 32 33 33 31 02 02 33 31 "
     "01 08 30 31 33 31 30 33 33 31 CA",
     "kind=notice time=02-29 23:31 caller=31 carried=0" ACCEPTED("27")},
    {"82 14 01 08 30 31 33 31 30 33 33 31 01 08 30 32 33",
     SPOILT("5", "16", "2", "17")},
    /* a date that does not count is judged too */
    {"80 14 01 08 30 34 33 30 30 30 30 30 01 08 30 34 33 31",
     SPOILT("5", "17", "2", "18")},
};

/* ---- 02, Q-3: which parameter was at fault ---- */

static const char *const parameter_table[][2] = {
    /* in the first: type, length, contents */
    {"80 04 04", SPOILT("3", "2", "1", "3")},
    {"80 03 02 00", SPOILT("4", "3", "1", "4")},
    {"80 03 04 01 51", SPOILT("5", "4", "1", "5")},
    /* the last octet of the first, the second's own, and the checksum */
    {"80 08 02 02 31 2F", SPOILT("5", "5", "1", "6")},
    {"80 08 02 02 31 32 04", SPOILT("3", "6", "2", "7")},
    {"80 08 02 02 31 32 02 03", SPOILT("4", "7", "2", "8")},
    {"80 08 02 02 31 32 02 02 2F", SPOILT("5", "8", "2", "9")},
    {"80 08 02 02 31 32 02 02 33 2F", SPOILT("5", "9", "2", "10")},
    {"80 08 02 02 31 32 02 02 33 34 A7", SPOILT("6", "10", "0", "11")},
    {"80 08 02 02 31 32 02 02 33 34 A6",
     "kind=call caller=12 carried=0" ACCEPTED("11")},
    {"80 08 02 02 31 32 02 02 33 34 A6 00", FOLLOWED("11")},
    {"80 08 02 02 31 32 02 02 33", EARLY("9")},
    /* carried ones count, each of them */
    {"80 06 05 01 00 04 01 51", SPOILT("5", "7", "2", "8")},
    {"80 09 05 01 00 05 01 00 04 01 51", SPOILT("5", "10", "3", "11")},
    {"80 0E 05 01 00 01", SPOILT("3", "5", "2", "6")},
    {"80 07 05 01 00 06 01", SPOILT("4", "6", "2", "7")},
    /* but not the octets in them, whatever these look like */
    {"80 09 05 04 04 01 04 01 04 01 51", SPOILT("5", "10", "2", "11")},
    /* and so do repeats, one of a pair that does not count, a second date */
    {"82 06 0B 01 FF 0B 01 01", SPOILT("5", "7", "2", "8")},
    {"82 09 13 01 02 13 01 05 0B 01 01", SPOILT("5", "10", "3", "11")},
    {"80 09 02 01 37 04 01 50 02 01 2F", SPOILT("5", "10", "3", "11")},
    {"80 17 01 08 30 36 31 35 31 34 33 30 01 08 30 36 31 35 31 34 33 30 02 02",
     SPOILT("4", "23", "3", "24")},
    /* none: message type, length, checksum */
    {"83 06 13 01 02", SPOILT("1", "0", "0", "1")},
    {"82 00 13 01 02", SPOILT("2", "1", "0", "2")},
    {"82 06 13 01 02 13 01 05 4A", SPOILT("6", "8", "0", "9")},
};

/* ---- 02, Q-4: the rest of the European parameters ---- */

static const char *const european_table[][2] = {
    /* 004's annex D: an amount; units alone, as its words have them and as its
     * octets do; units with a price */
    {"80 10 20 0E 46 52 46 00 30 30 30 30 30 32 33 2C 34 35 7A",
     "kind=call charge=FRF 00 0000023,45 carried=0" ACCEPTED("19")},
    {"80 10 20 0E 2D 2D 2D 10 30 30 30 32 33 2D 2D 2D 2D 2D D5",
     "kind=call charge=--- 10 00023----- carried=0" ACCEPTED("19")},
    {"80 10 20 0E 2D 2D 2D 10 30 30 30 30 32 2D 2D 2D 2D 2D D8",
     "kind=call charge=--- 10 00002----- carried=0" ACCEPTED("19")},
    {"80 10 20 0E 44 45 4D 10 30 30 30 37 38 30 30 2C 31 32 6E",
     "kind=call charge=DEM 10 0007800,12 carried=0" ACCEPTED("19")},
    /* the other two; flags that bind nothing; not available */
    {"82 10 21 0E 49 54 4C E7 30 30 30 30 30 30 31 30 30 30 8E",
     "kind=notice additional-charge=ITL E7 0000001000 carried=0"
     ACCEPTED("19")},
    {"82 10 22 0E 2D 2D 2D 18 2D 2D 2D 2D 2D 2D 2D 2D 2D 2D DD",
     "kind=notice extra-charge=--- 18 ---------- carried=0" ACCEPTED("19")},
    {"80 10 20 0E 46 52 46 08 2D 2D 2D 2D 2D 2D 2D 2D 2D 2D 9A",
     SPOILT("5", "7", "1", "8")},
    /* 004's table 33, with the type of table 7 and with its own; a mark alone;
     * a text of spaces */
    {"80 08 50 06 04 48 65 6C 6C 6F 2A",
     "kind=call display=04 Hello carried=0" ACCEPTED("11")},
    {"80 08 0F 06 04 48 65 6C 6C 6F 6B", SPOILT("3", "2", "1", "3")},
    {"82 03 50 01 81 A9",
     "kind=notice display=81  carried=0" ACCEPTED("6")},
    {"82 05 50 03 FF 20 20 E7",
     "kind=notice display=FF    carried=0" ACCEPTED("8")},
    /* with seconds and without; 00 is not none */
    {"82 0A 0F 08 30 36 31 35 31 34 33 30 C9",
     "kind=notice left-time=06-15 14:30 carried=0" ACCEPTED("13")},
    {"82 0C 0F 0A 30 36 31 35 31 34 33 30 35 39 57",
     "kind=notice left-time=06-15 14:30:59 carried=0" ACCEPTED("15")},
    {"82 0C 0F 0A 30 32 32 39 30 30 30 30 30 30 6C",
     "kind=notice left-time=02-29 00:00:00 carried=0" ACCEPTED("15")},
    {"82 08 23 06 39 39 35 39 35 39 FF",
     "kind=notice duration=99:59:59 carried=0" ACCEPTED("11")},
    /* a connection, a number, a subaddress */
    {"80 04 40 02 01 00 39",
     "kind=call terminal=connection 00 carried=0" ACCEPTED("7")},
    {"80 04 40 02 01 07 32",
     "kind=call terminal=connection 07 carried=0" ACCEPTED("7")},
    {"80 0B 40 09 02 30 20 2A 23 2D 28 29 39 D6",
     "kind=call terminal=number 0 *#-()9 carried=0" ACCEPTED("14")},
    {"80 04 40 02 03 37 00",
     "kind=call terminal=subaddress 7 carried=0" ACCEPTED("7")},
    /* a service; a country of one, two and three digits */
    {"80 03 55 01 01 26",
     "kind=call service=01 carried=0" ACCEPTED("6")},
    {"80 03 55 01 FF 28",
     "kind=call service=FF carried=0" ACCEPTED("6")},
    {"80 0C E0 0A 31 20 20 46 54 20 20 31 2E 30 B0",
     "kind=call extension=1  FT  1.0 carried=0" ACCEPTED("15")},
    {"80 0C E0 0A 33 33 20 46 54 20 20 31 2E 30 9B",
     "kind=call extension=33 FT  1.0 carried=0" ACCEPTED("15")},
    {"80 0C E0 0A 33 35 31 46 54 20 20 31 2E 30 88",
     "kind=call extension=351FT  1.0 carried=0" ACCEPTED("15")},
    /* all of them, the last key first */
    {"80 67 E0 0A 33 33 20 4F 50 20 20 20 32 20 55 01 00 50 01 00 40 02 01 "
     "02 31 01 62 30 01 61 23 06 30 30 30 30 30 31 22 0E 2D 2D 2D 08 2D 2D "
     "2D 2D 2D 2D 2D 2D 2D 2D 21 0E 2D 2D 2D 10 30 30 30 30 31 2D 2D 2D 2D "
     "2D 20 0E 41 42 43 00 30 30 30 30 30 30 30 30 30 2C 1A 01 33 10 01 32 "
     "0F 08 31 32 33 31 32 33 35 39 02 01 31 9D",
     "kind=call caller=1 left-time=12-31 23:59 network-caller=2 "
     "redirecting=3 charge=ABC 00 000000000, "
     "additional-charge=--- 10 00001----- "
     "extra-charge=--- 08 ---------- duration=00:00:01 "
     "provider=a carrier=b terminal=connection 02 display=00  "
     "service=00 extension=33 OP   2  carried=0" ACCEPTED("106")},
    /* the first of two counts; there is no pair but 01's */
    {"82 10 23 06 30 30 30 30 30 31 23 06 30 30 30 30 30 32 D9",
     "kind=notice duration=00:00:01 carried=0" ACCEPTED("19")},
    {"80 09 04 01 50 10 01 37 02 01 38 9F",
     "kind=call caller-absent=P network-caller=7 carried=0" ACCEPTED("12")},
    {"80 09 02 01 31 10 01 32 1A 01 33 B2",
     "kind=call caller=1 network-caller=2 redirecting=3 carried=0"
     ACCEPTED("12")},
    {"80 06 10 01 32 02 01 31 03",
     "kind=call caller=1 network-caller=2 carried=0" ACCEPTED("9")},
};

/* ---- The other editions and ways, by hand: number, place and parameter, 0
 * where a listener waits, SIZE where the octets are a message ---- */

#define SIZE 255

static const struct {
    uint8_t edition, way;
    const char *hex;
    unsigned number, place, parameter;
} by_hand[] = {
    /* an unlisted type, in any room and ahead of 3; listed ones as ever */
    {0, 0, "", 0, 0, 0},
    {0, 0, "81", 1, 0, 0},
    {0, 0, "80 02", 2, 1, 0},
    {0, 0, "80 03", 0, 0, 0},
    {0, 0, "80 03 05", 10, 2, 1},
    {0, 0, "80 04 05", 10, 2, 1},
    {0, 0, "80 FF 05", 10, 2, 1},
    {0, 0, "80 03 00", 10, 2, 1},
    {0, 0, "80 03 17", 10, 2, 1},
    {0, 0, "80 03 FF", 10, 2, 1},
    {0, 0, "80 0B 05", 10, 2, 1},
    {0, 0, "80 FF 05 FD", 10, 2, 1},
    {0, 0, "80 FF 05 FC", 10, 2, 1},
    {0, 0, "80 03 05 01 00 77", 10, 2, 1},
    {0, 0, "80 03 05 01 00 78", 10, 2, 1},
    {0, 0, "82 06 13 01 02 05", 10, 5, 2},
    {0, 0, "82 06 13 01 02 05 01 00 5C", 10, 5, 2},
    {0, 0, "82 06 05 01 00 0B 01 01", 10, 2, 1},
    {0, 0, "80 09 05 01 00 05 01 00 04 01 51", 10, 2, 1},
    {0, 0, "80 04 04", 3, 2, 1},
    {0, 0, "80 06 0D", 3, 2, 1},
    {0, 0, "80 05 0D", 0, 0, 0},
    {0, 0, "80 03 02", 0, 0, 0},
    {0, 0, "80 16 02 14", 0, 0, 0},
    {0, 0, "80 17 02 15", 4, 3, 1},
    {0, 0, "80 03 16 01 01", 0, 0, 0},
    {0, 0, "82 03 13 01 02 65", SIZE, 0, 0},
    {0, 0, "82 03 13 01 02 66", 6, 5, 0},
    {0, 0, "82 06 13 01 02 13 01 05 49", SIZE, 0, 0},
    {0, 0, "80 06 04 01 50 02 01 37 EB", SIZE, 0, 0},
    /* dates by the calendar (02, Q-2) in both editions */
    {0, 0, "80 0A 01 08 30 32 32 39", 0, 0, 0},
    {0, 0, "80 0A 01 08 30 32 33", 5, 6, 1},
    {0, 0, "80 0A 01 08 30 34 33 30", 0, 0, 0},
    {0, 0, "80 0A 01 08 30 34 33 31", 5, 7, 1},
    {0, 0, "80 0A 01 08 31 32 33 31", 0, 0, 0},
    {0, 0, "80 0A 01 08 31 32 33 32", 5, 7, 1},
    {0, 0, "80 0A 01 08 30 32 30 30", 5, 7, 1},
    {0, 0, "80 0A 01 08 30 32 32 39 30 30 30 30 E0", SIZE, 0, 0},
    {1, 1, "80 0A 01 08 30 32 32 39", 0, 0, 0},
    {1, 1, "80 0A 01 08 30 32 33", 5, 6, 1},
    {1, 1, "80 0A 01 08 30 34 33 30", 0, 0, 0},
    {1, 1, "80 0A 01 08 30 34 33 31", 5, 7, 1},
    {1, 1, "80 0A 01 08 31 32 33 31", 0, 0, 0},
    {1, 1, "80 0A 01 08 31 32 33 32", 5, 7, 1},
    {1, 1, "80 0A 01 08 30 32 30 30", 5, 7, 1},
    {1, 1, "80 0A 01 08 30 32 32 39 30 30 30 30 E0", SIZE, 0, 0},
    {1, 0, "80 0A 01 08 30 32 32 39", 0, 0, 0},
    {1, 0, "80 0A 01 08 30 32 33", 5, 6, 1},
    {1, 0, "80 0A 01 08 30 34 33 30", 0, 0, 0},
    {1, 0, "80 0A 01 08 30 34 33 31", 5, 7, 1},
    {1, 0, "80 0A 01 08 31 32 33 31", 0, 0, 0},
    {1, 0, "80 0A 01 08 31 32 33 32", 5, 7, 1},
    {1, 0, "80 0A 01 08 30 32 30 30", 5, 7, 1},
    {1, 0, "80 0A 01 08 30 32 32 39 30 30 30 30 E0", SIZE, 0, 0},
    /* numbers of 1 to 18 digits */
    {1, 1, "80 03 02 00", 4, 3, 1},
    {1, 1, "80 14 02 12", 0, 0, 0},
    {1, 1, "80 15 02 13", 4, 3, 1},
    {1, 1, "80 14 12 12", 0, 0, 0},
    {1, 1, "80 15 12 13", 4, 3, 1},
    {1, 1, "80 03 02 01 2F", 5, 4, 1},
    {1, 1, "80 03 02 01 30", 0, 0, 0},
    {1, 1, "80 03 02 01 39", 0, 0, 0},
    {1, 1, "80 03 02 01 3A", 5, 4, 1},
    {1, 1, "80 03 02 01 2A", 5, 4, 1},
    {1, 1, "80 03 02 01 23", 5, 4, 1},
    {1, 1, "80 03 02 01 20", 5, 4, 1},
    {1, 1, "80 03 02 01 2D", 5, 4, 1},
    {1, 1, "80 03 02 01 28", 5, 4, 1},
    {1, 1, "80 03 12 01 2A", 5, 4, 1},
    {1, 1, "80 03 12 01 30", 0, 0, 0},
    /* names of 1 to 20 characters */
    {1, 1, "80 16 07 14", 0, 0, 0},
    {1, 1, "80 17 07 15", 4, 3, 1},
    {1, 1, "80 03 07 01 1F", 5, 4, 1},
    {1, 1, "80 03 07 01 20", 0, 0, 0},
    {1, 1, "80 03 07 01 7E", 0, 0, 0},
    {1, 1, "80 03 07 01 7F", 5, 4, 1},
    /* dates, the letters, the lamp */
    {1, 1, "80 0A 01", 0, 0, 0},
    {1, 1, "80 0B 01", 3, 2, 1},
    {1, 1, "80 0A 01 08 31 33", 5, 5, 1},
    {1, 1, "80 03 04 01 4E", 5, 4, 1},
    {1, 1, "80 03 04 01 4F", 0, 0, 0},
    {1, 1, "80 03 04 01 50", 0, 0, 0},
    {1, 1, "80 03 04 01 51", 5, 4, 1},
    {1, 1, "82 03 0B 01 00", 0, 0, 0},
    {1, 1, "82 03 0B 01 01", 5, 4, 1},
    {1, 1, "82 03 0B 01 FE", 5, 4, 1},
    {1, 1, "82 03 0B 01 FF 70", SIZE, 0, 0},
    /* forwarding 00H to 06H */
    {1, 1, "80 03 15 01 00", 0, 0, 0},
    {1, 1, "80 03 15 01 06", 0, 0, 0},
    {1, 1, "80 03 15 01 07", 5, 4, 1},
    {1, 1, "80 03 15 01 80", 5, 4, 1},
    {1, 1, "80 03 15 01 FF", 5, 4, 1},
    /* the sheet's nine values for the calling user, and those between them */
    {1, 1, "80 03 16 01 00", 0, 0, 0},
    {1, 1, "80 03 16 01 01", 5, 4, 1},
    {1, 1, "80 03 16 01 02", 5, 4, 1},
    {1, 1, "80 03 16 01 03", 0, 0, 0},
    {1, 1, "80 03 16 01 04", 0, 0, 0},
    {1, 1, "80 03 16 01 05", 0, 0, 0},
    {1, 1, "80 03 16 01 06", 5, 4, 1},
    {1, 1, "80 03 16 01 07", 5, 4, 1},
    {1, 1, "80 03 16 01 08", 5, 4, 1},
    {1, 1, "80 03 16 01 09", 5, 4, 1},
    {1, 1, "80 03 16 01 0A", 0, 0, 0},
    {1, 1, "80 03 16 01 0B", 0, 0, 0},
    {1, 1, "80 03 16 01 0C", 0, 0, 0},
    {1, 1, "80 03 16 01 0D", 0, 0, 0},
    {1, 1, "80 03 16 01 0E", 5, 4, 1},
    {1, 1, "80 03 16 01 0F", 0, 0, 0},
    {1, 1, "80 03 16 01 10", 5, 4, 1},
    /* all other types are carried: 03H with any octet, 08H of 5 octets */
    {1, 1, "80 03 03 01 00", 0, 0, 0},
    {1, 1, "80 07 08 05", 0, 0, 0},
    {1, 1, "80 03 0D", 0, 0, 0},
    {1, 1, "80 04 13", 0, 0, 0},
    {1, 1, "80 FF 0D FD", 0, 0, 0},
    {1, 1, "80 FF 0D FC", 4, 3, 1},
    {1, 1, "80 06 02 01 37 04 01 50 EB", SIZE, 0, 0},
    /* and in the strict way refused */
    {1, 0, "", 0, 0, 0},
    {1, 0, "81", 1, 0, 0},
    {1, 0, "80 02", 2, 1, 0},
    {1, 0, "80 03", 0, 0, 0},
    {1, 0, "80 03 05", 10, 2, 1},
    {1, 0, "80 03 03", 10, 2, 1},
    {1, 0, "80 04 08", 10, 2, 1},
    {1, 0, "80 05 0D", 10, 2, 1},
    {1, 0, "80 03 0E", 10, 2, 1},
    {1, 0, "80 03 11", 10, 2, 1},
    {1, 0, "80 03 13", 10, 2, 1},
    {1, 0, "80 03 14", 10, 2, 1},
    {1, 0, "82 06 0B 01 FF 13", 10, 5, 2},
    {1, 0, "82 03 13 01 02 65", 10, 2, 1},
    {1, 0, "82 05 0D 03 FF 01 02 67", 10, 2, 1},
    {1, 0, "80 06 07 01 41 08 01 4F D9", 10, 5, 2},
    {1, 0, "80 06 08 01 4F 07 01 41 D9", 10, 2, 1},
    {1, 0, "80 0A 01", 0, 0, 0},
    {1, 0, "80 0B 01", 3, 2, 1},
    {1, 0, "80 03 02", 0, 0, 0},
    {1, 0, "80 03 04", 0, 0, 0},
    {1, 0, "80 04 04", 3, 2, 1},
    {1, 0, "80 03 07", 0, 0, 0},
    {1, 0, "80 03 0B", 0, 0, 0},
    {1, 0, "80 03 12", 0, 0, 0},
    {1, 0, "80 03 15", 0, 0, 0},
    {1, 0, "80 03 16", 0, 0, 0},
    {1, 0, "80 14 02 12", 0, 0, 0},
    {1, 0, "80 15 02 13", 4, 3, 1},
    {1, 0, "80 03 16 01 01", 5, 4, 1},
    {1, 0, "80 03 16 01 0F", 0, 0, 0},
    {1, 0, "80 06 02 01 37 04 01 50 EB", SIZE, 0, 0},
    /* the parameter's number (02, Q-3), in the first, the second, the third;
     * repeats count, and so do carried ones */
    {0, 0, "80 09 05", 10, 2, 1},
    {0, 0, "80 09 04 01 50 05", 10, 5, 2},
    {0, 0, "80 09 04 01 50 04 01 50 05", 10, 8, 3},
    {0, 0, "80 0A 04 01 50 04 01 50 04", 3, 8, 3},
    {0, 0, "80 09 04 01 50 04 01 50 04 02", 4, 9, 3},
    {0, 0, "80 09 04 01 50 04 01 50 04 01 51", 5, 10, 3},
    {0, 0, "80 09 04 01 50 04 01 50 04 01 50 78", SIZE, 0, 0},
    {0, 0, "80 09 04 01 50 04 01 50 04 01 50 79", 6, 11, 0},
    {1, 1, "80 06 03 01 00 02 01 2A", 5, 7, 2},
    {1, 1, "80 09 13 01 02 13 01 05 02 01 2A", 5, 10, 3},
    {1, 1, "80 0E 08 01 00 01", 3, 5, 2},
    {1, 1, "80 07 0D 01 00 02 01", 4, 6, 2},
    {1, 1, "80 06 03 01 00 03 01 00 6F", 6, 8, 0},
    {1, 0, "80 09 03", 10, 2, 1},
    {1, 0, "80 09 04 01 50 03", 10, 5, 2},
    {1, 0, "80 09 04 01 50 04 01 50 03", 10, 8, 3},
    {1, 0, "80 0A 04 01 50 04 01 50 04", 3, 8, 3},
    {1, 0, "80 09 04 01 50 04 01 50 02 02", 4, 9, 3},
    {1, 0, "80 09 04 01 50 04 01 50 02 01 2A", 5, 10, 3},
    {1, 0, "80 09 04 01 50 04 01 50 04 01 50 79", 6, 11, 0},
    /* whole messages of the old edition: 18 digits, 20 characters, and one more
     * of each; 08H of 1 and of 5 octets; what it carries, with any contents */
    {1, 1, "80 14 02 12 31 31 31 31 31 31 31 31 31 31 31 31 31 31 31 "
     "31 31 31 E6", SIZE, 0, 0},
    {1, 1, "80 15 02 13 31 31 31 31 31 31 31 31 31 31 31 31 31 31 31 "
     "31 31 31 31 B3", 4, 3, 1},
    {1, 1, "80 14 12 12 31 31 31 31 31 31 31 31 31 31 31 31 31 31 31 "
     "31 31 31 D6", SIZE, 0, 0},
    {1, 1, "80 14 02 12 31 31 31 31 31 31 31 31 31 31 31 31 31 31 31 "
     "31 31 23 F4", 5, 21, 1},
    {1, 1, "82 16 07 14 41 41 41 41 41 41 41 41 41 41 41 41 41 41 41 "
     "41 41 41 41 41 39", SIZE, 0, 0},
    {1, 1, "82 17 07 15 41 41 41 41 41 41 41 41 41 41 41 41 41 41 41 "
     "41 41 41 41 41 41 F6", 4, 3, 1},
    {1, 1, "80 06 08 01 51 07 01 41 D7", SIZE, 0, 0},
    {1, 1, "80 0A 08 05 00 01 02 03 04 07 01 41 16", SIZE, 0, 0},
    {1, 1, "80 06 03 01 41 0E 01 FF 27", SIZE, 0, 0},
    {1, 1, "82 0A 13 02 01 02 0D 01 42 11 01 00 FA", SIZE, 0, 0},
    {1, 1, "82 06 0B 01 FF 15 01 80 D7", 5, 7, 2},
    {1, 1, "82 06 0B 01 FF 16 01 0E 48", 5, 7, 2},
    {1, 1, "80 06 02 01 37 04 01 50 EC", 6, 8, 0},
    {1, 1, "80 06 04 01 50 02 01 37 EB", SIZE, 0, 0},
    /* the European parameters (02, Q-4), which the old edition carries or, by
     * the strict way, refuses in any room */
    {0, 0, "80 09 0F", 3, 2, 1},
    {0, 0, "80 0A 0F", 0, 0, 0},
    {0, 0, "80 0B 0F", 3, 2, 1},
    {0, 0, "80 0C 0F", 0, 0, 0},
    {0, 0, "80 0D 0F", 0, 0, 0},
    {0, 0, "80 0B 0F 09", 3, 2, 1},
    {0, 0, "80 0E 0F 09", 4, 3, 1},
    {0, 0, "80 0C 0F 08", 4, 3, 1},
    {0, 0, "80 03 40", 3, 2, 1},
    {0, 0, "80 04 40", 0, 0, 0},
    {0, 0, "80 05 40 03 01", 5, 4, 1},
    {0, 0, "80 04 40 02 01", 0, 0, 0},
    {0, 0, "80 06 02 01 37 24", 10, 5, 2},
    {0, 0, "80 06 02 01 37 55", 0, 0, 0},
    {0, 0, "80 06 55 01 01 55 01 02", 5, 7, 2},
    {1, 1, "80 09 0F", 0, 0, 0},
    {1, 1, "80 0B 0F 09", 0, 0, 0},
    {1, 1, "80 0C 0F 09", 4, 3, 1},
    {1, 1, "80 03 40", 0, 0, 0},
    {1, 1, "80 05 40 03 01 08 1F", 0, 0, 0},
    {1, 1, "80 03 55 01 02 25", SIZE, 0, 0},
    {1, 1, "80 03 20 01 00 5C", SIZE, 0, 0},
    {1, 0, "80 0A 0F", 10, 2, 1},
    {1, 0, "80 0B 0F", 10, 2, 1},
    {1, 0, "80 03 40", 10, 2, 1},
    {1, 0, "80 06 02 01 37 55", 10, 5, 2},
    {1, 0, "80 03 55 01 01 26", 10, 2, 1},
};

/* By hand: what a listener of this name says. */
static size_t tell_heard(char *line, const char *who, size_t n,
                         unsigned number, unsigned place, unsigned parameter)
{
    size_t at = (size_t)sprintf(line, "| %s ", who), taken = n;

    if (number == 0)
        at += (size_t)sprintf(line + at, "waits");
    else if (number == SIZE)
        at += (size_t)sprintf(line + at, "size %zu", n);
    else
        at += (size_t)sprintf(line + at, "%u at %u in %u", number, place,
                              parameter);
    if (number != 0 && number != SIZE)
        taken = place + 1;
    return at + (size_t)sprintf(line + at, ", took %zu, edition %u ", taken,
                                edition);
}

static void told_case(const uint8_t *o, size_t n, unsigned number,
                      unsigned place, unsigned parameter)
{
    char line[300];
    size_t at = (size_t)sprintf(line, "edition %u way %u ", edition, way);

    at += tell_heard(line + at, "L", n, number, place, parameter);
    if (way == SECOND_STRICT)
        at += tell_heard(line + at, "default", n, number, place, parameter);
    if (number == 0)
        sprintf(line + at, "| read 8 at %zu in 0", n);
    else if (number == SIZE)
        sprintf(line + at, "| read size %zu", n);
    else
        sprintf(line + at, "| read %u at %u in %u", number, place, parameter);
    put_case(o, n, line);
}

static void told(void)
{
    uint8_t o[300];

    for (size_t i = 0; i < sizeof by_hand / sizeof *by_hand; i++) {
        go_by(by_hand[i].edition, by_hand[i].way);
        told_case(o, octets_of(by_hand[i].hex, o), by_hand[i].number,
                  by_hand[i].place, by_hand[i].parameter);
    }
}

/* ---- Unknown editions and ways: 16, whatever the octets; no edition is
 * named, and none of the octets is taken ---- */

#define SIXTEEN "16 at 0 in 0, took 0, edition 0"
#define UNKNOWN(title) title " | L " SIXTEEN
#define UNKNOWN_STRICT(title) title " | L " SIXTEEN " | default " SIXTEEN

static const struct {
    uint8_t edition, way;
    const char *line;
} unknown[] = {
    {2, 1, UNKNOWN("edition 2 way 1")},
    {3, 1, UNKNOWN("edition 3 way 1")},
    {128, 1, UNKNOWN("edition 128 way 1")},
    {255, 1, UNKNOWN("edition 255 way 1")},
    {2, 0, UNKNOWN_STRICT("edition 2 way 0")},
    {3, 0, UNKNOWN_STRICT("edition 3 way 0")},
    {128, 0, UNKNOWN_STRICT("edition 128 way 0")},
    {255, 0, UNKNOWN_STRICT("edition 255 way 0")},
    {0, 2, UNKNOWN("edition 0 way 2")},
    {1, 2, UNKNOWN("edition 1 way 2")},
    {0, 3, UNKNOWN("edition 0 way 3")},
    {1, 128, UNKNOWN("edition 1 way 128")},
    {0, 255, UNKNOWN("edition 0 way 255")},
    {1, 255, UNKNOWN("edition 1 way 255")},
    {2, 2, UNKNOWN("edition 2 way 2")},
    {255, 255, UNKNOWN("edition 255 way 255")},
};

static void unknown_ones(void)
{
    /* nothing; not refused yet; refused with 1, by the strict way with 10; a
     * message; more behind it */
    static const char *const octets[] = {"", "80 03", "81", "80 03 05",
                                         "82 03 0B 01 FF 70",
                                         "82 03 0B 01 FF 70 00"};
    uint8_t o[300];

    for (size_t i = 0; i < sizeof unknown / sizeof *unknown; i++)
        for (size_t k = 0; k < sizeof octets / sizeof *octets; k++) {
            go_by(unknown[i].edition, unknown[i].way);
            put_case(o, octets_of(octets[k], o), unknown[i].line);
        }
    /* a message that all take, by every edition and every way that there is
     * not */
    for (unsigned x = SECOND_EDITIONS; x < 256; x++)
        go_by(x, SECOND_LENIENT), hex_case("80 03 02 01 37 43", NULL);
    for (unsigned x = SECOND_WAYS; x < 256; x++)
        go_by(x % SECOND_EDITIONS, x), hex_case("80 03 02 01 37 43", NULL);
}

/* ---- Both sides of every limit ---- */

/* 01's types, and unlisted ones beside and between them */
static const uint8_t types[] = {0x00, 0x01, 0x02, 0x03, 0x04, 0x05, 0x07,
                                0x08, 0x0B, 0x0D, 0x0E, 0x11, 0x12, 0x13,
                                0x15, 0x16, 0x17, 0xFF};

/* types that neither edition lists, and those that the old one does not */
static const uint8_t unlisted[] = {0x00, 0x05, 0x17, 0x24, 0x80, 0xFF,
                                   0x03, 0x08, 0x0D, 0x0E, 0x11, 0x13,
                                   0x0F, 0x10, 0x1A, 0x20, 0x21, 0x22, 0x23,
                                   0x30, 0x31, 0x40, 0x50, 0x55, 0xE0};

static size_t unlisted_types(void)
{
    return edition == SECOND_OLD ? sizeof unlisted : 6;
}

/* By the strict way such a type is refused, and no length comes behind it. */
static int is_refused(uint8_t type)
{
    return way == SECOND_STRICT
        && memchr(unlisted, type, unlisted_types()) != NULL;
}

/* lengths on both sides of 1, 3, 8, 20, 50 and 253; in the old edition of 1, 8,
 * 18, 20 and 253 */
#define LENGTHS 17
static const unsigned lengths[SECOND_EDITIONS][LENGTHS] = {
    {0, 1, 2, 3, 4, 7, 8, 9, 19, 20, 21, 49, 50, 51, 252, 253, 254},
    {0, 1, 2, 3, 5, 7, 8, 9, 17, 18, 19, 20, 21, 22, 252, 253, 254},
};

/* octets on both sides of each range of contents */
struct contents {
    uint8_t type, n;
    const char *octets;
};

static const struct contents contents[] = {
    {0x02, 1, "1F 20 21 22 23 24 27 28 29 2A 2B 2C 2D 2E 2F 30 39 3A FF"},
    {0x03, 1, "1F 20 21 2F 30 39 3A"},
    {0x0E, 1, "1F 20 21 2F 30 39 3A"},
    {0x12, 1, "1F 20 21 2F 30 39 3A"},
    {0x04, 1, "00 4E 4F 50 51 FF"},
    {0x08, 1, "00 4E 4F 50 51 FF"},
    {0x07, 1, "00 1F 20 7E 7F FF"},
    {0x0B, 1, "00 01 7F 80 FE FF"},
    {0x0D, 3, "00 01 54 55 56 FE FF"},
    {0x11, 1, "00 01 07 08 0F 10 11 12 4F 50 51 52 80 81 FF"},
    {0x13, 1, "00 01 FF"},
    {0x15, 1, "00 06 07 7F 80 FF"},
    {0x16, 1, "00 0F 10 FF"},
    {0x05, 1, "00 FF"},
    {0x10, 1, "1F 20 21 22 23 24 27 28 29 2A 2B 2C 2D 2E 2F 30 39 3A FF"},
    {0x1A, 1, "1F 20 21 22 23 24 27 28 29 2A 2B 2C 2D 2E 2F 30 39 3A FF"},
    {0x30, 1, "00 1F 20 7E 7F FF"},
    {0x31, 1, "00 1F 20 7E 7F FF"},
    {0x50, 1, "00 01 02 03 06 07 6F 70 7F 80 81 82 83 86 87 EF F0 FF"},
    {0x55, 1, "00 01 02 7F 80 FF"},
    {0, 0, NULL},
};

/* those of the old edition, which does not list the others; of four, and of the
 * caller, every octet is tried besides, or by the strict way those at the
 * limits */
static const struct contents old_contents[] = {
    {0x12, 1, "00 1F 20 23 28 29 2A 2D 2F 30 31 38 39 3A 41 61 80 B0 B9 FF"},
    {0x07, 1, "00 1F 20 21 7D 7E 7F 80 A0 FE FF"},
    {0x03, 1, "00 2A 2F 30 39 3A 41 FF"},
    {0x08, 1, "00 4E 4F 50 51 FF"},
    {0x08, 5, "00 4E 4F 50 51 FF"},
    {0x0D, 1, "00 01 55 FF"},
    {0x0D, 3, "00 01 55 FF"},
    {0x0E, 1, "00 2A 2F 30 39 3A 41 FF"},
    {0x11, 1, "00 01 08 12 80 FF"},
    {0x13, 1, "00 01 FF"},
    {0x13, 2, "00 01 FF"},
    {0x05, 1, "00 FF"},
    {0x10, 1, "2F 30 FF"},
    {0x50, 1, "02 03"},
    {0x55, 1, "01 02 80"},
    {0, 0, NULL},
};

static const uint8_t all_octets_of[] = {0x02, 0x04, 0x0B, 0x15, 0x16};

static const struct contents some_octets[] = {
    {0x02, 1, "1F 20 23 28 29 2A 2D 2F 30 39 3A B0 FF"},
    {0x04, 1, "00 4E 4F 50 51 FF"},
    {0x0B, 1, "00 01 7F 80 FE FF"},
    {0x15, 1, "00 06 07 7F 80 FF"},
    {0x16, 1, "00 01 02 03 05 06 09 0A 0D 0E 0F 10 FF"},
    {0, 0, NULL},
};

/* dates up to an octet on a side of a limit */
static const char *const dates[] = {
    "/",        "0",        "1",        "2",        "00",       "01",
    "09",       "0:",       "1/",       "10",       "12",       "13",
    "010",      "013",      "014",      "01/",      "0100",     "0101",
    "0129",     "0130",     "0131",     "0132",     "01010",    "01012",
    "01013",    "0101:",    "010100",   "010119",   "010123",   "010124",
    "01012/",   "0101000",  "0101005",  "0101006",  "010100/",  "01010000",
    "01010059", "0101005:", "12312359", "02300000", "04310000",
};

/* A notice with one parameter of n octets, the first of them x and the others
 * FFH; then the same with a wrong sum, where that is asked for. */
static void octet_case(uint8_t type, uint8_t n, uint8_t x, int wrong_sum)
{
    uint8_t o[300];
    unsigned sum = 0;
    size_t size = 4u + n;

    memset(o, 0xFF, sizeof o);
    o[0] = 0x82;
    o[1] = (uint8_t)(2 + n);
    o[2] = type;
    o[3] = n;
    o[4] = x;
    for (size_t k = 0; k < size; k++)
        sum += o[k];
    o[size] = (uint8_t)(256 - sum % 256);
    put_case(o, size + 1, NULL);
    o[size]++;
    if (wrong_sum)
        put_case(o, size + 1, NULL);
}

/* each octet of contents, alone and as the message's last parameter */
static void contents_cases(const struct contents *of_types)
{
    for (; of_types->n != 0; of_types++) {
        uint8_t x[32];
        size_t n = octets_of(of_types->octets, x);

        for (size_t i = 0; i < n; i++)
            octet_case(of_types->type, of_types->n, x[i], 1);
    }
}

/* each length, with nothing, 1, 2 and 3 octets left after it */
static void lengths_of(uint8_t type)
{
    for (size_t i = 0; i < LENGTHS; i++)
        for (unsigned left = 0; left <= 3; left++) {
            unsigned room = 2 + lengths[edition][i] + left;
            uint8_t o[4] = {0x80, (uint8_t)room, type,
                            (uint8_t)lengths[edition][i]};

            if (room >= 3 && room <= 255)
                put_case(o, 4, NULL);
        }
}

static void limits(const struct contents *of_types)
{
    for (unsigned x = 0x7F; x <= 0x83; x++)
        for (unsigned l = 0; l <= 4; l++) {
            uint8_t start[2] = {(uint8_t)x, (uint8_t)l};
            put_case(start, 2, NULL);
        }
    hex_case("00", NULL);
    hex_case("FF", NULL);
    hex_case("82 FF", NULL);
    /* each type in each room on a side of a limit */
    for (size_t t = 0; t < sizeof types; t++)
        for (unsigned room = 3; room <= 14; room++) {
            uint8_t o[3] = {0x80, (uint8_t)room, types[t]};
            put_case(o, 3, NULL);
        }
    for (size_t t = 0; t < sizeof types; t++)
        if (!is_refused(types[t]))
            lengths_of(types[t]);
    contents_cases(of_types);
    for (size_t i = 0; i < sizeof dates / sizeof *dates; i++) {
        uint8_t d[12] = {0x80, 0x0A, 0x01, 0x08};
        size_t n = strlen(dates[i]);
        memcpy(d + 4, dates[i], n);
        put_case(d, 4 + n, NULL);
    }
}

static void all_octets(void)
{
    for (size_t t = 0; t < sizeof all_octets_of; t++)
        for (unsigned x = 0; x < 256; x++)
            octet_case(all_octets_of[t], 1, (uint8_t)x, 0);
}

/* ---- 02, Q-2: every month's days ---- */

/* By month: its last day and the day after, and the octet of the message that
 * spoils the day after. */
static const struct {
    const char *last, *after;
    size_t spoilt;
} months[] = {
    {"0131", "0132", 7}, {"0229", "0230", 6}, {"0331", "0332", 7},
    {"0430", "0431", 7}, {"0531", "0532", 7}, {"0630", "0631", 7},
    {"0731", "0732", 7}, {"0831", "0832", 7}, {"0930", "0931", 7},
    {"1031", "1032", 7}, {"1130", "1131", 7}, {"1231", "1232", 7},
};

/* The first n octets of a call message with this date and its right sum; the
 * octet at `spoilt` spoils it, none if that is 0 or not among them. */
static void date_case(const char *month_day, const char *hour_minute, size_t n,
                      size_t spoilt)
{
    uint8_t o[13] = {0x80, 0x0A, 0x01, 0x08};
    unsigned sum = 0;

    memcpy(o + 4, month_day, 4);
    memcpy(o + 8, hour_minute, 4);
    for (size_t i = 0; i < 12; i++)
        sum += o[i];
    o[12] = (uint8_t)(256 - sum % 256);
    if (spoilt == 0 || spoilt >= n)
        spoilt_case(o, n, 0, 0, 0);
    else
        spoilt_case(o, n, 5, spoilt, 1);
}

static void calendar(void)
{
    for (size_t i = 0; i < 12; i++) {
        const char *last = months[i].last, *after = months[i].after;
        char day[5] = {last[0], last[1], '0', '0', '\0'};

        /* whole, then cut behind a digit of the day */
        date_case(last, "2359", 13, 0);
        date_case(after, "0000", 13, months[i].spoilt);
        date_case(last, "0000", 7, 0);
        date_case(last, "0000", 8, 0);
        date_case(after, "0000", 8, months[i].spoilt);
        /* 00, 01, and each tens digit that no day of the month has */
        date_case(day, "0000", 13, 7);
        date_case(day, "0000", 8, 7);
        day[3] = '1';
        date_case(day, "0000", 13, 0);
        for (day[2] = (char)(last[2] + 1); day[2] <= '9'; day[2]++)
            date_case(day, "0000", 7, 6);
    }
    /* a 3 and each digit after it, in months of 29, 30 and 31 days */
    for (char units = '0'; units <= '9'; units++) {
        char day[5] = {'0', '2', '3', units, '\0'};

        date_case(day, "0000", 13, 6);
        day[1] = '9';
        date_case(day, "0000", 13, units == '0' ? 0 : 7);
        day[1] = '1';
        date_case(day, "0000", 13, units <= '1' ? 0 : 7);
    }
}

/* ---- 02, Q-4: both sides of the European parameters' limits ---- */

/* What a first parameter of one of these types must get in the present edition;
 * the old one carries it by the lenient way, and refuses its type by the strict
 * one. */
static void european_case(const uint8_t *o, size_t n, unsigned number,
                          size_t place)
{
    if (edition == SECOND_PRESENT)
        spoilt_case(o, n, number, place, number == 0 ? 0 : 1);
    else if (way == SECOND_STRICT)
        spoilt_case(o, n, 10, 2, 1);
    else
        spoilt_case(o, n, 0, 0, 0);
}

/* By type the rooms, of 3 to 20, that none of its lengths fits; 0 behind the
 * last of them. */
static const struct {
    uint8_t type, rooms[16];
} too_small[] = {
    {0x0F, {3, 4, 5, 6, 7, 8, 9, 11}},
    {0x10, {0}},
    {0x1A, {0}},
    {0x20, {3, 4, 5, 6, 7, 8, 9, 10, 11, 12, 13, 14, 15, 17, 18}},
    {0x21, {3, 4, 5, 6, 7, 8, 9, 10, 11, 12, 13, 14, 15, 17, 18}},
    {0x22, {3, 4, 5, 6, 7, 8, 9, 10, 11, 12, 13, 14, 15, 17, 18}},
    {0x23, {3, 4, 5, 6, 7, 9, 10}},
    {0x30, {0}},
    {0x31, {0}},
    {0x40, {3}},
    {0x50, {0}},
    {0x55, {4, 5}},
    {0xE0, {3, 4, 5, 6, 7, 8, 9, 10, 11, 13, 14}},
};

static void european_rooms(void)
{
    for (size_t t = 0; t < sizeof too_small / sizeof *too_small; t++) {
        const uint8_t *small = too_small[t].rooms;

        for (uint8_t room = 3; room <= 20; room++) {
            uint8_t o[3] = {0x80, room, too_small[t].type};

            european_case(o, 3, room == *small ? 3 : 0,
                          room == *small ? 2 : 0);
            small += room == *small;
        }
    }
}

/* Lengths that a type has, and those beside them. */
static const struct {
    uint8_t type, n, has;
} european_lengths[] = {
    {0x0F, 0, 0},  {0x0F, 7, 0},  {0x0F, 8, 1},    {0x0F, 9, 0},
    {0x0F, 10, 1}, {0x0F, 11, 0}, {0x10, 0, 0},    {0x10, 1, 1},
    {0x10, 20, 1}, {0x10, 21, 0}, {0x1A, 0, 0},    {0x1A, 1, 1},
    {0x1A, 20, 1}, {0x1A, 21, 0}, {0x20, 13, 0},   {0x20, 14, 1},
    {0x20, 15, 0}, {0x21, 13, 0}, {0x21, 14, 1},   {0x21, 15, 0},
    {0x22, 13, 0}, {0x22, 14, 1}, {0x22, 15, 0},   {0x23, 5, 0},
    {0x23, 6, 1},  {0x23, 7, 0},  {0x30, 0, 0},    {0x30, 1, 1},
    {0x30, 20, 1}, {0x30, 21, 0}, {0x31, 0, 0},    {0x31, 1, 1},
    {0x31, 20, 1}, {0x31, 21, 0}, {0x40, 0, 0},    {0x40, 1, 0},
    {0x40, 2, 1},  {0x40, 3, 1},  {0x40, 21, 1},   {0x40, 22, 0},
    {0x50, 0, 0},  {0x50, 1, 1},  {0x50, 2, 1},    {0x50, 250, 1},
    {0x50, 253, 1}, {0x55, 0, 0}, {0x55, 1, 1},    {0x55, 2, 0},
    {0xE0, 9, 0},  {0xE0, 10, 1}, {0xE0, 11, 0},
};

/* In the largest room, where each type is possible; then with nothing, 1, 2 and
 * 3 octets left after it. */
static void european_length(uint8_t type, uint8_t n, int has)
{
    uint8_t o[4] = {0x80, 0xFF, type, n};

    if (edition == SECOND_OLD)
        has = n > 0;
    spoilt_case(o, 4, has ? 0 : 4, has ? 0 : 3, has ? 0 : 1);
    for (unsigned room = 2u + n; room <= 5u + n; room++) {
        o[1] = (uint8_t)room;
        if (room >= 3 && room <= 255)
            put_case(o, 4, NULL);
    }
}

#define OCTETS(s) (s), sizeof(s) - 1
#define NONE 255

/* n octets, or the first of them, and which one spoils them. */
struct european {
    uint8_t type, n;
    const char *octets;
    uint8_t heard, spoilt;
};

static const struct european european[] = {
    /* a moment by the calendar, its hours, minutes and seconds, and no digit */
    {0x0F, 8, OCTETS("02292359"), NONE},
    {0x0F, 8, OCTETS("02302359"), 2},
    {0x0F, 8, OCTETS("04302359"), NONE},
    {0x0F, 8, OCTETS("04312359"), 3},
    {0x0F, 8, OCTETS("12312400"), 5},
    {0x0F, 8, OCTETS("00"), 1},
    {0x0F, 8, OCTETS("13"), 1},
    {0x0F, 10, OCTETS("0229235959"), NONE},
    {0x0F, 10, OCTETS("0230"), 2},
    {0x0F, 10, OCTETS("02300000"), 2},
    {0x0F, 10, OCTETS("04310000"), 3},
    {0x0F, 10, OCTETS("0100"), 3},
    {0x0F, 10, OCTETS("010123"), NONE},
    {0x0F, 10, OCTETS("010124"), 5},
    {0x0F, 10, OCTETS("01013"), 4},
    {0x0F, 10, OCTETS("01010059"), NONE},
    {0x0F, 10, OCTETS("0101006"), 6},
    {0x0F, 10, OCTETS("0101000000"), NONE},
    {0x0F, 10, OCTETS("0101000009"), NONE},
    {0x0F, 10, OCTETS("0101000059"), NONE},
    {0x0F, 10, OCTETS("0101000060"), 8},
    {0x0F, 10, OCTETS("010100005"), NONE},
    {0x0F, 10, OCTETS("010100006"), 8},
    {0x0F, 10, OCTETS("01010000/"), 8},
    {0x0F, 10, OCTETS("01010000 "), 8},
    {0x0F, 10, OCTETS("010100005/"), 9},
    {0x0F, 10, OCTETS("010100005:"), 9},
    /* a duration */
    {0x23, 6, OCTETS("000000"), NONE},
    {0x23, 6, OCTETS("235959"), NONE},
    {0x23, 6, OCTETS("240000"), NONE},
    {0x23, 6, OCTETS("995959"), NONE},
    {0x23, 6, OCTETS("996000"), 2},
    {0x23, 6, OCTETS("990060"), 4},
    {0x23, 6, OCTETS("/"), 0},
    {0x23, 6, OCTETS(":"), 0},
    {0x23, 6, OCTETS("9/"), 1},
    {0x23, 6, OCTETS("9:"), 1},
    {0x23, 6, OCTETS("9959"), NONE},
    {0x23, 6, OCTETS("995:"), 3},
    {0x23, 6, OCTETS("99595/"), 5},
    /* characters behind the first */
    {0x30, 2, OCTETS("A\x1F"), 1},
    {0x30, 2, OCTETS("A~"), NONE},
    {0x31, 2, OCTETS("A "), NONE},
    {0x31, 2, OCTETS("A\x7F"), 1},
    {0x10, 20, OCTETS("0123456789*# -()0000"), NONE},
    {0x1A, 20, OCTETS("0123456789*# -()000A"), 19},
    {0x30, 20, OCTETS("abcdefghijklmnopqrst"), NONE},
    {0x31, 20, OCTETS("abcdefghijklmnopqrs\x80"), 19},
    /* a connection's code, and its length */
    {0x40, 2, OCTETS("\x00"), 0},
    {0x40, 2, OCTETS("\x01"), NONE},
    {0x40, 2, OCTETS("\x02"), NONE},
    {0x40, 2, OCTETS("\x03"), NONE},
    {0x40, 2, OCTETS("\x04"), 0},
    {0x40, 2, OCTETS("\xFF"), 0},
    {0x40, 2, OCTETS("0"), 0},
    {0x40, 2, OCTETS("\x01\x00"), NONE},
    {0x40, 2, OCTETS("\x01\x07"), NONE},
    {0x40, 2, OCTETS("\x01\x08"), 1},
    {0x40, 2, OCTETS("\x01" "0"), 1},
    {0x40, 3, OCTETS("\x00"), 0},
    {0x40, 3, OCTETS("\x01"), 0},
    {0x40, 3, OCTETS("\x01\x00\x00"), 0},
    {0x40, 3, OCTETS("\x01\x07" "7"), 0},
    {0x40, 3, OCTETS("\x02"), NONE},
    {0x40, 3, OCTETS("\x04"), 0},
    {0x40, 21, OCTETS("\x01"), 0},
    /* a number and a subaddress */
    {0x40, 2, OCTETS("\x02" "0"), NONE},
    {0x40, 2, OCTETS("\x02\x00"), 1},
    {0x40, 2, OCTETS("\x02\x07"), 1},
    {0x40, 2, OCTETS("\x02/"), 1},
    {0x40, 2, OCTETS("\x02:"), 1},
    {0x40, 2, OCTETS("\x02+"), 1},
    {0x40, 2, OCTETS("\x03" "9"), NONE},
    {0x40, 2, OCTETS("\x03\x07"), 1},
    {0x40, 2, OCTETS("\x03" "A"), 1},
    {0x40, 3, OCTETS("\x03*#"), NONE},
    {0x40, 3, OCTETS("\x02" "0\x01"), 2},
    {0x40, 21, OCTETS("\x02" "0123456789*# -()9876"), NONE},
    {0x40, 21, OCTETS("\x03" "0123456789*# -()9876"), NONE},
    {0x40, 21, OCTETS("\x03" "0123456789*# -()987."), 20},
    /* characters behind a display's mark */
    {0x50, 2, OCTETS("\x00\x1F"), 1},
    {0x50, 2, OCTETS("\x00 "), NONE},
    {0x50, 2, OCTETS("\x00~"), NONE},
    {0x50, 2, OCTETS("\x00\x7F"), 1},
    {0x50, 2, OCTETS("\x86\x86"), 1},
    {0x50, 2, OCTETS("\x02"), 0},
    {0x50, 2, OCTETS("\xEF"), 0},
    {0x50, 2, OCTETS("\xF0"), NONE},
    {0x50, 5, OCTETS("\x7F" "ab\x0A"), 3},
    /* a country's digits, and characters */
    {0xE0, 10, OCTETS("1  ABCD1.0"), NONE},
    {0xE0, 10, OCTETS("33 ABCD1.0"), NONE},
    {0xE0, 10, OCTETS("351ABCD1.0"), NONE},
    {0xE0, 10, OCTETS("000       "), NONE},
    {0xE0, 10, OCTETS("3 3ABCD1.0"), 2},
    {0xE0, 10, OCTETS(" 33ABCD1.0"), 0},
    {0xE0, 10, OCTETS("/"), 0},
    {0xE0, 10, OCTETS("0"), NONE},
    {0xE0, 10, OCTETS("9"), NONE},
    {0xE0, 10, OCTETS(":"), 0},
    {0xE0, 10, OCTETS("3\x1F"), 1},
    {0xE0, 10, OCTETS("3 "), NONE},
    {0xE0, 10, OCTETS("3!"), 1},
    {0xE0, 10, OCTETS("3/"), 1},
    {0xE0, 10, OCTETS("3:"), 1},
    {0xE0, 10, OCTETS("3  "), NONE},
    {0xE0, 10, OCTETS("3 !"), 2},
    {0xE0, 10, OCTETS("3 0"), 2},
    {0xE0, 10, OCTETS("33/"), 2},
    {0xE0, 10, OCTETS("339"), NONE},
    {0xE0, 10, OCTETS("33:"), 2},
    {0xE0, 10, OCTETS("33-"), 2},
    {0xE0, 10, OCTETS("351\x1F"), 3},
    {0xE0, 10, OCTETS("351 ~ ~ ~ "), NONE},
    {0xE0, 10, OCTETS("351 ~ ~ ~~"), NONE},
    {0xE0, 10, OCTETS("351\x7F"), 3},
    {0xE0, 10, OCTETS("351ABCD1.\x1F"), 9},
    {0xE0, 10, OCTETS("351ABCD1.\x7F"), 9},
};

/* Of the three charges alike: the type is put in. */
static const struct european charges[] = {
    /* a currency of letters, or dashes */
    {0, 14, OCTETS("A"), NONE},
    {0, 14, OCTETS("Z"), NONE},
    {0, 14, OCTETS("@"), 0},
    {0, 14, OCTETS("["), 0},
    {0, 14, OCTETS("a"), 0},
    {0, 14, OCTETS("-"), NONE},
    {0, 14, OCTETS(","), 0},
    {0, 14, OCTETS("."), 0},
    {0, 14, OCTETS("0"), 0},
    {0, 14, OCTETS(" "), 0},
    {0, 14, OCTETS("AZ"), NONE},
    {0, 14, OCTETS("A@"), 1},
    {0, 14, OCTETS("A["), 1},
    {0, 14, OCTETS("A-"), 1},
    {0, 14, OCTETS("-A"), 1},
    {0, 14, OCTETS("--"), NONE},
    {0, 14, OCTETS("-."), 1},
    {0, 14, OCTETS("AAZ"), NONE},
    {0, 14, OCTETS("AAz"), 2},
    {0, 14, OCTETS("AA-"), 2},
    {0, 14, OCTETS("--A"), 2},
    {0, 14, OCTETS("---"), NONE},
    {0, 14, OCTETS("FRF\x08----------"), 3},
    {0, 14, OCTETS("FRF\x18----------"), 3},
    {0, 14, OCTETS("---\x00" "0000023,45"), 3},
    {0, 14, OCTETS("---\x07" "0000000000"), 3},
    /* a cost: one comma, anywhere */
    {0, 14, OCTETS("FRF\x00" "0000000000"), NONE},
    {0, 14, OCTETS("FRF\x00" "9999999999"), NONE},
    {0, 14, OCTETS("FRF\x00,000000000"), NONE},
    {0, 14, OCTETS("FRF\x00" "000000000,"), NONE},
    {0, 14, OCTETS("FRF\x00" "0000,00000"), NONE},
    {0, 14, OCTETS("FRF\x00" "00000,0000"), NONE},
    {0, 14, OCTETS("FRF\x00,,"), 5},
    {0, 14, OCTETS("FRF\x00,00000000,"), 13},
    {0, 14, OCTETS("FRF\x00" "1,234,567,"), 9},
    {0, 14, OCTETS("FRF\x00/"), 4},
    {0, 14, OCTETS("FRF\x00:"), 4},
    {0, 14, OCTETS("FRF\x00."), 4},
    {0, 14, OCTETS("FRF\x00-"), 4},
    {0, 14, OCTETS("FRF\x00 "), 4},
    {0, 14, OCTETS("FRF\x00" "000000000-"), 13},
    {0, 14, OCTETS("FRF\x00" "00000-----"), 9},
    /* units with a price, whose comma may stand from its first digit on */
    {0, 14, OCTETS("DEM\x10" "0007800,12"), NONE},
    {0, 14, OCTETS("DEM\x10" "0007800012"), NONE},
    {0, 14, OCTETS("DEM\x10" "99999,9999"), NONE},
    {0, 14, OCTETS("DEM\x10" "999999999,"), NONE},
    {0, 14, OCTETS("DEM\x10,"), 4},
    {0, 14, OCTETS("DEM\x10" "0007,00012"), 8},
    {0, 14, OCTETS("DEM\x10" "00078,00,1"), 12},
    {0, 14, OCTETS("DEM\x10" "00078,,"), 10},
    {0, 14, OCTETS("DEM\x10" "00078-----"), 9},
    {0, 14, OCTETS("DEM\x10" "000780000-"), 13},
    {0, 14, OCTETS("DEM\x10-"), 4},
    {0, 14, OCTETS("DEM\x10" "0007-"), 8},
    /* units alone */
    {0, 14, OCTETS("---\x10" "00023-----"), NONE},
    {0, 14, OCTETS("---\x10" "99999-----"), NONE},
    {0, 14, OCTETS("---\x10" "000,3-----"), 7},
    {0, 14, OCTETS("---\x10-"), 4},
    {0, 14, OCTETS("---\x10" "0002------"), 8},
    {0, 14, OCTETS("---\x10" "000230"), 9},
    {0, 14, OCTETS("---\x10" "00023,"), 9},
    {0, 14, OCTETS("---\x10" "00023----0"), 13},
    {0, 14, OCTETS("---\x10" "00023----,"), 13},
    /* not available, in units or not: ten dashes */
    {0, 14, OCTETS("---\x08----------"), NONE},
    {0, 14, OCTETS("---\x18----------"), NONE},
    {0, 14, OCTETS("---\x08" "0"), 4},
    {0, 14, OCTETS("---\x08,"), 4},
    {0, 14, OCTETS("---\x08----0"), 8},
    {0, 14, OCTETS("---\x08-----0"), 9},
    {0, 14, OCTETS("---\x08---------0"), 13},
    {0, 14, OCTETS("---\x08---------."), 13},
    {0, 14, OCTETS("---\x18" "0"), 4},
    {0, 14, OCTETS("---\x18" "00023-----"), 4},
};

static void european_contents(uint8_t type, const struct european *of)
{
    uint8_t o[300] = {0x80, (uint8_t)(of->n + 2), type, of->n};
    size_t n = 4u + of->heard;
    unsigned sum = 0;

    memcpy(o + 4, of->octets, of->heard);
    for (size_t i = 0; i < n; i++)
        sum += o[i];
    o[n] = (uint8_t)(256 - sum % 256);
    if (of->heard == of->n)
        n++;
    european_case(o, n, of->spoilt == NONE ? 0 : 5,
                  of->spoilt == NONE ? 0 : 4u + of->spoilt);
}

/* A charge's flags, bits 4 and 5 in each case: with bit 4 no letters, with
 * neither no dashes. */
static void charge_flags(uint8_t type)
{
    static const uint8_t flags[] = {
        0x00, 0x01, 0x02, 0x04, 0x07, 0x08, 0x09, 0x0C, 0x0F, 0x10, 0x11, 0x17,
        0x18, 0x1F, 0x20, 0x40, 0x80, 0xE0, 0xE7, 0xE8, 0xF0, 0xF7, 0xF8, 0xFF
    };

    for (size_t i = 0; i < sizeof flags; i++) {
        uint8_t o[8] = {0x80, 0x10, type, 14, 'F', 'R', 'F', flags[i]};
        int unavailable = (flags[i] & 0x08) != 0;
        int currency_alone = (flags[i] & 0x18) == 0;

        european_case(o, 8, unavailable ? 5 : 0, unavailable ? 7 : 0);
        memcpy(o + 4, "---", 3);
        european_case(o, 8, currency_alone ? 5 : 0, currency_alone ? 7 : 0);
    }
}

/* Every month's last day and the day after, of moments with and without
 * seconds. */
static void moments(void)
{
    for (size_t i = 0; i < 2 * sizeof months / sizeof *months; i++) {
        uint8_t n = i % 2 ? 10 : 8;
        uint8_t o[8] = {0x80, (uint8_t)(n + 2), 0x0F, n};

        memcpy(o + 4, months[i / 2].last, 4);
        european_case(o, 8, 0, 0);
        memcpy(o + 4, months[i / 2].after, 4);
        european_case(o, 8, 5, months[i / 2].spoilt);
    }
}

/* types beside these that neither edition lists, in the smallest room */
static void neighbours(void)
{
    static const uint8_t beside[] = {0x0C, 0x14, 0x19, 0x1B, 0x1F, 0x24,
                                     0x2F, 0x32, 0x3F, 0x41, 0x4F, 0x51,
                                     0x54, 0x56, 0xDF, 0xE1};

    for (size_t i = 0; i < sizeof beside; i++) {
        uint8_t o[3] = {0x80, 3, beside[i]};

        if (way == SECOND_STRICT)
            spoilt_case(o, 3, 10, 2, 1);
        else
            spoilt_case(o, 3, 0, 0, 0);
    }
}

/* By the old edition's strict way the types alone, and of the charges, which
 * are judged alike, the first but where there are listings. */
static void european_limits(void)
{
    uint8_t last = edition == SECOND_PRESENT && way == SECOND_LENIENT ? 0x22
                                                                      : 0x20;

    european_rooms();
    neighbours();
    if (edition == SECOND_OLD && way == SECOND_STRICT)
        return;
    for (size_t i = 0; i < sizeof european_lengths / sizeof *european_lengths;
         i++)
        european_length(european_lengths[i].type, european_lengths[i].n,
                        european_lengths[i].has);
    for (size_t i = 0; i < sizeof european / sizeof *european; i++)
        european_contents(european[i].type, &european[i]);
    for (uint8_t type = 0x20; type <= last; type++) {
        for (size_t i = 0; i < sizeof charges / sizeof *charges; i++)
            european_contents(type, &charges[i]);
        charge_flags(type);
    }
    moments();
}

/* ---- What counts, and long messages ---- */

static uint8_t built[300];

static void begin(uint8_t kind)
{
    built[0] = kind;
    built[1] = 0;
}

static void add(uint8_t type, uint8_t n, uint8_t x)
{
    uint8_t *at = built + 2 + built[1];
    at[0] = type;
    at[1] = n;
    memset(at + 2, x, n);
    built[1] = (uint8_t)(built[1] + 2 + n);
}

/* What makes the sum of the first n octets 0. */
static uint8_t sum_before(size_t n)
{
    unsigned sum = 0;

    for (size_t i = 0; i < n; i++)
        sum += built[i];
    return (uint8_t)(256 - sum % 256);
}

static void end(void)
{
    size_t n = 2u + built[1];

    built[n] = sum_before(n);
    put_case(built, n + 1, NULL);
    built[n + 1] = '\n';
    put_case(built, n + 2, NULL);
    put_case(built, n, NULL);
}

static void whole(void)
{
    /* a pair in both orders, and a third of the first type */
    begin(0x80), add(0x02, 1, '1'), add(0x04, 1, 'P'), add(0x02, 1, '2'), end();
    begin(0x80), add(0x04, 1, 'P'), add(0x02, 1, '1'), add(0x04, 1, 'O'), end();
    begin(0x80), add(0x07, 1, 'A'), add(0x08, 1, 'O'), end();
    begin(0x80), add(0x08, 1, 'O'), add(0x07, 1, 'A'), end();
    /* repeats, and carried ones, which are only numbered */
    begin(0x82), add(0x0B, 1, 0x00), add(0x0B, 1, 0xFF), end();
    begin(0x82), add(0x05, 1, 1), add(0x05, 1, 2), add(0x99, 4, 3), end();
    begin(0x80), add(0x0D, 3, 0xFF), add(0x11, 1, 0x81), end();
    begin(0x82), add(0x0D, 3, 0x00), add(0x15, 1, 0x06), add(0x16, 1, 0x0A),
        end();
    /* 85 parameters, the most there are */
    begin(0x80);
    for (int i = 0; i < 85; i++)
        add(0x05, 1, 0);
    end();
    /* one carried parameter of 253 octets, the longest */
    begin(0x82), add(0x17, 253, 0), end();
    /* a long listing: each value of 01's as long as it can be */
    begin(0x82), add(0x01, 8, '0');
    memcpy(built + 4, "12312359", 8);
    add(0x02, 20, '0'), add(0x03, 20, '1'), add(0x07, 50, 'A');
    add(0x0B, 1, 0x00), add(0x0D, 3, 0xFF);
    built[2 + built[1] - 3] = 0x55;
    add(0x0E, 20, '2'), add(0x11, 1, 0xFF), add(0x12, 20, '3');
    add(0x13, 1, 0xFF), add(0x15, 1, 0xFF), add(0x16, 1, 0x0F);
    for (int i = 0; i < 10; i++)
        add(0x05, 1, 0);
    end();
}

/* A mark, and n octets x behind it. */
static void add_marked(uint8_t type, uint8_t mark, uint8_t n, uint8_t x)
{
    add(type, (uint8_t)(n + 1), x);
    built[2 + built[1] - n - 1] = mark;
}

static void add_text(uint8_t type, const char *text)
{
    uint8_t n = (uint8_t)strlen(text);

    add(type, n, 0);
    memcpy(built + 2 + built[1] - n, text, n);
}

/* The European parameters at their longest and beside it (02, Q-4), and the
 * longest listing that there is with them. */
static void european_whole(void)
{
    begin(0x82), add_marked(0x50, 0x00, 252, ' '), end();
    begin(0x80), add_marked(0x50, 0xFF, 252, '~'), end();
    begin(0x80), add_marked(0x50, 0x7F, 252, 0x7F), end();
    begin(0x80), add_marked(0x50, 0x07, 252, 'A'), end();
    begin(0x80), add_marked(0x50, 0x03, 249, 'A'), add(0x55, 1, 0x80), end();
    for (uint8_t n = 19; n <= 21; n++) {
        begin(0x80), add(0x10, n, '1'), add(0x1A, 20, '2'), end();
        begin(0x80), add(0x1A, n, '2'), add(0x55, 1, 0x00), end();
        begin(0x82), add(0x30, n, 'A'), add(0x31, 20, '~'), end();
        begin(0x82), add(0x31, n, '~'), add(0x55, 1, 0x01), end();
        begin(0x80), add_marked(0x40, 0x02, n, '3'), end();
        begin(0x80), add_marked(0x40, 0x03, n, '#'), add(0x55, 1, 0xFF), end();
    }
    begin(0x80);
    for (int i = 0; i < 85; i++)
        add(0x55, 1, i % 2 ? 0x80 : 0x01);
    end();
    begin(0x82), add_text(0x01, "12312359"), add(0x03, 1, '1');
    add(0x04, 1, 'P'), add(0x08, 1, 'O'), add(0x0B, 1, 0x00);
    add_marked(0x0D, 0x55, 2, 0xFF), add(0x0E, 1, '2');
    add_text(0x0F, "1231235959"), add(0x10, 1, '3'), add(0x11, 1, 0xFF);
    add(0x12, 1, '4'), add(0x13, 1, 0xFF), add(0x15, 1, 0xFF);
    add(0x16, 1, 0x0F), add(0x1A, 1, '5');
    for (uint8_t type = 0x20; type <= 0x22; type++)
        add(type, 14, '-');
    add_text(0x23, "995959"), add(0x30, 1, 'A'), add(0x31, 1, 'B');
    add_marked(0x40, 0x01, 1, 0x07), add_marked(0x50, 0x86, 108, 'C');
    add(0x55, 1, 0x01), add_text(0xE0, "351ABCD1.0"), end();
}

/* As many parameters and octets of listed types as there can be, and rooms
 * that callers of 1 to 3 digits fill. */
static void listed_whole(void)
{
    begin(0x82);
    for (int i = 0; i < 85; i++)
        add(i % 2 ? 0x0B : 0x04, 1, i % 2 ? 0xFF : 'P');
    end();
    begin(0x80);
    for (int i = 0; i < 11; i++)
        add(0x07, 20, 'A');
    add(0x12, 11, '9'), end();
    for (uint8_t n = 1; n <= 3; n++)
        begin(0x80), add(0x02, n, '1'), add(0x02, 1, '2'), end();
}

/* ---- 02, Q-5: whole messages at the old edition's limits ---- */

/* Digits and characters, as many as it takes and one more; behind them another
 * parameter, so that the length is refused for itself. */
static void old_whole(void)
{
    for (uint8_t n = 17; n <= 19; n++) {
        begin(0x80), add(0x02, n, '0'), add(0x12, 18, '9'), end();
        begin(0x80), add(0x12, n, '9'), add(0x0B, 1, 0x00), end();
    }
    for (uint8_t n = 19; n <= 21; n++)
        begin(0x82), add(0x07, n, 'A'), add(0x02, 1, '7'), end();
    /* what only the present edition lists, with contents that it refuses */
    begin(0x80), add(0x08, 5, 'O'), add(0x07, 1, 'A'), end();
    begin(0x82), add(0x0D, 1, 0xFF), add(0x13, 2, 9), add(0x0B, 1, 0xFF), end();
    begin(0x80), add(0x03, 21, 'x'), add(0x0E, 60, 0x00), end();
    begin(0x80), add(0x11, 1, 0x00), add(0x15, 1, 0x06), add(0x16, 1, 0x0F),
        end();
    /* a 19th digit and a 21st character cut off at every place before */
    begin(0x80), add(0x02, 18, '1'), add(0x07, 20, ' ');
    for (size_t n = 0; n < 2u + built[1]; n++)
        put_case(built, n, NULL);
}

/* ---- 02, Q-3: the first parameters and the last that there can be ---- */

/* What stands before the parameter at fault: three octets each. */
static const struct {
    uint8_t type, x;
} before[][2] = {
    {{0x04, 0x50}, {0x04, 0x50}}, /* a type that is listed, repeated */
    {{0x0B, 0xFF}, {0x04, 0x50}}, /* two in turn, which both editions list */
    {{0x05, 0x00}, {0x05, 0x00}}, /* carried ones */
    {{0x13, 0xFF}, {0x99, 0x13}}, /* in turn */
};

/* How many of these every parameter is taken of. */
static size_t sorts_before(void)
{
    return way == SECOND_STRICT ? 2 : sizeof before / sizeof *before;
}

/* Parameters up to the k-th, which has this room; gives its place. */
static size_t before_the(size_t sort, size_t k, uint8_t room)
{
    begin(0x80);
    for (size_t i = 1; i < k; i++)
        add(before[sort][i % 2].type, 1, before[sort][i % 2].x);
    built[1] = (uint8_t)(built[1] + room);
    return 3 * k - 1;
}

/* A fault in each octet of the k-th parameter, by the strict way an unlisted
 * type too, and in the checksum after it; for the 85th there is room for three
 * octets and no more. */
static void faults_in(size_t sort, size_t k)
{
    size_t at = before_the(sort, k, k < 85 ? 4 : 3);

    built[at] = k < 85 ? 0x04 : 0x01;
    spoilt_case(built, at + 1, 3, at, k);
    at = before_the(sort, k, 3);
    built[at] = edition == SECOND_OLD ? 0x01 : 0x0D;
    spoilt_case(built, at + 1, 3, at, k);
    built[at] = edition == SECOND_OLD ? 0x13 : 0x05;
    if (way == SECOND_STRICT)
        spoilt_case(built, at + 1, 10, at, k);
    memcpy(built + at, "\x02\x02", 2);
    spoilt_case(built, at + 2, 4, at + 1, k);
    memcpy(built + at, "\x02\x01\x2F", 3);
    spoilt_case(built, at + 3, 5, at + 2, k);
    memcpy(built + at, "\x02\x01\x30", 3);
    spoilt_case(built, at + 3, 0, 0, 0);
    built[at + 3] = (uint8_t)(sum_before(at + 3) + 1);
    spoilt_case(built, at + 4, 6, at + 3, 0);
    built[at + 3]--;
    spoilt_case(built, at + 4, 0, 0, 0);
}

static void parameters(void)
{
    static const size_t at_fault[] = {1, 2, 3, 84, 85};

    for (size_t i = 0; i < sizeof at_fault / sizeof *at_fault; i++)
        for (size_t sort = 0; sort < sorts_before(); sort++)
            if (sort == 0 || at_fault[i] > 1)
                faults_in(sort, at_fault[i]);
    /* as late in the message, and only the second */
    begin(0x80), add(0x05, 250, 0x04), add(0x04, 1, 'Q');
    if (way == SECOND_STRICT)
        spoilt_case(built, 257, 10, 2, 1);
    else
        spoilt_case(built, 257, 5, 256, 2);
}

/* ---- 02, Q-11: an unlisted type in the strict way ---- */

/* In this room as the first parameter, the second, the third, and the last
 * that has so much room behind parameters of three octets. */
static void unlisted_in(uint8_t type, uint8_t room)
{
    const size_t last = (255u - room) / 3 + 1, as[4] = {1, 2, 3, last};

    for (size_t i = 0; i < 4; i++) {
        size_t at;

        if (as[i] > last || (i == 3 && last <= 3))
            continue;
        at = before_the(1, as[i], room);
        built[at] = type;
        spoilt_case(built, at + 1, 10, at, as[i]);
    }
}

/* A message that is right but for the type of its k-th parameter; the same
 * octets by the lenient way are one. */
static void unlisted_in_whole(uint8_t type, size_t k)
{
    size_t at = 3 * k - 1;

    begin(0x82);
    for (size_t i = 1; i <= 4; i++)
        add(i == k ? type : 0x0B, 1, 0xFF);
    built[14] = sum_before(14);
    spoilt_case(built, 15, 10, at, k);
    go_by(edition, SECOND_LENIENT);
    spoilt_case(built, 15, 0, 0, 0);
    go_by(edition, SECOND_STRICT);
}

static void unlisted_ones(void)
{
    static const uint8_t rooms[] = {3, 4, 5, 6, 10, 255};

    for (size_t t = 0; t < unlisted_types(); t++)
        for (size_t i = 0; i < sizeof rooms; i++)
            unlisted_in(unlisted[t], rooms[i]);
    for (size_t k = 1; k <= 4; k++) {
        unlisted_in_whole(0x05, k);
        unlisted_in_whole(0xFF, k);
        if (edition == SECOND_OLD) {
            unlisted_in_whole(0x13, k);
            unlisted_in_whole(0x55, k);
        }
    }
}

/* ---- All of it ---- */

/* 01's rows and 02's, those that stand by hand for the present edition by the
 * lenient way: with their lines, or as the second reader says. */
static void tables(int hand)
{
    for (size_t i = 0; i < sizeof table / sizeof *table; i++)
        hex_case(table[i][0], hand ? table[i][1] : NULL);
    for (size_t i = 0; i < sizeof calendar_table / sizeof *calendar_table; i++)
        hex_case(calendar_table[i][0], hand ? calendar_table[i][1] : NULL);
    for (size_t i = 0; i < sizeof parameter_table / sizeof *parameter_table;
         i++)
        hex_case(parameter_table[i][0], hand ? parameter_table[i][1] : NULL);
    for (size_t i = 0; i < sizeof european_table / sizeof *european_table; i++)
        hex_case(european_table[i][0], hand ? european_table[i][1] : NULL);
}

static void present_edition(void)
{
    limits(contents);
    calendar();
    european_limits();
    whole();
    european_whole();
    parameters();
}

static void old_edition(void)
{
    limits(old_contents);
    if (way == SECOND_STRICT)
        contents_cases(some_octets);
    else
        all_octets();
    calendar();
    european_limits();
    whole();
    european_whole();
    old_whole();
    parameters();
}

static void all_cases(void)
{
    tables(1);
    told();
    unknown_ones();
    go_by(SECOND_PRESENT, SECOND_LENIENT);
    present_edition();
    go_by(SECOND_OLD, SECOND_LENIENT);
    tables(0);
    old_edition();
    for (unsigned e = 0; e < SECOND_EDITIONS; e++) {
        go_by(e, SECOND_STRICT);
        tables(0);
        if (e == SECOND_PRESENT)
            present_edition();
        else
            old_edition();
        listed_whole();
        unlisted_ones();
    }
}

int main(int argc, char **argv)
{
    if (argc != 3)
        return 2;
    cases = fopen(argv[1], "wb");
    lines = fopen(argv[2], "wb");
    if (!cases || !lines)
        return 2;
    all_cases();
    wrong |= ferror(cases) | ferror(lines);
    wrong |= fclose(cases) | fclose(lines);
    return wrong ? 1 : 0;
}
