/*
 * Writes what the program `parts` reads and what it must print: rows for 01's
 * "Drafts" and "The caption" in both editions (02, Q-5), by both ways (02,
 * Q-11), and by unknown ones, whose outcomes stand here by hand, then seeded
 * traffic of all four with what the second reader says. Each case is an
 * edition, a way, a message and a directory, each behind its length in two
 * octets, and the size of a text area in two octets. Usage: parts CASES LINES
 */
#include <stdio.h>
#include <string.h>

#include "second.h"
#include "traffic.h"

/* What a message is read by. */
struct book {
    uint8_t edition, way;
};

/* Short ones, and a long one now and then, so that the files stay small;
 * crossed ones are built for the book and read by another edition, then by
 * another way. */
static const struct counts {
    struct book book;
    unsigned messages, callers, longest, dated, crossed[2];
} counts[] = {
    {{SECOND_PRESENT, SECOND_LENIENT}, 420, 140, 4, 60, {40, 40}},
    {{SECOND_OLD, SECOND_LENIENT}, 280, 100, 2, 20, {40, 40}},
    {{SECOND_PRESENT, SECOND_STRICT}, 200, 60, 2, 20, {20, 20}},
    {{SECOND_OLD, SECOND_STRICT}, 160, 50, 1, 10, {20, 20}},
};

#define SHORT 48
#define LONG_EVERY 16
#define DIRECTORY 200

static FILE *cases, *lines;
static int wrong;

/* ---- What must be printed for one case ---- */

static char said[16384];
static size_t end;

#define SAY(...) (end += (size_t)sprintf(said + end, __VA_ARGS__))

static void say_octets(const uint8_t *o, size_t n)
{
    for (size_t i = 0; i < n; i++)
        SAY("%02x", o[i]);
    SAY("\n");
}

/* The octets of a text, behind its mark if it has one; else four numbers, of a
 * moment five. */
static void say_entry(const struct second_draft *d,
                      const struct second_entry *e)
{
    SAY("%02x %u ", e->type, e->kind);
    switch (e->kind) {
    case SECOND_MARKED:
        SAY("%u ", e->number[0]);
        /* fall through */
    case SECOND_TEXT:
    case SECOND_CARRIED:
        say_octets(d->texts + e->start, e->length);
        return;
    default:
        SAY("%u %u %u %u", e->number[0], e->number[1], e->number[2],
            e->number[3]);
    }
    if (e->kind == SECOND_MOMENT)
        SAY(" %u", e->number[4]);
    SAY("\n");
}

/* What is read and written again is the message, and read again the draft,
 * until an octet of a text is another; no draft is one with no entries, one of
 * the other edition, or one of an unknown edition, be it itself. */
static void say_written(size_t n, const struct second_draft *d)
{
    SAY("write %zu edition %u same\nagain same\n", n, d->edition);
    SAY("spoilt %s\nempty other\n", d->text_octets ? "other" : "same");
    SAY("edition other\nunknown other\n");
}

/* Of the read's answer the edition, and that of the draft; the empty draft of
 * a refused read has it too. */
static void say_draft(const char *who, struct second_verdict v,
                      const struct second_draft *d)
{
    if (v.number) {
        SAY("%s %u at %zu in %zu edition %u %u\n", who, v.number, v.place,
            v.parameter, v.edition, v.edition);
        return;
    }
    SAY("%s %02x %u %u edition %u %u\n", who, d->message_type, d->entries,
        d->text_octets, v.edition, d->edition);
    for (size_t i = 0; i < d->entries; i++)
        say_entry(d, &d->entry[i]);
}

/* Written from the texts as they are packed, and from another place; beside
 * the strict way what is read by the function that names none. */
static void say_read(struct book b, const uint8_t *o, size_t n,
                     struct second_verdict v, const struct second_draft *d)
{
    struct second_draft s;

    say_draft("read", v, d);
    if (v.number == 0) {
        say_written(n, d);
        say_written(n, d);
    }
    if (b.way == SECOND_STRICT) {
        v = second_read(b.edition, SECOND_STRICT, o, n, SECOND_TEXTS, &s);
        say_draft("default", v, &s);
    }
}

static void say_room(struct book b, const uint8_t *o, size_t n, size_t room)
{
    struct second_draft d;
    struct second_verdict v = second_read(b.edition, b.way, o, n, room, &d);

    if (v.number)
        SAY("room %zu: %u at %zu in %zu edition %u\n", room, v.number, v.place,
            v.parameter, v.edition);
    else
        SAY("room %zu: texts %u edition %u\n", room, d.text_octets,
            v.edition);
}

/* A parameter is a type, a length and so many octets; the parameters fill L. */
static void say_steps(const uint8_t *o, struct second_verdict v,
                      const struct second_draft *d)
{
    if (v.number) {
        for (int i = 0; i < 2; i++)
            SAY("step %u at %zu in %zu edition %u\n", v.number, v.place,
                v.parameter, v.edition);
        SAY("begins 0\n");
        return;
    }
    for (size_t place = 2; place < o[1] + 2u; place += 2u + o[place + 1])
        SAY("step %02x %zu %u edition %u\n", o[place], place + 2, o[place + 1],
            v.edition);
    for (int i = 0; i < 2; i++)
        SAY("step none edition %u\n", v.edition);
    SAY("begins %u\n", d->entries);
}

/* The code that the program lends stays with a refusal; else 0 is the message
 * and 1 the directory. */
#define LENT_CODE 7

static void say_caption(struct book b, const uint8_t *o, size_t n,
                        const uint8_t *directory, size_t octets)
{
    struct second_part p =
        second_caption(b.edition, b.way, o, n, directory, octets);
    int inside = p.slice == SECOND_IN_MESSAGE;

    if (p.number)
        SAY("find %u at %zu in %zu edition %u\n", p.number, p.place,
            p.parameter, p.edition);
    else
        SAY("find %s %zu %zu edition %u\n", inside ? "message" : "directory",
            p.start, p.length, p.edition);
    SAY("caption %d=", p.number ? LENT_CODE : !inside);
    say_octets((inside ? o : directory) + p.start, p.length);
}

static void put_behind_length(const uint8_t *o, size_t n)
{
    uint8_t size[2] = {(uint8_t)(n >> 8), (uint8_t)n};
    fwrite(size, 1, 2, cases);
    if (o)
        fwrite(o, 1, n, cases);
}

static void put_case(struct book b, const uint8_t *o, size_t n,
                     const uint8_t *directory, size_t octets, size_t room,
                     const char *by_hand)
{
    struct second_draft d;
    struct second_verdict v =
        second_read(b.edition, b.way, o, n, SECOND_TEXTS, &d);
    uint8_t told[2] = {b.edition, b.way};

    fwrite(told, 1, 2, cases);
    put_behind_length(o, n);
    put_behind_length(directory, octets);
    put_behind_length(NULL, room);
    end = 0;
    say_read(b, o, n, v, &d);
    say_room(b, o, n, room);
    say_steps(o, v, &d);
    say_caption(b, o, n, directory, octets);
    fputs(by_hand ? by_hand : said, lines);
    if (by_hand && strcmp(by_hand, said)) {
        printf("parts: by hand\n%sthe second reader\n%s", by_hand, said);
        wrong = 1;
    }
}

/* ---- By hand: 01's "Drafts" and "The caption" ----
 *
 * The edition that every answer of a case names stands once, with the case,
 * and is put into each line that says it. By the strict way what stands behind
 * `read`, up to what is written, is put behind `default` too, ahead of the
 * room. */

static char named[sizeof said];

/* One line of a case, n octets, naming the edition where such a line does. */
static size_t name_line(size_t at, const char *line, int n, unsigned edition)
{
    if (strncmp(line, "write ", 6) == 0)
        return at + (size_t)sprintf(named + at, "%.*s edition %u same\n",
                                    n - (int)strlen(" same"), line, edition);
    if (strncmp(line, "read ", 5) == 0)
        return at + (size_t)sprintf(named + at, "%.*s edition %u %u\n", n,
                                    line, edition, edition);
    if (strncmp(line, "room ", 5) == 0 || strncmp(line, "step ", 5) == 0
        || strncmp(line, "find ", 5) == 0)
        return at + (size_t)sprintf(named + at, "%.*s edition %u\n", n, line,
                                    edition);
    return at + (size_t)sprintf(named + at, "%.*s\n", n, line);
}

/* The head line and the entries of the case's read, up to `behind`, once more
 * with `default` in the place of `read`. */
static size_t name_default(size_t at, size_t behind)
{
    static const char was[] = "read", is[] = "default";
    size_t rest = behind - strlen(was);

    memcpy(named + at, is, strlen(is));
    memcpy(named + at + strlen(is), named + strlen(was), rest);
    return at + strlen(is) + rest;
}

static const char *naming(const char *by_hand, unsigned edition, int strict)
{
    size_t at = 0, read = 0;

    for (const char *next; *by_hand != '\0'; by_hand = next) {
        int n = (int)strcspn(by_hand, "\n");

        next = by_hand + n + 1;
        if (read == 0 && (strncmp(by_hand, "write ", 6) == 0
                          || strncmp(by_hand, "room ", 5) == 0))
            read = at;
        if (strict && strncmp(by_hand, "room ", 5) == 0)
            at = name_default(at, read);
        at = name_line(at, by_hand, n, edition);
    }
    return named;
}

#define WRITTEN(size, spoilt)                                                 \
    "write " size " same\nagain same\nspoilt " spoilt "\nempty other\n"       \
    "edition other\nunknown other\n"
#define TWICE(line) line line

/* caller 40912, and what is said of it ahead of its caption */
#define CALLER "80 07 02 05 34 30 39 31 32 72"
#define CALLER_IS                                                             \
    "read 80 1 5\n02 3 3430393132\n" TWICE(WRITTEN("10", "other"))            \
    "room 5: texts 5\nstep 02 4 5\nstep none\nstep none\nbegins 1\n"

/* a refusal, "6 at 5 in 0", to everything that is asked */
#define REFUSED(room, refusal)                                                \
    "read " refusal "\nroom " room ": " refusal "\n"                          \
    TWICE("step " refusal "\n") "begins 0\nfind " refusal "\ncaption 7=\n"

struct row {
    const char *hex, *directory;
    size_t room;
    const char *lines;
};

/* By the lenient way the row, by the strict one this refusal of a type that is
 * not listed (02, Q-11). */
struct unlisted_row {
    struct row row;
    const char *refusal;
};

/* The present edition, by both ways. */
static const struct row rows[] = {
    /* the text after the first = on the first line for the caller */
    {CALLER, "40912=Odile\n", 5,
     CALLER_IS "find directory 6 5\ncaption 1=4f64696c65\n"},
    {CALLER, "40912=Odile", 5,
     CALLER_IS "find directory 6 5\ncaption 1=4f64696c65\n"},
    {CALLER, "40912=\n", 5, CALLER_IS "find directory 6 0\ncaption 1=\n"},
    {CALLER, "40912=", 5, CALLER_IS "find directory 6 0\ncaption 1=\n"},
    {CALLER, "40912=a=b\r\n", 5,
     CALLER_IS "find directory 6 4\ncaption 1=613d620d\n"},
    {CALLER, "40912=one\n40912=two\n", 5,
     CALLER_IS "find directory 6 3\ncaption 1=6f6e65\n"},
    {CALLER, "\n40912\n=z\n40912=x", 5,
     CALLER_IS "find directory 16 1\ncaption 1=78\n"},
    /* no line is for the caller: the caller itself */
    {CALLER, "", 5, CALLER_IS "find message 4 5\ncaption 0=3430393132\n"},
    {CALLER, "40912\n", 5,
     CALLER_IS "find message 4 5\ncaption 0=3430393132\n"},
    {CALLER, "409123=x\n4091=y\n=40912\n 40912=z\n", 5,
     CALLER_IS "find message 4 5\ncaption 0=3430393132\n"},
    /* the name that counts goes before the directory */
    {"80 0A 02 05 34 30 39 31 32 07 01 41 26", "40912=x\n", 5,
     "read 80 2 6\n02 3 3430393132\n07 3 41\n" TWICE(WRITTEN("13", "other"))
     "room 5: 9 at 6 in 0\nstep 02 4 5\nstep 07 11 1\nstep none\nstep none\n"
     "begins 2\nfind message 11 1\ncaption 0=41\n"},
    /* a name behind 08H does not count */
    {"80 0D 08 01 50 07 01 41 02 05 34 30 39 31 32 CA", "40912=x\n", 6,
     "read 80 3 6\n08 0 80 0 0 0\n07 3 41\n02 3 3430393132\n"
     TWICE(WRITTEN("16", "other"))
     "room 6: texts 6\nstep 08 4 1\nstep 07 7 1\nstep 02 10 5\nstep none\n"
     "step none\nbegins 3\nfind directory 6 1\ncaption 1=78\n"},
    /* no name and no caller count: the empty part at the message's start */
    {"80 06 04 01 50 02 01 37 EB", "7=x\n", 0,
     "read 80 2 1\n04 0 80 0 0 0\n02 3 37\n" TWICE(WRITTEN("9", "other"))
     "room 0: 9 at 1 in 0\nstep 04 4 1\nstep 02 7 1\nstep none\nstep none\n"
     "begins 2\nfind message 0 0\ncaption 0=\n"},
    {"82 03 0B 01 FF 70", "7=x\n", 0,
     "read 82 1 0\n0b 0 255 0 0 0\n" TWICE(WRITTEN("6", "same"))
     "room 0: texts 0\nstep 0b 4 1\nstep none\nstep none\nbegins 1\n"
     "find message 0 0\ncaption 0=\n"},
    /* refusals */
    {"", "40912=x\n", 0,
     REFUSED("0", "8 at 0 in 0")},
    {"82 03 0B 01 FF 71", "=x\n", 0,
     REFUSED("0", "6 at 5 in 0")},
    {"82 03 0B 01 FF 70 00", "", 253,
     REFUSED("253", "7 at 6 in 0")},
    /* a date; a repeat */
    {"80 11 01 08 30 36 31 35 31 34 33 30 02 05 34 30 39 31 32 CB",
     "40912=x\n", 4,
     "read 80 2 5\n01 1 6 15 14 30\n02 3 3430393132\n"
     TWICE(WRITTEN("20", "other"))
     "room 4: 9 at 5 in 0\nstep 01 4 8\nstep 02 14 5\nstep none\nstep none\n"
     "begins 2\nfind directory 6 1\ncaption 1=78\n"},
    {"82 06 13 01 02 13 01 05 49", "", 0,
     "read 82 2 0\n13 0 2 0 0 0\n13 0 5 0 0 0\n" TWICE(WRITTEN("9", "same"))
     "room 0: texts 0\nstep 13 4 1\nstep 13 7 1\nstep none\nstep none\n"
     "begins 2\nfind message 0 0\ncaption 0=\n"},
    /* 02, Q-2: 29 February, 30 February and 31 April */
    {"80 0A 01 08 30 32 32 39 30 30 30 30 E0", "", 0,
     "read 80 1 0\n01 1 2 29 0 0\n" TWICE(WRITTEN("13", "same"))
     "room 0: texts 0\nstep 01 4 8\nstep none\nstep none\nbegins 1\n"
     "find message 0 0\ncaption 0=\n"},
    {"80 0A 01 08 30 32 33 30 30 30 30 30 E8", "", 0,
     REFUSED("0", "5 at 6 in 1")},
    {"80 0A 01 08 30 34 33 31 30 30 30 30 E5", "", 0,
     REFUSED("0", "5 at 7 in 1")},
    /* 02, Q-3: the parameter at fault: none in message type, length and
     * checksum; type, length and contents of the first, the second and the
     * third, behind a repeat too; 9 is of none */
    {"81", "7=x\n", 0, REFUSED("0", "1 at 0 in 0")},
    {"80 02", "", 1, REFUSED("1", "2 at 1 in 0")},
    {"80 04 04", "", 0, REFUSED("0", "3 at 2 in 1")},
    {"80 03 02 00", "", 0, REFUSED("0", "4 at 3 in 1")},
    {"80 07 04 01 50 04", "", 0, REFUSED("0", "3 at 5 in 2")},
    {"80 06 04 01 50 02 02", "", 0, REFUSED("0", "4 at 6 in 2")},
    {"80 06 02 01 37 02 01 2F", "7=x\n", 253, REFUSED("253", "5 at 7 in 2")},
    {"82 09 13 01 02 13 01 05 0B 01 01", "", 0, REFUSED("0", "5 at 10 in 3")},
    {"80 06 02 01 37 02 01 37 09", "", 0, REFUSED("0", "6 at 8 in 0")},
    {"80 06 02 01 37 02 01 38 05", "7=x\n", 1,
     "read 80 2 2\n02 3 37\n02 3 38\n" TWICE(WRITTEN("9", "other"))
     "room 1: 9 at 2 in 0\nstep 02 4 1\nstep 02 7 1\nstep none\nstep none\n"
     "begins 2\nfind directory 2 1\ncaption 1=78\n"},
    /* 02, Q-4: a moment without seconds, with 00 and with 59; with 60; of nine
     * octets; a 30th of February */
    {"82 0A 0F 08 30 36 31 35 31 34 33 30 C9", "", 0,
     "read 82 1 0\n0f 5 6 15 14 30 0\n"
     TWICE(WRITTEN("13", "same"))
     "room 0: texts 0\nstep 0f 4 8\nstep none\nstep none\nbegins 1\n"
     "find message 0 0\ncaption 0=\n"},
    {"82 0C 0F 0A 30 36 31 35 31 34 33 30 30 30 65", "", 0,
     "read 82 1 0\n0f 5 6 15 14 30 1\n"
     TWICE(WRITTEN("15", "same"))
     "room 0: texts 0\nstep 0f 4 10\nstep none\nstep none\nbegins 1\n"
     "find message 0 0\ncaption 0=\n"},
    {"82 0C 0F 0A 30 32 32 39 32 33 35 39 35 39 4B", "", 1,
     "read 82 1 0\n0f 5 2 29 23 59 60\n"
     TWICE(WRITTEN("15", "same"))
     "room 1: texts 0\nstep 0f 4 10\nstep none\nstep none\nbegins 1\n"
     "find message 0 0\ncaption 0=\n"},
    {"82 0C 0F 0A 30 36 31 35 31 34 33 30 36 30 5F", "", 0,
     REFUSED("0", "5 at 12 in 1")},
    {"82 0E 0F 09 30 36 31 35 31 34 33 30 30 02 01 31 60", "", 0,
     REFUSED("0", "4 at 3 in 1")},
    {"82 0C 0F 0A 30 32 33 30 30 30 30 30 30 30 74", "", 0,
     REFUSED("0", "5 at 6 in 1")},
    /* durations */
    {"80 10 23 06 39 39 35 39 35 39 23 06 30 30 30 31 30 30 AF", "", 0,
     "read 80 2 0\n23 6 99 59 59 0\n23 6 0 1 0 0\n"
     TWICE(WRITTEN("19", "same"))
     "room 0: texts 0\nstep 23 4 6\nstep 23 12 6\nstep none\nstep none\n"
     "begins 2\nfind message 0 0\ncaption 0=\n"},
    {"80 08 23 06 39 39 36 30 30 30 17", "", 0, REFUSED("0", "5 at 6 in 1")},
    /* 004's annex D, the second as its words have it; letters with dashes, two
     * commas, a comma among units */
    {"80 10 20 0E 46 52 46 00 30 30 30 30 30 32 33 2C 34 35 7A", "", 14,
     "read 80 1 14\n20 3 46524600303030303032332c3435\n"
     TWICE(WRITTEN("19", "other"))
     "room 14: texts 14\nstep 20 4 14\nstep none\nstep none\nbegins 1\n"
     "find message 0 0\ncaption 0=\n"},
    {"80 20 21 0E 2D 2D 2D 10 30 30 30 32 33 2D 2D 2D 2D 2D 22 0E 44 45 4D "
     "10 30 30 30 37 38 30 30 2C 31 32 C0", "", 27,
     "read 80 2 28\n21 3 2d2d2d1030303032332d2d2d2d2d\n"
     "22 3 44454d10303030373830302c3132\n"
     TWICE(WRITTEN("35", "other"))
     "room 27: 9 at 28 in 0\nstep 21 4 14\nstep 22 20 14\nstep none\n"
     "step none\nbegins 2\nfind message 0 0\ncaption 0=\n"},
    {"80 10 20 0E 46 52 46 08 2D 2D 2D 2D 2D 2D 2D 2D 2D 2D 9A", "", 14,
     REFUSED("14", "5 at 7 in 1")},
    {"80 10 20 0E 46 52 46 00 30 30 2C 30 30 32 33 2C 34 35 7E", "", 14,
     REFUSED("14", "5 at 15 in 1")},
    {"80 10 20 0E 44 45 4D 10 30 2C 30 37 38 30 30 30 31 32 6E", "", 14,
     REFUSED("14", "5 at 9 in 1")},
    /* numbers, which are no callers; what a caller is beside them */
    {"80 07 10 01 37 1A 02 38 2A B3", "7=x\n8*=y\n", 2,
     "read 80 2 3\n10 3 37\n1a 3 382a\n"
     TWICE(WRITTEN("10", "other"))
     "room 2: 9 at 3 in 0\nstep 10 4 1\nstep 1a 7 2\nstep none\nstep none\n"
     "begins 2\nfind message 0 0\ncaption 0=\n"},
    {"80 06 10 01 37 02 01 38 F7", "7=x\n8=y\n", 2,
     "read 80 2 2\n10 3 37\n02 3 38\n"
     TWICE(WRITTEN("9", "other"))
     "room 2: texts 2\nstep 10 4 1\nstep 02 7 1\nstep none\nstep none\n"
     "begins 2\nfind directory 6 1\ncaption 1=79\n"},
    /* a provider and a carrier; a service; an extension */
    {"82 07 30 02 41 7E 31 01 20 34", "", 3,
     "read 82 2 3\n30 3 417e\n31 3 20\n"
     TWICE(WRITTEN("10", "other"))
     "room 3: texts 3\nstep 30 4 2\nstep 31 8 1\nstep none\nstep none\n"
     "begins 2\nfind message 0 0\ncaption 0=\n"},
    {"80 06 55 01 01 55 01 FF CE", "", 0,
     "read 80 2 0\n55 0 1 0 0 0\n55 0 255 0 0 0\n"
     TWICE(WRITTEN("9", "same"))
     "room 0: texts 0\nstep 55 4 1\nstep 55 7 1\nstep none\nstep none\n"
     "begins 2\nfind message 0 0\ncaption 0=\n"},
    {"80 03 55 01 02 25", "", 0, REFUSED("0", "5 at 4 in 1")},
    {"80 0C E0 0A 33 33 20 46 54 20 20 31 2E 30 9B", "", 9,
     "read 80 1 10\ne0 3 33332046542020312e30\n"
     TWICE(WRITTEN("15", "other"))
     "room 9: 9 at 10 in 0\nstep e0 4 10\nstep none\nstep none\nbegins 1\n"
     "find message 0 0\ncaption 0=\n"},
    {"80 0C E0 0A 33 20 33 46 54 20 20 31 2E 30 9B", "", 10,
     REFUSED("10", "5 at 6 in 1")},
    /* a mark and the text behind it: a connection, a number, a subaddress; a
     * connection of two octets */
    {"80 04 40 02 01 07 32", "", 0,
     "read 80 1 1\n40 7 1 07\n"
     TWICE(WRITTEN("7", "other"))
     "room 0: 9 at 1 in 0\nstep 40 4 2\nstep none\nstep none\nbegins 1\n"
     "find message 0 0\ncaption 0=\n"},
    {"80 08 40 06 02 34 30 39 31 32 30", "40912=x\n", 5,
     "read 80 1 5\n40 7 2 3430393132\n"
     TWICE(WRITTEN("11", "other"))
     "room 5: texts 5\nstep 40 4 6\nstep none\nstep none\nbegins 1\n"
     "find message 0 0\ncaption 0=\n"},
    {"80 07 40 02 03 37 02 01 37 C3", "7=x\n", 2,
     "read 80 2 2\n40 7 3 37\n02 3 37\n"
     TWICE(WRITTEN("10", "other"))
     "room 2: texts 2\nstep 40 4 2\nstep 02 8 1\nstep none\nstep none\n"
     "begins 2\nfind directory 2 1\ncaption 1=78\n"},
    {"80 05 40 03 01 07 07 29", "", 2, REFUSED("2", "5 at 4 in 1")},
    /* a display with a text, with none, and with none among other texts */
    {"82 08 50 06 04 48 65 6C 6C 6F 28", "", 4,
     "read 82 1 5\n50 7 4 48656c6c6f\n"
     TWICE(WRITTEN("11", "other"))
     "room 4: 9 at 5 in 0\nstep 50 4 6\nstep none\nstep none\nbegins 1\n"
     "find message 0 0\ncaption 0=\n"},
    {"82 03 50 01 81 A9", "", 0,
     "read 82 1 0\n50 7 129 \n"
     TWICE(WRITTEN("6", "same"))
     "room 0: texts 0\nstep 50 4 1\nstep none\nstep none\nbegins 1\n"
     "find message 0 0\ncaption 0=\n"},
    {"80 0C 02 01 37 50 01 00 07 01 41 50 01 FF 50", "7=x\n", 2,
     "read 80 4 2\n02 3 37\n50 7 0 \n07 3 41\n50 7 255 \n"
     TWICE(WRITTEN("15", "other"))
     "room 2: texts 2\nstep 02 4 1\nstep 50 7 1\nstep 07 10 1\nstep 50 13 1\n"
     "step none\nstep none\nbegins 4\nfind message 10 1\ncaption 0=41\n"},
    {"82 03 50 01 02 28", "", 0, REFUSED("0", "5 at 4 in 1")},
    {"82 04 50 02 00 1F 09", "", 1, REFUSED("1", "5 at 5 in 1")},
};

/* With types that it does not list: a state with a reference and something
 * carried; a fault behind carried ones. */
static const struct unlisted_row unlisted_rows[] = {
    {{"82 0F 0D 03 FF 01 02 05 02 00 FF 13 01 02 03 01 31 0C", "", 3,
      "read 82 4 3\n0d 2 255 258 0 0\n05 4 00ff\n13 0 2 0 0 0\n03 3 31\n"
      TWICE(WRITTEN("18", "other"))
      "room 3: texts 3\nstep 0d 4 3\nstep 05 9 2\nstep 13 13 1\n"
      "step 03 16 1\nstep none\nstep none\nbegins 4\nfind message 0 0\n"
      "caption 0=\n"},
     "10 at 7 in 2"},
    {{"80 09 05 01 00 05 01 00 04 01 51", "", 0, REFUSED("0", "5 at 10 in 3")},
     "10 at 2 in 1"},
    /* alone, behind a caller and before one; cut off behind its type; with
     * octets that follow, and with a wrong sum */
    {{"80 03 05 01 41 36", "7=x\n", 1,
      "read 80 1 1\n05 4 41\n" TWICE(WRITTEN("6", "other"))
      "room 1: texts 1\nstep 05 4 1\nstep none\nstep none\nbegins 1\n"
      "find message 0 0\ncaption 0=\n"},
     "10 at 2 in 1"},
    {{"80 07 02 01 37 FF 02 00 01 3D", "7=x\n", 2,
      "read 80 2 3\n02 3 37\nff 4 0001\n" TWICE(WRITTEN("10", "other"))
      "room 2: 9 at 3 in 0\nstep 02 4 1\nstep ff 7 2\nstep none\nstep none\n"
      "begins 2\nfind directory 2 1\ncaption 1=78\n"},
     "10 at 5 in 2"},
    {{"80 06 17 01 50 02 01 37 D8", "7=x\n", 0,
      "read 80 2 2\n17 4 50\n02 3 37\n" TWICE(WRITTEN("9", "other"))
      "room 0: 9 at 2 in 0\nstep 17 4 1\nstep 02 7 1\nstep none\nstep none\n"
      "begins 2\nfind directory 2 1\ncaption 1=78\n"},
     "10 at 2 in 1"},
    {{"80 06 02 01 37 00", "", 0, REFUSED("0", "8 at 6 in 0")},
     "10 at 5 in 2"},
    {{"80 03 05 01 41 36 00", "", 0, REFUSED("0", "7 at 6 in 0")},
     "10 at 2 in 1"},
    {{"80 06 02 01 37 80 01 41 7F", "", 9, REFUSED("9", "6 at 8 in 0")},
     "10 at 5 in 2"},
};

/* Source 001's edition (02, Q-5), by both ways. */
static const struct row old_rows[] = {
    /* a caller of 18 digits, its line in the directory; 19, and no digit */
    {"80 14 02 12 31 31 31 31 31 31 31 31 31 31 31 31 31 31 31 31 "
     "31 31 E6",
     "11111111111111111=y\n111111111111111111=x\n", 18,
     "read 80 1 18\n02 3 313131313131313131313131313131313131\n"
     TWICE(WRITTEN("23", "other"))
     "room 18: texts 18\nstep 02 4 18\nstep none\nstep none\nbegins 1\n"
     "find directory 39 1\ncaption 1=78\n"},
    {"80 15 02 13 31 31 31 31 31 31 31 31 31 31 31 31 31 31 31 31 "
     "31 31 31 B3",
     "", 253, REFUSED("253", "4 at 3 in 1")},
    {"80 04 02 02 37 2A 17", "7*=x\n", 2, REFUSED("2", "5 at 5 in 1")},
    {"80 04 02 02 37 23 1E", "7#=x\n", 2, REFUSED("2", "5 at 5 in 1")},
    {"80 03 02 01 41 39", "", 1, REFUSED("1", "5 at 4 in 1")},
    /* the pair 02H and 04H in both orders */
    {"80 06 04 01 50 02 01 37 EB", "7=x\n", 0,
     "read 80 2 1\n04 0 80 0 0 0\n02 3 37\n" TWICE(WRITTEN("9", "other"))
     "room 0: 9 at 1 in 0\nstep 04 4 1\nstep 02 7 1\nstep none\nstep none\n"
     "begins 2\nfind message 0 0\ncaption 0=\n"},
    {"80 06 02 01 37 04 01 50 EB", "7=x\n", 1,
     "read 80 2 1\n02 3 37\n04 0 80 0 0 0\n" TWICE(WRITTEN("9", "other"))
     "room 1: texts 1\nstep 02 4 1\nstep 04 7 1\nstep none\nstep none\n"
     "begins 2\nfind directory 2 1\ncaption 1=78\n"},
    /* date, first called, lamp, forwarding and user, on both sides */
    {"82 16 01 08 30 32 32 39 32 33 35 39 12 01 39 0B 01 00 15 01 06 16 01 0F "
     "25",
     "", 1,
     "read 82 5 1\n01 1 2 29 23 59\n12 3 39\n0b 0 0 0 0 0\n15 0 6 0 0 0\n"
     "16 0 15 0 0 0\n" TWICE(WRITTEN("25", "other"))
     "room 1: texts 1\nstep 01 4 8\nstep 12 14 1\nstep 0b 17 1\n"
     "step 15 20 1\nstep 16 23 1\nstep none\nstep none\nbegins 5\n"
     "find message 0 0\ncaption 0=\n"},
    {"80 0A 01 08 30 32 33 30 30 30 30 30 E8", "", 0,
     REFUSED("0", "5 at 6 in 1")},
    {"80 03 15 01 07 60", "", 0, REFUSED("0", "5 at 4 in 1")},
    {"80 03 16 01 01 65", "", 0, REFUSED("0", "5 at 4 in 1")},
    /* a name of 20 characters */
    {"82 16 07 14 41 41 41 41 41 41 41 41 41 41 41 41 41 41 41 41 "
     "41 41 41 41 39",
     "", 20,
     "read 82 1 20\n07 3 4141414141414141414141414141414141414141\n"
     TWICE(WRITTEN("25", "other"))
     "room 20: texts 20\nstep 07 4 20\nstep none\nstep none\nbegins 1\n"
     "find message 4 20\n"
     "caption 0=4141414141414141414141414141414141414141\n"},
    /* what no edition bears on */
    {"", "40912=x\n", 0, REFUSED("0", "8 at 0 in 0")},
    {"81", "7=x\n", 0, REFUSED("0", "1 at 0 in 0")},
    {"82 03 0B 01 FF 71", "=x\n", 0, REFUSED("0", "6 at 5 in 0")},
    {"82 03 0B 01 FF 70 00", "", 253, REFUSED("253", "7 at 6 in 0")},
};

/* With types that the sheet does not list. */
static const struct unlisted_row old_unlisted_rows[] = {
    /* 08H is carried, of any length, and silences no name */
    {{"80 06 08 01 4F 07 01 41 D9", "", 2,
      "read 80 2 2\n08 4 4f\n07 3 41\n" TWICE(WRITTEN("9", "other"))
      "room 2: texts 2\nstep 08 4 1\nstep 07 7 1\nstep none\nstep none\n"
      "begins 2\nfind message 7 1\ncaption 0=41\n"},
     "10 at 2 in 1"},
    {{"80 0D 08 05 00 01 02 03 04 07 01 41 02 01 37 D9", "7=x\n", 6,
      "read 80 3 7\n08 4 0001020304\n07 3 41\n02 3 37\n"
      TWICE(WRITTEN("16", "other"))
      "room 6: 9 at 7 in 0\nstep 08 4 5\nstep 07 11 1\nstep 02 14 1\n"
      "step none\nstep none\nbegins 3\nfind message 11 1\ncaption 0=41\n"},
     "10 at 2 in 1"},
    /* 13H, 0DH, 03H, 0EH and 11H are carried, with any contents */
    {{"82 03 13 01 02 65", "", 1,
      "read 82 1 1\n13 4 02\n" TWICE(WRITTEN("6", "other"))
      "room 1: texts 1\nstep 13 4 1\nstep none\nstep none\nbegins 1\n"
      "find message 0 0\ncaption 0=\n"},
     "10 at 2 in 1"},
    {{"82 0F 0D 03 FF 01 02 05 02 00 FF 13 01 02 03 01 31 0C", "", 6,
      "read 82 4 7\n0d 4 ff0102\n05 4 00ff\n13 4 02\n03 4 31\n"
      TWICE(WRITTEN("18", "other"))
      "room 6: 9 at 7 in 0\nstep 0d 4 3\nstep 05 9 2\nstep 13 13 1\n"
      "step 03 16 1\nstep none\nstep none\nbegins 4\nfind message 0 0\n"
      "caption 0=\n"},
     "10 at 2 in 1"},
    {{"80 0D 0D 01 41 0E 01 FF 11 01 00 13 02 01 02 EC", "=x\n", 5,
      "read 80 4 5\n0d 4 41\n0e 4 ff\n11 4 00\n13 4 0102\n"
      TWICE(WRITTEN("16", "other"))
      "room 5: texts 5\nstep 0d 4 1\nstep 0e 7 1\nstep 11 10 1\n"
      "step 13 13 2\nstep none\nstep none\nbegins 4\nfind message 0 0\n"
      "caption 0=\n"},
     "10 at 2 in 1"},
    /* a fault behind something carried: in forwarding, in a name of 21
     * characters */
    {{"80 06 05 01 00 15 01 80 DE", "", 0, REFUSED("0", "5 at 7 in 2")},
     "10 at 2 in 1"},
    {{"82 1A 05 01 00 07 15 41 41 41 41 41 41 41 41 41 41 41 41 41 "
      "41 41 41 41 41 41 41 41 ED",
      "", 21, REFUSED("21", "4 at 6 in 2")},
     "10 at 2 in 1"},
    /* 08H and 03H behind what is listed */
    {{"80 09 07 01 41 02 01 37 08 01 50 9B", "7=x\n", 3,
      "read 80 3 3\n07 3 41\n02 3 37\n08 4 50\n" TWICE(WRITTEN("12", "other"))
      "room 3: texts 3\nstep 07 4 1\nstep 02 7 1\nstep 08 10 1\nstep none\n"
      "step none\nbegins 3\nfind message 4 1\ncaption 0=41\n"},
     "10 at 8 in 3"},
    {{"80 06 02 01 37 03", "", 0, REFUSED("0", "8 at 6 in 0")},
     "10 at 5 in 2"},
    /* the European parameters (02, Q-4) are carried, with any contents */
    {{"82 0E 0F 08 30 36 31 35 31 34 33 30 40 02 01 02 80", "", 10,
      "read 82 2 10\n0f 4 3036313531343330\n40 4 0102\n"
      TWICE(WRITTEN("17", "other"))
      "room 10: texts 10\nstep 0f 4 8\nstep 40 14 2\nstep none\nstep none\n"
      "begins 2\nfind message 0 0\ncaption 0=\n"},
     "10 at 2 in 1"},
    {{"80 0C 02 01 37 50 01 81 55 01 02 20 01 00 EF", "7=x\n", 3,
      "read 80 4 4\n02 3 37\n50 4 81\n55 4 02\n20 4 00\n"
      TWICE(WRITTEN("15", "other"))
      "room 3: 9 at 4 in 0\nstep 02 4 1\nstep 50 7 1\nstep 55 10 1\n"
      "step 20 13 1\nstep none\nstep none\nbegins 4\nfind directory 2 1\n"
      "caption 1=78\n"},
     "10 at 5 in 2"},
    {{"80 0C 10 01 37 E0 03 33 20 33 23 02 39 39 2C", "7=x\n", 6,
      "read 80 3 6\n10 4 37\ne0 4 332033\n23 4 3939\n"
      TWICE(WRITTEN("15", "other"))
      "room 6: texts 6\nstep 10 4 1\nstep e0 7 3\nstep 23 12 2\nstep none\n"
      "step none\nbegins 3\nfind message 0 0\ncaption 0=\n"},
     "10 at 2 in 1"},
};

/* Editions and ways that there are not, one or both: 16 to everything,
 * whatever the octets, and no edition is named. */
static const struct book unknown[] = {
    {2, 1}, {3, 1}, {128, 1}, {255, 1}, {2, 0}, {255, 0}, {0, 2},
    {0, 3}, {0, 128}, {1, 2}, {1, 255}, {2, 2}, {255, 255},
};

static const struct row unknown_rows[] = {
    {CALLER, "40912=Odile\n", 5, REFUSED("5", "16 at 0 in 0")},
    {"82 03 0B 01 FF 70", "", 253, REFUSED("253", "16 at 0 in 0")},
    {"82 03 0B 01 FF 71", "", 0, REFUSED("0", "16 at 0 in 0")},
    {"80 03 05", "", 0, REFUSED("0", "16 at 0 in 0")},
    {"81", "7=x\n", 0, REFUSED("0", "16 at 0 in 0")},
    {"", "", 0, REFUSED("0", "16 at 0 in 0")},
};

/* the octets of "80 0B 01" */
static size_t octets_of(const char *hex, uint8_t *o)
{
    size_t n = 0;
    unsigned x;
    int used;

    while (sscanf(hex, " %2x%n", &x, &used) == 1) {
        o[n++] = (uint8_t)x;
        hex += used;
    }
    return n;
}

/* Told this book, the case's answers name that edition. */
static void put_row(struct book b, unsigned names, const struct row *row)
{
    uint8_t o[TRAFFIC_OCTETS];

    put_case(b, o, octets_of(row->hex, o), (const uint8_t *)row->directory,
             strlen(row->directory), row->room,
             naming(row->lines, names, b.way == SECOND_STRICT));
}

static void put_both_ways(uint8_t edition, const struct row *of, size_t n)
{
    for (size_t i = 0; i < n; i++)
        for (uint8_t way = 0; way < SECOND_WAYS; way++)
            put_row((struct book){edition, way}, edition, &of[i]);
}

/* By the strict way refused, whatever is asked. */
static void put_unlisted(uint8_t edition, const struct unlisted_row *of,
                         size_t n)
{
    char lines_of[200];

    for (size_t i = 0; i < n; i++) {
        const char *r = of[i].refusal;
        struct row row = of[i].row;

        put_row((struct book){edition, SECOND_LENIENT}, edition, &row);
        sprintf(lines_of, "read %s\nroom %zu: %s\nstep %s\nstep %s\nbegins 0\n"
                "find %s\ncaption 7=\n", r, row.room, r, r, r, r);
        row.lines = lines_of;
        put_row((struct book){edition, SECOND_STRICT}, edition, &row);
    }
}

static void put_rows(void)
{
    put_both_ways(SECOND_PRESENT, rows, sizeof rows / sizeof *rows);
    put_unlisted(SECOND_PRESENT, unlisted_rows,
                 sizeof unlisted_rows / sizeof *unlisted_rows);
    put_both_ways(SECOND_OLD, old_rows, sizeof old_rows / sizeof *old_rows);
    put_unlisted(SECOND_OLD, old_unlisted_rows,
                 sizeof old_unlisted_rows / sizeof *old_unlisted_rows);
    for (size_t k = 0; k < sizeof unknown / sizeof *unknown; k++)
        for (size_t i = 0; i < sizeof unknown_rows / sizeof *unknown_rows; i++)
            put_row(unknown[k], 0, &unknown_rows[i]);
}

/* ---- Both sides of the old edition's limits and of the European parameters'
 * (02, Q-4), by each edition and way ---- */

/* A call: n octets x of a type, and behind them the caller 7. */
static void put_limit(uint8_t type, uint8_t n, uint8_t x)
{
    static const char directory[] = "111111111111111111=y\n7=x\n";
    uint8_t o[TRAFFIC_OCTETS] = {0x80, (uint8_t)(n + 5), type, n}, sum = 0;
    size_t size = 4u + n;

    memset(o + 4, x, n);
    memcpy(o + size, "\x02\x01\x37", 3);
    size += 3;
    for (size_t i = 0; i < size; i++)
        sum = (uint8_t)(sum + o[i]);
    o[size++] = (uint8_t)(0 - sum);
    for (uint8_t i = 0; i < SECOND_EDITIONS * SECOND_WAYS; i++)
        put_case((struct book){i / SECOND_WAYS, i % SECOND_WAYS}, o, size,
                 (const uint8_t *)directory, strlen(directory), n, NULL);
}

static void put_limits(void)
{
    static const struct {
        uint8_t type, low, high, x;
    } lengths[] = {
        {0x02, 17, 21, '1'}, {0x12, 17, 21, '1'}, {0x07, 19, 22, 'A'},
        {0x08, 1, 5, 'O'},   {0x03, 20, 21, '1'}, {0x0D, 2, 4, 0xFF},
        {0x13, 1, 2, 0x02},  {0x0F, 7, 11, '1'},  {0x10, 20, 21, '1'},
        {0x1A, 20, 21, '1'}, {0x20, 13, 15, '-'}, {0x21, 13, 15, '-'},
        {0x22, 13, 15, '-'}, {0x23, 5, 7, '0'},   {0x30, 20, 21, 'A'},
        {0x31, 20, 21, 'A'}, {0x50, 1, 3, 'p'},   {0x55, 1, 2, 0x01},
        {0xE0, 9, 11, '3'},
    };
    static const struct {
        uint8_t type, low, high;
    } octets[] = {
        {0x02, 0x28, 0x3A}, {0x12, 0x2F, 0x3A}, {0x15, 0x00, 0x07},
        {0x15, 0x7F, 0x80}, {0x16, 0x00, 0x10}, {0x11, 0x00, 0x01},
        {0x10, 0x2F, 0x30}, {0x1A, 0x39, 0x3A}, {0x30, 0x1F, 0x20},
        {0x31, 0x7E, 0x7F}, {0x50, 0x00, 0x03}, {0x50, 0x06, 0x07},
        {0x50, 0x6F, 0x70}, {0x50, 0x80, 0x83}, {0x50, 0x86, 0x87},
        {0x50, 0xEF, 0xF0}, {0x55, 0x01, 0x02}, {0x55, 0x7F, 0x80},
    };

    for (size_t i = 0; i < sizeof lengths / sizeof *lengths; i++)
        for (uint8_t n = lengths[i].low; n <= lengths[i].high; n++)
            put_limit(lengths[i].type, n, lengths[i].x);
    for (size_t i = 0; i < sizeof octets / sizeof *octets; i++)
        for (uint8_t x = octets[i].low; x <= octets[i].high; x++)
            put_limit(octets[i].type, 1, x);
}

/* A message that all take, by editions and by ways that there are not. */
static void put_unknown(void)
{
    static const uint8_t o[] = {0x80, 0x03, 0x02, 0x01, 0x37, 0x43};
    static const uint8_t numbers[] = {2, 4, 8, 16, 32, 64, 128, 129, 254};

    for (size_t i = 0; i < 2 * sizeof numbers; i++) {
        uint8_t x = numbers[i / 2], known = i / 2 % 2;
        struct book b = {i % 2 ? known : x, i % 2 ? x : known};

        put_case(b, o, sizeof o, (const uint8_t *)"7=x", 3, 1, NULL);
    }
}

/* ---- Traffic, with directories ---- */

struct directory {
    uint8_t octets[DIRECTORY];
    size_t n;
};

/* As much as there is room for. */
static void add(struct directory *d, const void *octets, size_t n)
{
    if (n > DIRECTORY - d->n)
        n = DIRECTORY - d->n;
    memcpy(d->octets + d->n, octets, n);
    d->n += n;
}

/* Octets that do not end a line, 12 at most. */
static void add_text(struct traffic *t, struct directory *d)
{
    size_t n = traffic_number(t, 13);

    for (size_t i = 0; i < n; i++) {
        uint8_t x = (uint8_t)(0x0B + traffic_number(t, 0xF5));
        add(d, &x, 1);
    }
}

/* A line for the caller, one beside it, or one that is for nobody. */
static void add_line(struct traffic *t, struct directory *d,
                     const uint8_t *caller, size_t n)
{
    static const struct {
        const char *before, *after;
        int less, text;
    } sorts[] = {
        {"", "=", 0, 1},  {"", "=", 0, 1},  {"", "=", 0, 0},
        {"", "==", 0, 1}, {"", "=\r", 0, 1}, {"", "1=", 0, 1},
        {"", "", 0, 1},   {"=", "=", 0, 1}, {" ", "=", 0, 1},
        {"", "=", 1, 1},  {"", "", 0, 0},
    };
    size_t i = traffic_number(t, sizeof sorts / sizeof *sorts + 1);

    if (i == sizeof sorts / sizeof *sorts)
        return;
    add(d, sorts[i].before, strlen(sorts[i].before));
    add(d, caller, sorts[i].less ? n - 1 : n);
    add(d, sorts[i].after, strlen(sorts[i].after));
    if (sorts[i].text)
        add_text(t, d);
}

/* Lines around the caller that counts in the message, or around any. */
static void make_directory(struct traffic *t, struct book b, const uint8_t *o,
                           size_t n, struct directory *d)
{
    const uint8_t *caller = (const uint8_t *)"40912";
    size_t start = 0, length = 5, count = traffic_number(t, 6);

    d->n = 0;
    if (second_counted(b.edition, b.way, o, n, 0x02, &start, &length))
        caller = o + start;
    for (size_t i = 0; i < count; i++) {
        add_line(t, d, caller, length);
        if (i + 1 < count || traffic_number(t, 2))
            add(d, "\n", 1);
    }
}

/* Often the texts' own size, or one less. */
static size_t choose_room(struct traffic *t, struct book b, const uint8_t *o,
                          size_t n)
{
    struct second_draft d;
    struct second_verdict v =
        second_read(b.edition, b.way, o, n, SECOND_TEXTS, &d);
    size_t sort = traffic_number(t, 4);

    if (v.number || sort == 0)
        return traffic_number(t, SECOND_TEXTS + 1);
    return sort == 1 || d.text_octets == 0 ? d.text_octets
                                           : d.text_octets - 1u;
}

static void put_traffic(struct traffic *t, struct book b, const uint8_t *o,
                        size_t n)
{
    struct directory d;

    make_directory(t, b, o, n, &d);
    put_case(b, o, n, d.octets, d.n, choose_room(t, b, o, n), NULL);
}

/* A short message in which a caller counts and no name does. */
static int goes_by_caller(struct book b, const uint8_t *o, size_t n)
{
    size_t start, length;

    return n <= SHORT
        && second_counted(b.edition, b.way, o, n, 0x02, &start, &length)
        && !second_counted(b.edition, b.way, o, n, 0x07, &start, &length);
}

/* So many short messages that are built for one book, to be read by
 * another. */
static void put_crossed(struct traffic *t, struct book of, struct book by,
                        unsigned many)
{
    uint8_t o[TRAFFIC_OCTETS];

    for (unsigned kept = 0; kept < many;) {
        size_t n = traffic_next(t, o);

        if (n > SHORT || !second_is_message(of.edition, of.way, o, n))
            continue;
        kept++;
        put_traffic(t, by, o, n);
    }
}

static void put_messages(struct traffic *t, const struct counts *c)
{
    uint8_t o[TRAFFIC_OCTETS];
    unsigned kept = 0, passed = 0;

    while (kept < c->messages) {
        size_t n = traffic_next(t, o);
        if (n > SHORT && ++passed % LONG_EVERY)
            continue;
        kept++;
        put_traffic(t, c->book, o, n);
    }
    for (kept = 0; kept < c->callers;) {
        size_t n = traffic_next(t, o);
        if (!goes_by_caller(c->book, o, n))
            continue;
        kept++;
        put_traffic(t, c->book, o, n);
    }
    for (kept = 0; kept < c->longest;) {
        size_t n = traffic_next(t, o);
        if (n != 258 || !second_is_message(c->book.edition, c->book.way, o, n))
            continue;
        kept++;
        put_traffic(t, c->book, o, n);
    }
    for (kept = 0; kept < c->dated; kept++) {
        size_t n = traffic_dated(t, o);
        put_traffic(t, c->book, o, n);
    }
}

static void put_book(const struct counts *c)
{
    struct book of = c->book;
    struct traffic t;

    traffic_start(&t, 3u + of.edition + 2u * (of.way == SECOND_STRICT));
    t.edition = of.edition;
    t.way = of.way;
    put_messages(&t, c);
    put_crossed(&t, of, (struct book){1 - of.edition, of.way}, c->crossed[0]);
    put_crossed(&t, of, (struct book){of.edition, 1 - of.way}, c->crossed[1]);
}

int main(int argc, char **argv)
{
    if (argc != 3)
        return 2;
    cases = fopen(argv[1], "wb");
    lines = fopen(argv[2], "wb");
    if (!cases || !lines)
        return 2;
    put_rows();
    put_limits();
    put_unknown();
    for (size_t i = 0; i < sizeof counts / sizeof *counts; i++)
        put_book(&counts[i]);
    wrong |= ferror(cases) | ferror(lines);
    wrong |= fclose(cases) | fclose(lines);
    return wrong ? 1 : 0;
}
