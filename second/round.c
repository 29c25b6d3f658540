/*
 * Writes what the program `round` reads and what it must print: listings that
 * come back as messages (02, Q-1). First rows for each reading on both of its
 * sides, whose outcomes stand here by hand; then, with what the second reader
 * says, octets, numbers and days where one may stand, listings that are
 * damaged in every line, seeded traffic there and back, and listings gathered
 * from it with parameters of about 255 octets. Each case is the size of an
 * area in two octets, the number of the text's octets in two octets, and the
 * text. A line has the answer, the whole area, which was full of A5H, and of a
 * message whether its listing is the text. Usage: round CASES LINES
 */
#include <stdio.h>
#include <string.h>

#include "second.h"
#include "traffic.h"

#define ROOM 300
#define TEXT 4096
#define FILL 0xA5

/* Short messages, and a long one now and then, so that the files stay small. */
#define MESSAGES 3000
#define SHORT 40
#define LONG_EVERY 40
#define DATED_EVERY 8
#define DAMAGED 40
#define GATHERED 240

static FILE *cases, *lines;
static int wrong;

struct page {
    size_t n;
    char text[TEXT];
};

static void add(struct page *p, const char *text, size_t n)
{
    if (n > TEXT - p->n) {
        wrong = 1;
        n = TEXT - p->n;
    }
    memcpy(p->text + p->n, text, n);
    p->n += n;
}

static void add_words(struct page *p, const char *words)
{
    add(p, words, strlen(words));
}

static void add_many(struct page *p, char c, size_t n)
{
    while (n-- > 0)
        add(p, &c, 1);
}

/* ---- One case ---- */

static char said[2 * ROOM + 64], by_hand[2 * ROOM + 64];

static void print(char *line, const struct second_made *made,
                  const uint8_t *area, size_t room, int same)
{
    if (made->number == 0)
        line += sprintf(line, "message %zu ", made->size);
    else
        line += sprintf(line, "refused %u at %zu ", made->number, made->place);
    for (size_t i = 0; i < room; i++)
        line += sprintf(line, "%02x", area[i]);
    if (made->number == 0)
        line += sprintf(line, " %s", same ? "same" : "other");
    *line = '\0';
}

static void complain(const char *text, size_t n, const char *what)
{
    printf("round: %s: the second reader says %s\n       of ", what, said);
    for (size_t i = 0; i < n; i++)
        printf(text[i] >= 0x20 && text[i] <= 0x7E ? "%c" : "\\%02x",
               (unsigned char)text[i]);
    printf("\n");
    wrong = 1;
}

/* What the second reader says, with what is in the area then, and behind it.
 * Whatever it says, all octets but the message's stay, the present edition is
 * named, and the listing of a message is the text. */
static struct second_made say(const char *text, size_t n, size_t room,
                              uint8_t area[ROOM + 1])
{
    char listing[SECOND_LISTING];
    struct second_made made;
    int same, stay = 1;

    memset(area, FILL, ROOM + 1);
    made = second_message_of(text, n, area, room);
    same = made.number == 0 && second_listing(area, made.size, listing) == n
        && memcmp(listing, text, n) == 0;
    print(said, &made, area, room, same);
    for (size_t i = made.size; i <= ROOM; i++)
        stay = stay && area[i] == FILL;
    if (!stay || made.edition != SECOND_PRESENT
        || same != (made.number == 0) || (made.number && made.size))
        complain(text, n, "never so");
    return made;
}

static void put(const char *text, size_t n, size_t room, const char *line)
{
    uint8_t head[4] = {(uint8_t)(room >> 8), (uint8_t)room, (uint8_t)(n >> 8),
                       (uint8_t)n};

    wrong |= n > TEXT || room > ROOM;
    fwrite(head, 1, 4, cases);
    fwrite(text, 1, n, cases);
    fprintf(lines, "%s\n", line);
}

/* ---- Cases by hand ---- */

/* The line stands by hand: a refusal, or with number 0 the message o. */
static void hand_case(const struct page *p, size_t room, const uint8_t *o,
                      size_t size, unsigned number, size_t place)
{
    struct second_made hand = {number, place, size, SECOND_PRESENT};
    uint8_t area[ROOM + 1];

    memset(area, FILL, sizeof area);
    if (number == 0)
        memcpy(area, o, size);
    print(by_hand, &hand, area, room, 1);
    say(p->text, p->n, room, area);
    put(p->text, p->n, room, by_hand);
    if (strcmp(by_hand, said))
        complain(p->text, p->n, by_hand);
}

static void message_case(const struct page *p, size_t room, const uint8_t *o,
                         size_t size)
{
    hand_case(p, room, o, size, 0, 0);
}

static void refused_case(const struct page *p, size_t room, unsigned number,
                         size_t place)
{
    hand_case(p, room, NULL, 0, number, place);
}

/* the octets of "80 0B 01" */
static size_t octets_of(const char *hex, uint8_t *o)
{
    size_t n = 0;
    unsigned x;
    int used;

    while (sscanf(hex, " %2x%n", &x, &used) == 1) {
        o[n++] = (uint8_t)x;
        hex += used;
    }
    return n;
}

/* ---- Whole listings ---- */

/* Lines of listings; a listing with one value, and its message. */
#define TIME "time=06-15 14:30\n"
#define CALLER "caller=40912\n"
#define END "carried=0\n"
#define SEVEN "kind=call\ncaller=7\ncarried=0\n"
#define SEVEN_OCTETS "80 03 02 01 37 43"

/* All keys but the absent ones; all but caller and name. */
#define ALL_KEYS                                                            \
    "kind=call\ntime=06-15 14:30\ncaller=40912\ncalled=40913\nname=Ann\n"   \
    "lamp=on\nmessage=on 258\ndepositor=40915\n"                            \
    "left-time=06-15 14:30:07\nnetwork-caller=40916\ncall-type=01\n"        \
    "first-called=40917\nwaiting=2\nforwarded=01\nuser=0B\n"                \
    "redirecting=40914\ncharge=GBP 00 0000012,34\n"                         \
    "additional-charge=--- 08 ----------\nextra-charge=--- 10 00045-----\n" \
    "duration=01:30:05\nprovider=ANTHER\ncarrier=CUP 2\n"                   \
    "terminal=connection 07\ndisplay=01 Call ended\nservice=80\n"           \
    "extension=33 ANTH1.0\ncarried=0\n"

#define ABSENT_KEYS                                                         \
    "kind=notice\ntime=02-29 23:59\ncalled=#\ncaller-absent=P\n"            \
    "name-absent=O\nlamp=off\nmessage=unset 65535\ndepositor=(\n"           \
    "left-time=02-29 00:00\nnetwork-caller=*\ncall-type=FF\n"               \
    "first-called=)\nwaiting=255\nforwarded=80\nuser=00\nredirecting= \n"   \
    "charge=--- 10 99999-----\nadditional-charge=XYZ 10 123450,123\n"       \
    "extra-charge=AAA E7 ,000000000\nduration=99:59:59\nprovider=~\n"       \
    "carrier= \nterminal=subaddress 12\ndisplay=70 \nservice=00\n"          \
    "extension=1        ~\ncarried=0\n"

struct row {
    const char *text;
    size_t n;         /* of the text */
    size_t room;
    const char *hex;  /* of the message; NULL: refused */
    unsigned number;
    size_t place;
};

#define MESSAGE(text, room, hex) {text, sizeof text - 1, room, hex, 0, 0}
#define BAD(line, text) {text, sizeof text - 1, 24, NULL, 61, line}
#define SHORT_OF(octets, room, text) \
    {text, sizeof text - 1, room, NULL, 15, octets}

static const struct row rows[] = {
    /* 01's own; one value; 01's rows and the field book's */
    MESSAGE("kind=call\n" TIME CALLER END, 20,
            "80 11 01 08 30 36 31 35 31 34 33 30 02 05 34 30 39 31 32 CB"),
    MESSAGE(SEVEN, 6, SEVEN_OCTETS),
    MESSAGE("kind=notice\ncaller=7\ncarried=0\n", 6, "82 03 02 01 37 41"),
    MESSAGE("kind=notice\nlamp=on\ncarried=0\n", 6, "82 03 0B 01 FF 70"),
    MESSAGE("kind=notice\nwaiting=2\ncarried=0\n", 6, "82 03 13 01 02 65"),
    MESSAGE("kind=notice\nlamp=on\nwaiting=2\ncarried=0\n", 9,
            "82 06 0B 01 FF 13 01 02 57"),
    MESSAGE("kind=notice\nmessage=on 258\ncarried=0\n", 8,
            "82 05 0D 03 FF 01 02 67"),
    /* all keys */
    MESSAGE(ALL_KEYS, 197,
            "80 C0 01 08 30 36 31 35 31 34 33 30 02 05 34 30 39 31 32 03 05 "
            "34 30 39 31 33 07 03 41 6E 6E 0B 01 FF 0D 03 FF 01 02 0E 05 34 "
            "30 39 31 35 0F 0A 30 36 31 35 31 34 33 30 30 37 10 05 34 30 39 "
            "31 36 11 01 01 12 05 34 30 39 31 37 13 01 02 15 01 01 16 01 0B "
            "1A 05 34 30 39 31 34 20 0E 47 42 50 00 30 30 30 30 30 31 32 2C "
            "33 34 21 0E 2D 2D 2D 08 2D 2D 2D 2D 2D 2D 2D 2D 2D 2D 22 0E 2D "
            "2D 2D 10 30 30 30 34 35 2D 2D 2D 2D 2D 23 06 30 31 33 30 30 35 "
            "30 06 41 4E 54 48 45 52 31 05 43 55 50 20 32 40 02 01 07 50 0B "
            "01 43 61 6C 6C 20 65 6E 64 65 64 55 01 80 E0 0A 33 33 20 41 4E "
            "54 48 31 2E 30 E3"),
    MESSAGE(ABSENT_KEYS, 149,
            "82 92 01 08 30 32 32 39 32 33 35 39 03 01 23 04 01 50 08 01 4F "
            "0B 01 00 0D 03 55 FF FF 0E 01 28 0F 08 30 32 32 39 30 30 30 30 "
            "10 01 2A 11 01 FF 12 01 29 13 01 FF 15 01 80 16 01 00 1A 01 20 "
            "20 0E 2D 2D 2D 10 39 39 39 39 39 2D 2D 2D 2D 2D 21 0E 58 59 5A "
            "10 31 32 33 34 35 30 2C 31 32 33 22 0E 41 41 41 E7 2C 30 30 30 "
            "30 30 30 30 30 30 23 06 39 39 35 39 35 39 30 01 7E 31 01 20 40 "
            "03 03 31 32 50 01 70 55 01 00 E0 0A 31 20 20 20 20 20 20 20 20 "
            "7E 1D"),
    /* 15: one octet short, more, nothing at all; exact; octets behind it */
    SHORT_OF(6, 5, SEVEN),
    SHORT_OF(6, 3, SEVEN),
    SHORT_OF(6, 1, SEVEN),
    SHORT_OF(6, 0, SEVEN),
    MESSAGE(SEVEN, 7, SEVEN_OCTETS),
    MESSAGE(SEVEN, 8, SEVEN_OCTETS),
    MESSAGE(SEVEN, 300, SEVEN_OCTETS),
    SHORT_OF(20, 19, "kind=call\n" TIME CALLER END),
    SHORT_OF(20, 6, "kind=call\n" TIME CALLER END),
    MESSAGE("kind=call\n" TIME CALLER END, 22,
            "80 11 01 08 30 36 31 35 31 34 33 30 02 05 34 30 39 31 32 CB"),
    SHORT_OF(195, 194, ALL_KEYS),
    SHORT_OF(149, 148, ABSENT_KEYS),
    /* 61 goes before 15 */
    {"kind=call\ncaller=7\ncarried=1\n", 29, 0, NULL, 61, 3},
    {"", 0, 0, NULL, 61, 1},
    /* the kind */
    BAD(1, "kind=Call\ncaller=7\ncarried=0\n"),
    BAD(1, "kind=calls\ncaller=7\ncarried=0\n"),
    BAD(1, "kind=cal\ncaller=7\ncarried=0\n"),
    BAD(1, "kind=call \ncaller=7\ncarried=0\n"),
    BAD(1, "kind= call\ncaller=7\ncarried=0\n"),
    BAD(1, "kind=notices\ncaller=7\ncarried=0\n"),
    BAD(1, "kind=80\ncaller=7\ncarried=0\n"),
    BAD(1, "kind=\ncaller=7\ncarried=0\n"),
    BAD(1, "kind\ncaller=7\ncarried=0\n"),
    BAD(1, "Kind=call\ncaller=7\ncarried=0\n"),
    BAD(1, " kind=call\ncaller=7\ncarried=0\n"),
    BAD(1, "kind =call\ncaller=7\ncarried=0\n"),
    BAD(1, "kind:call\ncaller=7\ncarried=0\n"),
    BAD(1, "\xEF\xBB\xBFkind=call\ncaller=7\ncarried=0\n"),
    BAD(1, "\nkind=call\ncaller=7\ncarried=0\n"),
    BAD(1, "kind=call\0\ncaller=7\ncarried=0\n"),
    BAD(1, "caller=7\ncarried=0\n"),
    BAD(1, "caller=7\nkind=call\ncarried=0\n"),
    BAD(1, "carried=0\n"),
    BAD(1, "carried=0\nkind=call\ncaller=7\n"),
    BAD(2, "kind=call\nkind=call\ncaller=7\ncarried=0\n"),
    BAD(2, "kind=call\nkind=notice\ncaller=7\ncarried=0\n"),
    BAD(3, "kind=call\ncaller=7\nkind=call\ncarried=0\n"),
    BAD(4, "kind=call\ncaller=7\ncarried=0\nkind=call\n"),
    /* what showmsg prints of a refusal, and of something carried */
    BAD(1, "refused=8\nat=0\nin=0\n"),
    BAD(1, "refused=5\nat=4\nin=1\n"),
    BAD(2, "kind=call\nrefused=8\nat=0\nin=0\n"),
    BAD(2, "kind=call\ncarried=1\n"),
    BAD(3, "kind=call\ncaller=7\ncarried=1\n"),
    /* the last line */
    BAD(3, "kind=call\ncaller=7\ncarried=00\n"),
    BAD(3, "kind=call\ncaller=7\ncarried=85\n"),
    BAD(3, "kind=call\ncaller=7\ncarried=10\n"),
    BAD(3, "kind=call\ncaller=7\ncarried=\n"),
    BAD(3, "kind=call\ncaller=7\ncarried= 0\n"),
    BAD(3, "kind=call\ncaller=7\ncarried=0 \n"),
    BAD(3, "kind=call\ncaller=7\ncarried=-0\n"),
    BAD(3, "kind=call\ncaller=7\ncarried=O\n"),
    BAD(3, "kind=call\ncaller=7\ncarried\n"),
    BAD(3, "kind=call\ncaller=7\nCarried=0\n"),
    BAD(3, "kind=call\ncaller=7\ncarried=0\0\n"),
    /* no value line */
    BAD(2, "kind=call\ncarried=0\n"),
    BAD(2, "kind=call\ncarried=0"),
    BAD(2, "kind=call\ncarried=0\ncaller=7\n"),
    BAD(2, "kind=call\ncarried=0\ncaller=7\ncarried=0\n"),
    BAD(2, "kind=notice\ncarried=0\ncarried=0\n"),
    /* a missing last line, numbered as if it stood there */
    BAD(1, ""),
    BAD(2, "kind=call\n"),
    BAD(3, "kind=call\ncaller=7\n"),
    BAD(4, "kind=call\n" TIME CALLER),
    /* a line without its end */
    BAD(1, "k"),
    BAD(1, "kind=call"),
    BAD(1, "kind=notice"),
    BAD(1, "kind=callcaller=7\ncarried=0\n"),
    BAD(2, "kind=call\nc"),
    BAD(2, "kind=call\ncaller="),
    BAD(2, "kind=call\ncaller=7"),
    BAD(2, "kind=call\ncaller=7carried=0\n"),
    BAD(3, "kind=call\ncaller=7\nc"),
    BAD(3, "kind=call\ncaller=7\ncarried="),
    BAD(3, "kind=call\ncaller=7\ncarried=0"),
    BAD(3, "kind=call\ncaller=7\nname=A"),
    BAD(3, "kind=call\ncaller=7\ncarried=1"),
    BAD(4, "kind=call\n" TIME CALLER "carried=0"),
    /* a text takes up the line behind it: no last line, or none missed */
    BAD(3, "kind=call\nname=Acarried=0\n"),
    MESSAGE("kind=call\nname=caller=7carried=0\ncarried=0\n", 22,
            "80 13 07 11 63 61 6C 6C 65 72 3D 37 63 61 72 72 69 65 64 3D 30 "
            "27"),
    /* something behind the end, ended or not */
    BAD(4, SEVEN "c"),
    BAD(4, SEVEN " "),
    BAD(4, SEVEN "\n"),
    BAD(4, SEVEN "\r"),
    BAD(4, SEVEN "\0"),
    BAD(4, SEVEN "\n\n"),
    BAD(4, SEVEN "x\n"),
    BAD(4, SEVEN "carried=0\n"),
    BAD(4, SEVEN "carried=0"),
    BAD(4, SEVEN "name=A\n"),
    BAD(4, SEVEN "name=A\ncarried=0\n"),
    BAD(4, SEVEN SEVEN),
    BAD(4, SEVEN "refused=8\nat=0\nin=0\n"),
    BAD(5, "kind=call\n" TIME CALLER END END),
    /* line ends of CR LF, LF CR and CR */
    BAD(1, "kind=call\r\ncaller=7\r\ncarried=0\r\n"),
    BAD(2, "kind=call\ncaller=7\r\ncarried=0\n"),
    BAD(3, "kind=call\ncaller=7\ncarried=0\r\n"),
    BAD(2, "kind=call\n\rcaller=7\n\rcarried=0\n\r"),
    BAD(1, "kind=call\rcaller=7\rcarried=0\r"),
    BAD(2, "kind=call\nname=A\r\ncarried=0\n"),
    /* empty lines */
    BAD(1, "\n"),
    BAD(1, "\n\n\n"),
    BAD(2, "kind=call\n\ncaller=7\ncarried=0\n"),
    BAD(3, "kind=call\ncaller=7\n\ncarried=0\n"),
    BAD(3, "kind=call\ncaller=7\n\n"),
    /* order: the second of two exchanged lines is the one that no listing has
     * there, but the first where that is the kind or the end */
    BAD(3, "kind=call\n" CALLER TIME END),
    BAD(3, "kind=call\nname=A\ncaller=7\ncarried=0\n"),
    BAD(3, "kind=call\ncaller-absent=P\ncalled=7\ncarried=0\n"),
    BAD(3, "kind=call\nextension=33 ANTH1.0\nservice=80\ncarried=0\n"),
    BAD(3, "kind=call\nextension=33 ANTH1.0\ntime=06-15 14:30\ncarried=0\n"),
    BAD(4, "kind=call\n" TIME "name=A\n" CALLER END),
    BAD(4, "kind=call\ntime=06-15 14:30\nwaiting=1\nlamp=on\nuser=00\n" END),
    BAD(3, "kind=notice\nwaiting=1\nlamp=on\ncarried=0\n"),
    BAD(3, "kind=notice\nleft-time=06-15 14:30\ndepositor=7\ncarried=0\n"),
    BAD(3, "kind=notice\nfirst-called=7\nnetwork-caller=7\ncarried=0\n"),
    /* a key twice, with the same value or another, together or not */
    BAD(3, "kind=call\ncaller=7\ncaller=7\ncarried=0\n"),
    BAD(3, "kind=call\ncaller=7\ncaller=8\ncarried=0\n"),
    BAD(3, "kind=notice\nwaiting=1\nwaiting=1\ncarried=0\n"),
    BAD(4, "kind=call\ncaller=7\ncalled=8\ncaller=7\ncarried=0\n"),
    BAD(3, "kind=call\nextension=33 ANTH1.0\nextension=33 ANTH1.0\n" END),
    BAD(4, "kind=call\n" TIME CALLER CALLER END),
    /* pairs: the later line is the bad one; both ways round, together or not */
    BAD(3, "kind=call\ncaller=7\ncaller-absent=P\ncarried=0\n"),
    BAD(3, "kind=call\ncaller-absent=P\ncaller=7\ncarried=0\n"),
    BAD(3, "kind=call\nname=A\nname-absent=O\ncarried=0\n"),
    BAD(3, "kind=call\nname-absent=O\nname=A\ncarried=0\n"),
    BAD(4, "kind=call\ncaller=7\ncalled=8\ncaller-absent=P\ncarried=0\n"),
    BAD(5, "kind=call\n" TIME CALLER "name=A\nname-absent=O\n" END),
    BAD(4, "kind=call\ncaller=7\nname=A\nname-absent=O\ncarried=0\n"),
    BAD(3, "kind=call\ncaller-absent=O\ncaller-absent=P\ncarried=0\n"),
    /* two of different pairs */
    MESSAGE("kind=call\ncaller=7\nname=A\ncarried=0\n", 9,
            "80 06 02 01 37 07 01 41 F7"),
    MESSAGE("kind=call\ncaller=7\nname-absent=O\ncarried=0\n", 9,
            "80 06 02 01 37 08 01 4F E8"),
    MESSAGE("kind=call\ncaller-absent=P\nname=A\ncarried=0\n", 9,
            "80 06 04 01 50 07 01 41 DC"),
    MESSAGE("kind=call\ncaller-absent=P\nname-absent=O\ncarried=0\n", 9,
            "80 06 04 01 50 08 01 4F CD"),
    /* the first bad line, whatever follows */
    BAD(2, "kind=call\ntime=04-31 00:00\ncaller=+\ncarried=7\n"),
    BAD(3, "kind=call\ntime=04-30 00:00\ncaller=+\ncarried=7\n"),
    BAD(4, "kind=call\ntime=04-30 00:00\ncaller=7\ncarried=7\n"),
    BAD(5, "kind=call\n" TIME CALLER "name=A\nleft-time=02-30 00:00\n" END),
    /* bad by its value and by its pair; a good line of the key behind it */
    BAD(3, "kind=call\ncaller=7\ncaller-absent=Q\ncarried=0\n"),
    BAD(2, "kind=call\ncaller=+\ncaller=7\ncarried=0\n"),
};

static void put_rows(void)
{
    struct page p;

    for (size_t i = 0; i < sizeof rows / sizeof *rows; i++) {
        uint8_t o[ROOM];

        p.n = 0;
        add(&p, rows[i].text, rows[i].n);
        if (rows[i].hex)
            message_case(&p, rows[i].room, o, octets_of(rows[i].hex, o));
        else
            refused_case(&p, rows[i].room, rows[i].number, rows[i].place);
    }
}

/* ---- One value line ---- */

struct value {
    const char *line;
    size_t n;        /* of the line */
    const char *hex; /* of the parameter; NULL: there is no such value */
};

#define IS(line, hex) {line, sizeof line - 1, hex}
#define NO(line) {line, sizeof line - 1, NULL}

static const struct value values[] = {
    /* dates: each field's limits, the days of the months, how they look */
    IS("time=06-15 14:30", "01 08 30 36 31 35 31 34 33 30"),
    IS("time=01-01 00:00", "01 08 30 31 30 31 30 30 30 30"),
    IS("time=12-31 23:59", "01 08 31 32 33 31 32 33 35 39"),
    IS("time=02-29 23:59", "01 08 30 32 32 39 32 33 35 39"),
    NO("time=02-30 00:00"), NO("time=02-30 23:59"), NO("time=02-31 00:00"),
    IS("time=04-30 00:00", "01 08 30 34 33 30 30 30 30 30"),
    NO("time=04-31 00:00"), NO("time=06-31 00:00"), NO("time=09-31 00:00"),
    NO("time=11-31 00:00"),
    IS("time=01-31 00:00", "01 08 30 31 33 31 30 30 30 30"),
    NO("time=01-32 00:00"), NO("time=00-01 00:00"), NO("time=13-01 00:00"),
    NO("time=01-00 00:00"), NO("time=01-01 24:00"), NO("time=01-01 00:60"),
    NO("time=01-01 00:00:00"), NO("time=01-01 00:00:"), NO("time=1-01 00:00"),
    NO("time=01-1 00:00"), NO("time=01-01 0:00"), NO("time=01-01 00:0"),
    NO("time=01-01 00:000"), NO("time=001-01 00:00"), NO("time=01/01 00:00"),
    NO("time=01-01-00:00"), NO("time=01-01T00:00"), NO("time=01-01 00.00"),
    NO("time=01-01  00:00"), NO("time=01-01"), NO("time=01010000"),
    NO("time= 01-01 00:00"), NO("time=01-01 00:00 "), NO("time=01-01 00:00\r"),
    NO("time="), NO("time=0"), NO("time=0a-01 00:00"), NO("time= 1-01 00:00"),
    IS("left-time=06-15 14:30", "0F 08 30 36 31 35 31 34 33 30"),
    IS("left-time=06-15 14:30:07", "0F 0A 30 36 31 35 31 34 33 30 30 37"),
    IS("left-time=06-15 14:30:00", "0F 0A 30 36 31 35 31 34 33 30 30 30"),
    IS("left-time=12-31 23:59:59", "0F 0A 31 32 33 31 32 33 35 39 35 39"),
    IS("left-time=02-29 00:00", "0F 08 30 32 32 39 30 30 30 30"),
    IS("left-time=02-29 00:00:59", "0F 0A 30 32 32 39 30 30 30 30 35 39"),
    IS("left-time=11-30 00:00", "0F 08 31 31 33 30 30 30 30 30"),
    NO("left-time=02-30 00:00"), NO("left-time=02-30 00:00:00"),
    NO("left-time=04-31 00:00"), NO("left-time=04-31 00:00:00"),
    NO("left-time=06-15 14:30:60"), NO("left-time=06-15 14:60:00"),
    NO("left-time=06-15 24:00:00"), NO("left-time=13-01 00:00"),
    NO("left-time=06-15 14:30:"), NO("left-time=06-15 14:30:0"),
    NO("left-time=06-15 14:30:000"), NO("left-time=06-15 14:30:00:00"),
    NO("left-time=06-15 14:30-00"), NO("left-time=06-15 14:3000"),
    NO("left-time=06-15 14:30 "), NO("left-time=06-15 14:30:00 "),
    NO("left-time=06-15"), NO("left-time="), NO("left-time=00"),
    /* numbers */
    IS("caller=40912", "02 05 34 30 39 31 32"),
    IS("caller=0123456789*# -()",
       "02 10 30 31 32 33 34 35 36 37 38 39 2A 23 20 2D 28 29"),
    IS("caller=0", "02 01 30"), IS("caller= ", "02 01 20"),
    IS("caller=007", "02 03 30 30 37"), IS("called=40913",
       "03 05 34 30 39 31 33"),
    IS("depositor=40915", "0E 05 34 30 39 31 35"),
    IS("network-caller=40916", "10 05 34 30 39 31 36"),
    IS("first-called=40917", "12 05 34 30 39 31 37"),
    IS("redirecting=40914", "1A 05 34 30 39 31 34"),
    NO("caller="), NO("called="), NO("depositor="), NO("network-caller="),
    NO("first-called="), NO("redirecting="), NO("caller=+49"), NO("caller=4,0"),
    NO("caller=4A"), NO("caller=4\t0"), NO("caller=40912\r"), NO("caller=="),
    NO("caller=4=0"), NO("caller=7\0"), NO("caller=\0"), NO("caller=\xB9"),
    NO("called=+"), NO("depositor=x"), NO("network-caller=/"),
    NO("first-called=:"), NO("redirecting=."),
    /* letters */
    IS("caller-absent=O", "04 01 4F"), IS("caller-absent=P", "04 01 50"),
    IS("name-absent=O", "08 01 4F"), IS("name-absent=P", "08 01 50"),
    NO("caller-absent=N"), NO("caller-absent=Q"), NO("caller-absent=o"),
    NO("caller-absent=p"), NO("caller-absent=OP"), NO("caller-absent=O "),
    NO("caller-absent="), NO("caller-absent=4F"), NO("name-absent=Q"),
    NO("name-absent=0"), NO("name-absent=PP"), NO("name-absent="),
    /* names and other texts */
    IS("name=Ann", "07 03 41 6E 6E"), IS("name= ", "07 01 20"),
    IS("name=~", "07 01 7E"), IS("name=a=b", "07 03 61 3D 62"),
    IS("name==", "07 01 3D"), IS("name=A ", "07 02 41 20"),
    NO("name="), NO("name=\x1F"), NO("name=\x7F"), NO("name=\x80"),
    NO("name=A\t"), NO("name=A\r"), NO("name=A\0"), NO("name=\xC3\x85"),
    IS("provider=ANTHER", "30 06 41 4E 54 48 45 52"),
    IS("provider= ", "30 01 20"), NO("provider="), NO("provider=\x7F"),
    IS("carrier=CUP 2", "31 05 43 55 50 20 32"), IS("carrier=~", "31 01 7E"),
    NO("carrier="), NO("carrier=\x1F"),
    /* the lamp */
    IS("lamp=off", "0B 01 00"), IS("lamp=on", "0B 01 FF"),
    NO("lamp=On"), NO("lamp=ON"), NO("lamp=OFF"), NO("lamp=of"),
    NO("lamp=offf"), NO("lamp=onn"), NO("lamp=o"), NO("lamp="),
    NO("lamp=unset"), NO("lamp=1"), NO("lamp=FF"), NO("lamp=on "),
    NO("lamp= on"), NO("lamp=on 0"),
    /* messages: words, and references on both sides of their limits */
    IS("message=off 0", "0D 03 00 00 00"), IS("message=on 0", "0D 03 FF 00 00"),
    IS("message=unset 0", "0D 03 55 00 00"),
    IS("message=on 9", "0D 03 FF 00 09"), IS("message=on 10", "0D 03 FF 00 0A"),
    IS("message=unset 255", "0D 03 55 00 FF"),
    IS("message=unset 256", "0D 03 55 01 00"),
    IS("message=on 258", "0D 03 FF 01 02"),
    IS("message=off 9999", "0D 03 00 27 0F"),
    IS("message=off 10000", "0D 03 00 27 10"),
    IS("message=on 65535", "0D 03 FF FF FF"),
    NO("message=on 65536"), NO("message=on 65545"), NO("message=on 70000"),
    NO("message=on 99999"), NO("message=on 100000"),
    NO("message=on 4294967296"), NO("message=on 18446744073709551616"),
    NO("message=on 00"), NO("message=on 01"), NO("message=on 0258"),
    NO("message=off 00000"), NO("message=on 065535"), NO("message=on  1"),
    NO("message=on"), NO("message=on "), NO("message=on1"),
    NO("message=on 1 "), NO("message=on -1"), NO("message=on +1"),
    NO("message=on 1,000"), NO("message=on 1A"), NO("message=on x"),
    NO("message=On 1"), NO("message=ON 1"), NO("message=of 1"),
    NO("message=set 1"), NO("message=unse 1"), NO("message=unset"),
    NO("message=on\t1"), NO("message=FF 1"), NO("message= on 1"),
    NO("message=1"), NO("message=1 on"), NO("message="), NO("message= "),
    /* codes in hex */
    IS("call-type=01", "11 01 01"), IS("call-type=07", "11 01 07"),
    IS("call-type=10", "11 01 10"), IS("call-type=11", "11 01 11"),
    IS("call-type=50", "11 01 50"), IS("call-type=51", "11 01 51"),
    IS("call-type=81", "11 01 81"), IS("call-type=FF", "11 01 FF"),
    IS("call-type=AB", "11 01 AB"),
    NO("call-type=00"), NO("call-type=08"), NO("call-type=0F"),
    NO("call-type=12"), NO("call-type=4F"), NO("call-type=52"),
    NO("call-type=80"), NO("call-type=ff"), NO("call-type=aB"),
    NO("call-type=Ab"), NO("call-type=1"), NO("call-type=001"),
    NO("call-type=0001"), NO("call-type=1 "), NO("call-type= 1"),
    NO("call-type=0x01"), NO("call-type=01H"), NO("call-type=01 "),
    NO("call-type=FG"), NO("call-type=G1"), NO("call-type="),
    NO("call-type=\xFF"),
    IS("forwarded=00", "15 01 00"), IS("forwarded=06", "15 01 06"),
    IS("forwarded=80", "15 01 80"), IS("forwarded=FF", "15 01 FF"),
    NO("forwarded=07"), NO("forwarded=7F"), NO("forwarded=8"),
    NO("forwarded=fF"), NO("forwarded=080"), NO("forwarded="),
    IS("user=00", "16 01 00"), IS("user=0B", "16 01 0B"),
    IS("user=0F", "16 01 0F"), NO("user=10"), NO("user=0b"), NO("user=B"),
    NO("user=00B"), NO("user="),
    IS("service=00", "55 01 00"), IS("service=01", "55 01 01"),
    IS("service=80", "55 01 80"), IS("service=FF", "55 01 FF"),
    NO("service=02"), NO("service=7F"), NO("service=8"), NO("service=800"),
    NO("service=8a"), NO("service="),
    /* a number in decimal */
    IS("waiting=0", "13 01 00"), IS("waiting=7", "13 01 07"),
    IS("waiting=10", "13 01 0A"), IS("waiting=99", "13 01 63"),
    IS("waiting=100", "13 01 64"), IS("waiting=200", "13 01 C8"),
    IS("waiting=255", "13 01 FF"),
    NO("waiting=256"), NO("waiting=260"), NO("waiting=300"), NO("waiting=999"),
    NO("waiting=1000"), NO("waiting=2550"), NO("waiting=65536"),
    NO("waiting=4294967296"), NO("waiting=18446744073709551616"),
    NO("waiting=07"), NO("waiting=00"), NO("waiting=000"), NO("waiting=0255"),
    NO("waiting="), NO("waiting=+7"), NO("waiting=-7"), NO("waiting=-0"),
    NO("waiting=7 "), NO("waiting= 7"), NO("waiting=7."), NO("waiting=FF"),
    NO("waiting=0x7"), NO("waiting=7\r"), NO("waiting=7\0"), NO("waiting=\7"),
    /* charges: a cost, units with a price, units alone, not available */
    IS("charge=GBP 00 0000012,34",
       "20 0E 47 42 50 00 30 30 30 30 30 31 32 2C 33 34"),
    IS("charge=GBP 00 0000000000",
       "20 0E 47 42 50 00 30 30 30 30 30 30 30 30 30 30"),
    IS("charge=AZA 00 ,999999999",
       "20 0E 41 5A 41 00 2C 39 39 39 39 39 39 39 39 39"),
    IS("charge=AZA E7 999999999,",
       "20 0E 41 5A 41 E7 39 39 39 39 39 39 39 39 39 2C"),
    IS("charge=GBP 10 000450,123",
       "20 0E 47 42 50 10 30 30 30 34 35 30 2C 31 32 33"),
    IS("charge=GBP F7 0004501234",
       "20 0E 47 42 50 F7 30 30 30 34 35 30 31 32 33 34"),
    IS("charge=--- 10 00045-----",
       "20 0E 2D 2D 2D 10 30 30 30 34 35 2D 2D 2D 2D 2D"),
    IS("charge=--- 08 ----------",
       "20 0E 2D 2D 2D 08 2D 2D 2D 2D 2D 2D 2D 2D 2D 2D"),
    IS("charge=--- 18 ----------",
       "20 0E 2D 2D 2D 18 2D 2D 2D 2D 2D 2D 2D 2D 2D 2D"),
    IS("charge=--- FF ----------",
       "20 0E 2D 2D 2D FF 2D 2D 2D 2D 2D 2D 2D 2D 2D 2D"),
    IS("additional-charge=FRF 00 0000023,45",
       "21 0E 46 52 46 00 30 30 30 30 30 32 33 2C 34 35"),
    IS("extra-charge=DEM 10 0007800,12",
       "22 0E 44 45 4D 10 30 30 30 37 38 30 30 2C 31 32"),
    NO("charge=GBP 08 ----------"), NO("charge=GBP 08 0000012,34"),
    NO("charge=GBP 18 ----------"), NO("charge=GBP 18 00045-----"),
    NO("charge=--- 00 ----------"), NO("charge=--- 00 0000012,34"),
    NO("charge=--- 10 ----------"), NO("charge=--- 10 000450,123"),
    NO("charge=--- 08 00045-----"), NO("charge=--- 08 ---------0"),
    NO("charge=GBP 10 00045-----"), NO("charge=GBP 10 0,045-----"),
    NO("charge=GBP 10 0,04500123"), NO("charge=GBP 10 000450,1,3"),
    NO("charge=--- 10 0,045-----"), NO("charge=GBP 00 00,0012,34"),
    NO("charge=GBP 00 ----------"), NO("charge=GBP 00 000001234-"),
    NO("charge=GBP 00 0000012.34"), NO("charge=GBP 00 00000 2,34"),
    NO("charge=gbp 00 0000012,34"), NO("charge=GB- 00 0000012,34"),
    NO("charge=--B 10 00045-----"), NO("charge=G1P 00 0000012,34"),
    NO("charge=GBP 0 0000012,34"), NO("charge=GBP 000 000012,34"),
    NO("charge=GBP E7 000012,34"), NO("charge=GBP e7 0000012,34"),
    NO("charge=GBP 00 00000012,34"), NO("charge=GBP 00 000012,34"),
    NO("charge=GBP-00 0000012,34"), NO("charge=GBP 00-0000012,34"),
    NO("charge=GBP 00  000012,34"), NO("charge=GBP000000012,34"),
    NO("charge=GBP 00"), NO("charge=GBP"), NO("charge="),
    NO("additional-charge=GBP 00 00,0012,34"),
    NO("additional-charge=--- 00 ----------"), NO("additional-charge="),
    NO("extra-charge=GBP 08 ----------"),
    NO("extra-charge=--- 10 0,045-----"), NO("extra-charge="),
    /* durations */
    IS("duration=01:30:05", "23 06 30 31 33 30 30 35"),
    IS("duration=00:00:00", "23 06 30 30 30 30 30 30"),
    IS("duration=99:59:59", "23 06 39 39 35 39 35 39"),
    NO("duration=00:60:00"), NO("duration=00:00:60"), NO("duration=100:00:00"),
    NO("duration=0:00:00"), NO("duration=00:00"), NO("duration=00:00:00:00"),
    NO("duration=00-00-00"), NO("duration=00:00 00"), NO("duration=000000"),
    NO("duration=00:00:00 "), NO("duration="),
    /* terminals */
    IS("terminal=connection 00", "40 02 01 00"),
    IS("terminal=connection 07", "40 02 01 07"),
    NO("terminal=connection 08"), NO("terminal=connection 7"),
    NO("terminal=connection 007"), NO("terminal=connection  7"),
    NO("terminal=connection"), NO("terminal=connection "),
    NO("terminal=connection 07 "), NO("terminal=connection 0707"),
    NO("terminal=connection 4711"), NO("terminal=Connection 07"),
    NO("terminal=connection07"), NO("terminal=connections 07"),
    NO("terminal=01 07"), NO("terminal=07"),
    IS("terminal=number 4711", "40 05 02 34 37 31 31"),
    IS("terminal=number 0", "40 02 02 30"),
    IS("terminal=number  ", "40 02 02 20"),
    IS("terminal=number 0 *#-()9", "40 09 02 30 20 2A 23 2D 28 29 39"),
    NO("terminal=number "), NO("terminal=number"), NO("terminal=number4711"),
    NO("terminal=numbers 1"), NO("terminal=Number 1"),
    NO("terminal=number 12A"), NO("terminal=number \7"),
    NO("terminal=number 1\r"), NO("terminal= number 1"),
    IS("terminal=subaddress 12", "40 03 03 31 32"),
    IS("terminal=subaddress #", "40 02 03 23"),
    NO("terminal=subaddress "), NO("terminal=subaddress"),
    NO("terminal=subaddress +"), NO("terminal=sub 12"), NO("terminal=12"),
    NO("terminal= 12"), NO("terminal= "), NO("terminal="),
    /* displays */
    IS("display=70 ", "50 01 70"), IS("display=70  ", "50 02 70 20"),
    IS("display=01 Call ended", "50 0B 01 43 61 6C 6C 20 65 6E 64 65 64"),
    IS("display=00 ~", "50 02 00 7E"), IS("display=03 3", "50 02 03 33"),
    IS("display=06 =", "50 02 06 3D"), IS("display=7F ", "50 01 7F"),
    IS("display=80 ", "50 01 80"), IS("display=81 ", "50 01 81"),
    IS("display=83 ", "50 01 83"), IS("display=86 ", "50 01 86"),
    IS("display=F0 ", "50 01 F0"), IS("display=FF A", "50 02 FF 41"),
    NO("display=70"), NO("display=7"), NO("display="), NO("display= "),
    NO("display=01Call"), NO("display=01\tCall"), NO("display=01-Call"),
    NO("display=02 "), NO("display=07 "), NO("display=6F "),
    NO("display=82 "), NO("display=87 "), NO("display=EF "),
    NO("display=ff "), NO("display=Ff "), NO("display=7 "), NO("display=070 "),
    NO("display= 70 "), NO("display=Call ended"), NO("display=70 \x7F"),
    NO("display=70 \x1F"), NO("display=70 A\r"), NO("display=70\r"),
    NO("display=70 \0"),
    /* extensions */
    IS("extension=33 ANTH1.0", "E0 0A 33 33 20 41 4E 54 48 31 2E 30"),
    IS("extension=1  FT  1.0", "E0 0A 31 20 20 46 54 20 20 31 2E 30"),
    IS("extension=351FT  1.0", "E0 0A 33 35 31 46 54 20 20 31 2E 30"),
    IS("extension=0         ", "E0 0A 30 20 20 20 20 20 20 20 20 20"),
    NO("extension= 33FT  1.0"), NO("extension=3 3FT  1.0"),
    NO("extension=   FT  1.0"), NO("extension=FT ANTH1.0"),
    NO("extension=33 ANTH1."), NO("extension=33 ANTH1.00"),
    NO("extension=33 ANTH1.\x7F"), NO("extension=33 ANT\x1F" "1.0"),
    NO("extension=33 ANTH1.0\r"), NO("extension="),
    /* keys */
    NO("Caller=7"), NO("CALLER=7"), NO("caller =7"), NO(" caller=7"),
    NO("caller"), NO("caller7"), NO("caller:7"), NO("caller 7"), NO("=7"),
    NO("="), NO(""), NO(" "), NO("7"), NO("callers=7"), NO("calle=7"),
    NO("caller-=7"), NO("callerabsent=P"), NO("caller_absent=P"),
    NO("absent=P"), NO("date=01-01 00:00"), NO("left time=01-01 00:00"),
    NO("networkcaller=7"), NO("network=7"), NO("calltype=01"), NO("type=01"),
    NO("first=7"), NO("charges=--- 08 ----------"), NO("02=7"), NO("at=1"),
    NO("in=1"), NO("number=1"), NO("connection=07"), NO("extensions=x"),
    NO("caller\0=7"), NO("\0caller=7"), NO("carried=1"), NO("edition=0"),
};

static uint8_t sum_before(const uint8_t *o, size_t n)
{
    uint8_t sum = 0;

    for (size_t i = 0; i < n; i++)
        sum = (uint8_t)(sum + o[i]);
    return (uint8_t)(0 - sum);
}

/* The message of this type over n octets of parameters at o[2]; gives its
 * size. */
static size_t frame(uint8_t type, uint8_t *o, size_t n)
{
    o[0] = type;
    o[1] = (uint8_t)n;
    o[n + 2] = sum_before(o, n + 2);
    return n + 3;
}

/* A call with this line alone between its first and its last. */
static void put_values(void)
{
    for (size_t i = 0; i < sizeof values / sizeof *values; i++) {
        const struct value *v = &values[i];
        struct page p = {0, ""};
        uint8_t o[ROOM];

        add_words(&p, "kind=call\n");
        add(&p, v->line, v->n);
        add_words(&p, "\ncarried=0\n");
        if (v->hex) {
            size_t size = frame(0x80, o, octets_of(v->hex, o + 2));
            message_case(&p, size + i % 2, o, size);
        } else {
            refused_case(&p, 12, 61, 2);
        }
    }
}

/* A notice with this line between a lamp and an extension, where it may stand
 * there; a bad one is the third. */
static void put_values_between(void)
{
    for (size_t i = 0; i < sizeof values / sizeof *values; i++) {
        const struct value *v = &values[i];
        struct page p = {0, ""};
        uint8_t o[ROOM];
        size_t n;

        n = 2 + octets_of("0B 01 FF", o + 2);
        n += v->hex ? octets_of(v->hex, o + n) : 0;
        if (v->hex && (o[5] <= 0x0B || o[5] == 0xE0))
            continue;
        n += octets_of("E0 0A 33 33 20 41 4E 54 48 31 2E 30", o + n);
        add_words(&p, "kind=notice\nlamp=on\n");
        add(&p, v->line, v->n);
        add_words(&p, "\nextension=33 ANTH1.0\ncarried=0\n");
        if (v->hex)
            message_case(&p, n + 1 + i % 2, o, frame(0x82, o, n - 2));
        else
            refused_case(&p, 8, 61, 3);
    }
}

/* ---- Lengths of texts ---- */

#define NO_MARK (-1)

/* Behind these words, the longest text that there is, of this character. */
static const struct length {
    const char *words;
    uint8_t type;
    int mark; /* the octet that the words stand for */
    size_t longest;
    char fill;
} lengths[] = {
    {"caller=", 0x02, NO_MARK, 20, '1'},
    {"called=", 0x03, NO_MARK, 20, '2'},
    {"depositor=", 0x0E, NO_MARK, 20, ' '},
    {"network-caller=", 0x10, NO_MARK, 20, '*'},
    {"first-called=", 0x12, NO_MARK, 20, '9'},
    {"redirecting=", 0x1A, NO_MARK, 20, '0'},
    {"name=", 0x07, NO_MARK, 50, 'A'},
    {"provider=", 0x30, NO_MARK, 20, 'B'},
    {"carrier=", 0x31, NO_MARK, 20, '~'},
    {"terminal=number ", 0x40, 0x02, 20, '3'},
    {"terminal=subaddress ", 0x40, 0x03, 20, '#'},
    {"display=70 ", 0x50, 0x70, 252, 'x'},
    {"display=FF ", 0x50, 0xFF, 252, ' '},
};

/* A call with n characters in this text. */
static void length_case(const struct length *l, size_t n)
{
    struct page p = {0, ""};
    uint8_t o[ROOM];
    size_t mark = l->mark == NO_MARK ? 0 : 1;

    add_words(&p, "kind=call\n");
    add_words(&p, l->words);
    add_many(&p, l->fill, n);
    add_words(&p, "\ncarried=0\n");
    if (n > l->longest || (n == 0 && l->type != 0x50)) {
        refused_case(&p, 4, 61, 2);
        return;
    }
    o[2] = l->type;
    o[3] = (uint8_t)(mark + n);
    o[4] = (uint8_t)l->mark;
    memset(o + 4 + mark, l->fill, n);
    message_case(&p, 5 + mark + n, o, frame(0x80, o, 2 + mark + n));
}

static void put_lengths(void)
{
    for (size_t i = 0; i < sizeof lengths / sizeof *lengths; i++) {
        const size_t longest = lengths[i].longest,
                     sizes[] = {0, 1, 2, longest - 1, longest, longest + 1,
                                longest + 2, 254, 255, 256, 257, 258, 300,
                                512 + longest};

        for (size_t k = 0; k < sizeof sizes / sizeof *sizes; k++)
            length_case(&lengths[i], sizes[k]);
    }
}

/* ---- 62, between 61 and 15 ---- */

/* A caller of one digit and a display take so many octets. */
static void add_caller_and_display(struct page *p, size_t octets)
{
    add_words(p, "kind=notice\ncaller=7\ndisplay=00 ");
    add_many(p, 'y', octets - 3 - 3);
    add_words(p, "\n");
}

static void put_full(size_t octets, size_t room)
{
    struct page p = {0, ""};
    uint8_t o[ROOM + 3] = {0, 0, 0x02, 1, '7', 0x50, (uint8_t)(octets - 5), 0};

    add_caller_and_display(&p, octets);
    add_words(&p, "carried=0\n");
    memset(o + 8, 'y', octets - 6);
    if (octets > 255)
        refused_case(&p, room, 62, 0);
    else if (room < octets + 3)
        refused_case(&p, room, 15, octets + 3);
    else
        message_case(&p, room, o, frame(0x82, o, octets));
}

/* The lines are all judged before 62 is said. */
static void put_bad_and_full(void)
{
    static const struct {
        const char *end;
        size_t place;
    } ends[] = {
        {"", 4}, {"carried=0", 4}, {"carried=1\n", 4}, {"carried=0\nx", 5},
        {"carried=0\n\n", 5}, {"display=00 y\ncarried=0\n", 4},
        {"caller=7\ncarried=0\n", 4}, {"service=02\ncarried=0\n", 4},
        {"service=80\n", 5}, {"service=80\ncarried=0", 5},
        {"service=80\ncarried=00\n", 5}, {"service=80\nuser=00\n", 5},
    };

    for (size_t i = 0; i < sizeof ends / sizeof *ends; i++) {
        struct page p = {0, ""};

        add_caller_and_display(&p, 257);
        add_words(&p, ends[i].end);
        refused_case(&p, i % 2 * 8, 61, ends[i].place);
    }
}

/* Words, and a text of so many characters behind them. */
struct part {
    const char *words;
    size_t n;
};

static void add_parts(struct page *p, const struct part *of, size_t parts)
{
    for (size_t i = 0; i < parts; i++) {
        add_words(p, of[i].words);
        add_many(p, '5', of[i].n);
        add_words(p, "\n");
    }
}

/* Numbers and texts as long as they get, which take 251 octets; with a service
 * 254, and with a mark alone besides 257. */
static void put_longest(void)
{
    static const struct part parts[] = {
        {"kind=call\ncaller=", 20}, {"called=", 20}, {"name=", 50},
        {"depositor=", 20}, {"network-caller=", 20}, {"first-called=", 20},
        {"redirecting=", 20}, {"provider=", 20}, {"carrier=", 20},
        {"terminal=number ", 20},
    };
    static const struct {
        const char *end;
        unsigned number;
        size_t place;
    } ends[] = {
        {"carried=0\n", 15, 254},
        {"service=80\ncarried=0\n", 15, 257},
        {"display=00 \nservice=80\ncarried=0\n", 62, 0},
    };

    for (size_t i = 0; i < sizeof ends / sizeof *ends; i++) {
        struct page p = {0, ""};

        add_parts(&p, parts, sizeof parts / sizeof *parts);
        add_words(&p, ends[i].end);
        refused_case(&p, 253, ends[i].number, ends[i].place);
    }
}

/* Every key with the longest value that it has, of each pair the longer one:
 * 619 octets on 27 lines. */
static void put_largest(void)
{
    static const struct part parts[] = {
        {"kind=call\ntime=12-31 23:59\ncaller=", 20}, {"called=", 20},
        {"name=", 50}, {"lamp=off\nmessage=unset 65535\ndepositor=", 20},
        {"left-time=12-31 23:59:59\nnetwork-caller=", 20},
        {"call-type=FF\nfirst-called=", 20},
        {"waiting=255\nforwarded=FF\nuser=0F\nredirecting=", 20},
        {"charge=GBP 10 000450,123\nadditional-charge=GBP 10 000450,123\n"
         "extra-charge=GBP 10 000450,123\nduration=99:59:59\nprovider=", 20},
        {"carrier=", 20}, {"terminal=subaddress ", 20}, {"display=FF ", 252},
        {"service=FF\nextension=351ANTH1.0", 0},
    };
    struct page p = {0, ""};

    add_parts(&p, parts, sizeof parts / sizeof *parts);
    refused_case(&p, 300, 61, 27);
    add_words(&p, "carried=0\n");
    refused_case(&p, 300, 62, 0);
    refused_case(&p, 0, 62, 0);
    add_words(&p, "\n");
    refused_case(&p, 300, 61, 28);
}

static void put_limits(void)
{
    for (size_t octets = 250; octets <= 258; octets++) {
        put_full(octets, octets + 3);
        put_full(octets, octets + 5);
        put_full(octets, octets + 2);
    }
    put_full(255, 0);
    put_full(256, 0);
    put_full(256, 300);
    put_full(255, 300);
    put_bad_and_full();
    put_longest();
    put_largest();
}

/* ---- Texts that are longer than any listing ---- */

static void put_long(const char *begin, const char *part, size_t times,
                     const char *end, size_t place)
{
    struct page p = {0, ""};

    add_words(&p, begin);
    for (size_t i = 0; i < times; i++)
        add_words(&p, part);
    add_words(&p, end);
    refused_case(&p, 8, 61, place);
}

static void put_long_ones(void)
{
    put_long("", "x", TEXT, "", 1);
    put_long("", "\n", TEXT, "", 1);
    put_long("kind=", "call", 1000, "\n", 1);
    put_long("kind=call\n", "\n", 4000, "", 2);
    put_long("kind=call\n", "caller=7\n", 400, "carried=0\n", 3);
    put_long("kind=call\ncaller=", "7", 4000, "\ncarried=0\n", 2);
    put_long("kind=call\nname=", "A", 4000, "\ncarried=0\n", 2);
    put_long("kind=call\ndisplay=70 ", "x", 4000, "\ncarried=0\n", 2);
    put_long("kind=call\nwaiting=", "0", 4000, "\ncarried=0\n", 2);
    put_long("kind=call\nwaiting=", "1", 4000, "\ncarried=0\n", 2);
    put_long("kind=call\nmessage=on ", "9", 4000, "\ncarried=0\n", 2);
    put_long("kind=call\ncall-type=", "01", 2000, "\ncarried=0\n", 2);
    put_long("kind=call\ncaller=7\n", "carried=0", 400, "\n", 3);
    put_long("kind=call\ncaller=7\ncarried=0\n", "carried=0\n", 400, "", 4);
    put_long("kind=call\ncaller=7\ncarried=0\n", "z", 4000, "", 4);
    put_long("kind=call\ncaller=7\n", "z", 4000, "", 3);
    put_long(SEVEN, SEVEN, 100, "", 4);
    put_long("kind=call\nleft-time=06-15 14:30", ":00", 1000,
             "\ncarried=0\n", 2);
    put_long("kind=call\nduration=00", ":00", 1000, "\ncarried=0\n", 2);
}

/* ---- What the second reader says, and which lines it may name ---- */

/* Whether the listing may be good, so that 61 is not said; and where it may be
 * bad, the lines that 61 may be at. */
struct hope {
    enum { NEVER, PERHAPS, ALWAYS } good;
    size_t least, most;
};

static const struct hope good = {ALWAYS, 1, 0};

static struct hope bad_at(size_t line)
{
    return (struct hope){NEVER, line, line};
}

/* Good, or bad at this line. */
static struct hope perhaps_at(size_t line)
{
    return (struct hope){PERHAPS, line, line};
}

static struct second_made hoped_case(const struct page *p, size_t room,
                                     struct hope h, uint8_t area[ROOM + 1])
{
    struct second_made made = say(p->text, p->n, room, area);
    char what[80];

    put(p->text, p->n, room, said);
    if (made.number != 61 && h.good == NEVER)
        complain(p->text, p->n, "must be bad");
    if (made.number == 61 && (made.place < h.least || made.place > h.most)) {
        sprintf(what, h.good == ALWAYS ? "must be good"
                                       : "must be bad from %zu to %zu, if so",
                h.least, h.most);
        complain(p->text, p->n, what);
    }
    return made;
}

static void second_case(const struct page *p, size_t room, struct hope h)
{
    uint8_t area[ROOM + 1];

    hoped_case(p, room, h, area);
}

/* ---- Every octet to 80H, and some above, in one place of a line ---- */

#define VALUE(before, after) {"kind=call\n" before, after "\ncarried=0\n", 2}

static const struct {
    const char *before, *after;
    size_t line;
} places[] = {
    {"kind=cal", "\ncaller=7\ncarried=0\n", 1},
    {"kind=call", "\ncaller=7\ncarried=0\n", 1},
    {"kind=call\ncaller=7\ncarried=", "\n", 3},
    {"kind=call\ncaller=7\ncarried=0", "\n", 3},
    {"kind=call\ncaller=7\ncarried=0\n", "", 4},
    VALUE("cal", "er=7"),
    VALUE("caller", "7"),
    VALUE("caller=", ""),
    VALUE("caller=7", ""),
    VALUE("caller-absent=", ""),
    VALUE("name=", ""),
    VALUE("lamp=o", ""),
    VALUE("message=on ", ""),
    VALUE("message=on 0", ""),
    VALUE("message=on 6553", ""),
    VALUE("message=on", "1"),
    VALUE("time=0", "-01 00:00"),
    VALUE("time=01-3", " 00:00"),
    VALUE("time=01-01 00", "00"),
    VALUE("left-time=01-01 00:00", ""),
    VALUE("left-time=01-01 00:00", "00"),
    VALUE("call-type=", "1"),
    VALUE("call-type=F", ""),
    VALUE("user=0", ""),
    VALUE("waiting=", ""),
    VALUE("waiting=0", ""),
    VALUE("waiting=25", ""),
    VALUE("charge=GB", " 00 0000000000"),
    VALUE("charge=--- ", "8 ----------"),
    VALUE("charge=GBP 00 00000", ",000"),
    VALUE("duration=00:00", "00"),
    VALUE("provider=", ""),
    VALUE("terminal=connection 0", ""),
    VALUE("terminal=number ", ""),
    VALUE("display=7", " "),
    VALUE("display=70", ""),
    VALUE("display=70 ", ""),
    VALUE("service=8", ""),
    VALUE("extension=3", " ANTH1.0"),
    VALUE("extension=33 ANTH1.", ""),
};

static void put_octets(void)
{
    for (size_t i = 0; i < sizeof places / sizeof *places; i++)
        for (unsigned x = 0; x < 256; x++) {
            struct hope h = perhaps_at(places[i].line);
            struct page p = {0, ""};

            if (x > 0x80 && x % 5)
                continue;
            add_words(&p, places[i].before);
            add_many(&p, (char)x, 1);
            add_words(&p, places[i].after);
            h.most += x == '\n' ? 1 : 0;
            second_case(&p, 6, h);
        }
}

/* ---- Two hex digits, decimal numbers, days at the limits of months ---- */

static const char *const hex_values[] = {
    "call-type=%02X", "forwarded=%02X", "user=%02X", "service=%02X",
    "display=%02X ", "terminal=connection %02X", "charge=GBP %02X 0000000000",
    "charge=--- %02X ----------", "charge=--- %02X 00000-----",
};

static void formatted_case(const char *format, unsigned x, size_t room)
{
    struct page p = {0, "kind=notice\n"};
    size_t n = strlen(p.text);

    p.n = n + (size_t)sprintf(p.text + n, format, x);
    add_words(&p, "\ncarried=0\n");
    second_case(&p, room, perhaps_at(2));
}

static void put_numbers(void)
{
    for (size_t i = 0; i < sizeof hex_values / sizeof *hex_values; i++)
        for (unsigned x = 0; x < 256; x++)
            formatted_case(hex_values[i], x, i < 6 ? 7 : 19);
    for (unsigned x = 0; x <= 300; x++)
        formatted_case("waiting=%u", x, 6);
    for (unsigned x = 0; x <= 70000; x += x < 300 ? 23 : 997)
        formatted_case("message=unset %u", x, 8);
    for (unsigned x = 65525; x <= 65545; x++)
        formatted_case("message=on %u", x, 9);
}

static void put_days(void)
{
    for (unsigned month = 0; month <= 13; month++)
        for (unsigned day = 0; day <= 32; day++) {
            struct page p = {0, ""};
            char value[40];

            if (day > 1 && day < 28)
                continue;
            sprintf(value, "time=%02u-%02u 23:59\n", month, day);
            add_words(&p, "kind=call\n");
            add_words(&p, value);
            add_words(&p, "carried=0\n");
            second_case(&p, 13, perhaps_at(2));
            p.n -= strlen(value) + strlen("carried=0\n");
            sprintf(value, "left-time=%02u-%02u 00:00%s\n", month, day,
                    day % 2 ? "" : ":59");
            add_words(&p, value);
            add_words(&p, "carried=0\n");
            second_case(&p, 15, perhaps_at(2));
        }
}

/* ---- Listings that are damaged in every line ---- */

/* Lines are numbered from 1, at most 27 in a listing; line k is
 * text[begin[k]..begin[k + 1]), its end included. */
struct listing {
    struct page page;
    size_t lines, room;
    size_t begin[32];
};

static void take_lines(struct listing *l)
{
    l->lines = 0;
    l->begin[1] = 0;
    for (size_t i = 0; i < l->page.n; i++) {
        if (l->page.text[i] == '\n')
            l->begin[++l->lines + 1] = i + 1;
    }
}

static const char *line_of(const struct listing *l, size_t k)
{
    return l->page.text + l->begin[k];
}

static int has_key(const struct listing *l, size_t k, const char *key)
{
    return strncmp(line_of(l, k), key, strlen(key)) == 0;
}

/* Lines from the k-th to the last-th. */
static void add_lines(struct page *p, const struct listing *l, size_t k,
                      size_t last)
{
    if (k <= last)
        add(p, line_of(l, k), l->begin[last + 1] - l->begin[k]);
}

/* The listing, with these words at a place instead of so many octets. */
static void put_instead(const struct listing *l, size_t at, size_t octets,
                        const char *words, size_t n, struct hope h)
{
    struct page p = {0, ""};

    add(&p, l->page.text, at);
    add(&p, words, n);
    add(&p, l->page.text + at + octets, l->page.n - at - octets);
    second_case(&p, l->room, h);
}

/* Where the value begins in line k, and how many octets it has. */
static size_t value_of(const struct listing *l, size_t k, size_t *n)
{
    size_t at = l->begin[k];

    while (l->page.text[at] != '=')
        at++;
    *n = l->begin[k + 1] - 1 - (at + 1);
    return at + 1;
}

/* A character of the key is one that no key has. */
static void damage_key(struct traffic *t, const struct listing *l, size_t k)
{
    static const char no_key[] = "ALZ_09 =.\n\r\t\0\x80\xE3";
    size_t n, at = l->begin[k], key = value_of(l, k, &n) - 1 - at;
    char c = no_key[traffic_number(t, sizeof no_key - 1)];

    put_instead(l, at + traffic_number(t, (uint32_t)key), 1, &c, 1, bad_at(k));
}

/* It is another letter, and caller and called are keys both; it is not
 * there. */
static void damage_letter(struct traffic *t, const struct listing *l, size_t k)
{
    size_t n, at = l->begin[k], key = value_of(l, k, &n) - 1 - at;
    char c = (char)('a' + traffic_number(t, 26));

    at += traffic_number(t, (uint32_t)key);
    if (c == l->page.text[at])
        c = c == 'z' ? 'a' : (char)(c + 1);
    put_instead(l, at, 1, &c, 1, perhaps_at(k));
    put_instead(l, at, 1, "", 0, bad_at(k));
}

/* Exchanged with the next line. The second of the two is bad, but the first
 * where no listing begins so, or ends without a value. */
static void damage_order(const struct listing *l, size_t k)
{
    struct page p = {0, ""};
    size_t bad = k == 1 ? 1 : k == 2 && l->lines == 3 ? 2 : k + 1;

    add_lines(&p, l, 1, k - 1);
    add_lines(&p, l, k + 1, k + 1);
    add_lines(&p, l, k, k);
    add_lines(&p, l, k + 2, l->lines);
    second_case(&p, l->room, bad_at(bad));
}

static char some_character(struct traffic *t)
{
    static const char often[] = "0123456789ABCDEFabcdef -:,*#()=OPQ~";

    switch (traffic_number(t, 6)) {
    case 0:
        return (char)(0x20 + traffic_number(t, 0x5F));
    case 1:
        return "\r\t\0\x7F\x80\xB0\xFF"[traffic_number(t, 7)];
    default:
        return often[traffic_number(t, sizeof often - 1)];
    }
}

/* What one other character in line k comes to: kind and end have no others. */
static struct hope of_value(const struct listing *l, size_t k)
{
    return k > 1 && k < l->lines ? perhaps_at(k) : bad_at(k);
}

/* A character of the value is another. */
static void change_value(struct traffic *t, const struct listing *l, size_t k)
{
    size_t n, at = value_of(l, k, &n);
    char c;

    at += traffic_number(t, (uint32_t)n);
    do {
        c = some_character(t);
    } while (c == l->page.text[at]);
    put_instead(l, at, 1, &c, 1, of_value(l, k));
}

/* Another, one less, one more: a zero before it. */
static void damage_value(struct traffic *t, const struct listing *l, size_t k)
{
    size_t n, at = value_of(l, k, &n);

    change_value(t, l, k);
    put_instead(l, at + n - 1, 1, "", 0, of_value(l, k));
    put_instead(l, at, 0, "0", 1, of_value(l, k));
}

/* Its first letter is small for capital, or the other way round. */
static void change_case(const struct listing *l, size_t k)
{
    size_t n, at = value_of(l, k, &n);

    for (size_t i = 0; i < n; i++) {
        char c = l->page.text[at + i];

        if ((c >= 'A' && c <= 'Z') || (c >= 'a' && c <= 'z')) {
            c = (char)(c ^ 0x20);
            put_instead(l, at + i, 1, &c, 1, of_value(l, k));
            break;
        }
    }
}

/* A line end in it, nothing of it, one less or one more anywhere, a CR behind
 * it. */
static void damage_value_more(struct traffic *t, const struct listing *l,
                              size_t k)
{
    struct hope split = {PERHAPS, k, k + 1};
    size_t n, at = value_of(l, k, &n);
    char c = some_character(t);

    change_value(t, l, k);
    change_case(l, k);
    put_instead(l, at + traffic_number(t, (uint32_t)n), 1, "\n", 1, split);
    put_instead(l, at, n, "", 0, bad_at(k));
    put_instead(l, at + traffic_number(t, (uint32_t)n), 1, "", 0,
                of_value(l, k));
    put_instead(l, at + traffic_number(t, (uint32_t)n + 1), 0, &c, 1,
                of_value(l, k));
    put_instead(l, at + n, 0, "\r", 1, bad_at(k));
}

static void damage_repeat(const struct listing *l, size_t k)
{
    struct page p = {0, ""};

    add_lines(&p, l, 1, k);
    add_lines(&p, l, k, l->lines);
    second_case(&p, l->room, bad_at(k + 1));
}

/* The other of its pair, in its place: the later of the two is bad. Between
 * the caller and its absence may stand the number that is called. */
static void damage_pair(const struct listing *l, size_t k)
{
    static const char *const pairs[2][4] = {
        {"caller=", "caller=7\n", "caller-absent=", "caller-absent=O\n"},
        {"name=", "name=A\n", "name-absent=", "name-absent=P\n"},
    };

    for (size_t i = 0; i < 2; i++) {
        const char *const *pair = pairs[i];
        size_t at = k;

        if (has_key(l, k, pair[0])) {
            at = has_key(l, k + 1, "called=") ? k + 2 : k + 1;
            put_instead(l, l->begin[at], 0, pair[3], strlen(pair[3]),
                        bad_at(at));
        } else if (has_key(l, k, pair[2])) {
            if (i == 0 && has_key(l, k - 1, "called="))
                at = k - 1;
            put_instead(l, l->begin[at], 0, pair[1], strlen(pair[1]),
                        bad_at(k + 1));
        }
    }
}

/* A text may take up the next line, and then even the end. */
static void damage_end(const struct listing *l, size_t k)
{
    int text = has_key(l, k, "name=") || has_key(l, k, "provider=")
        || has_key(l, k, "carrier=") || has_key(l, k, "display=");
    struct hope taken_up = {PERHAPS, k, k + 1};

    put_instead(l, l->begin[k + 1] - 1, 1, "", 0, text ? taken_up : bad_at(k));
}

/* A listing goes on without a value, unless it was the only one. */
static void damage_missing(const struct listing *l, size_t k)
{
    struct hope h = k == 1 || k == l->lines ? bad_at(k)
                    : l->lines == 3         ? bad_at(2)
                                            : good;

    put_instead(l, l->begin[k], l->begin[k + 1] - l->begin[k], "", 0, h);
}

/* A CR for the line end; nothing from the line's end on, or from its beginning
 * on. */
static void damage_end_more(const struct listing *l, size_t k)
{
    struct page p = {0, ""};

    put_instead(l, l->begin[k + 1] - 1, 1, "\r", 1, bad_at(k));
    add(&p, l->page.text, l->begin[k + 1] - 1);
    second_case(&p, 3, bad_at(k));
    p.n = l->begin[k];
    second_case(&p, 3, bad_at(k));
}

/* Each line, each way; short listings in some ways more. */
static void damage(struct traffic *t, struct listing *l, size_t room)
{
    take_lines(l);
    l->room = room;
    for (size_t k = 1; k <= l->lines; k++) {
        damage_key(t, l, k);
        if (k < l->lines)
            damage_order(l, k);
        damage_value(t, l, k);
        damage_repeat(l, k);
        damage_pair(l, k);
        damage_end(l, k);
        damage_missing(l, k);
        if (l->lines > 12)
            continue;
        damage_letter(t, l, k);
        damage_value_more(t, l, k);
        damage_end_more(l, k);
    }
}

/* ---- Traffic ---- */

/* What counts in an accepted message, in the order of the types, as a message
 * of its own; 0 where nothing counts, or it is none. */
static size_t settled(const uint8_t *o, size_t n, uint8_t *out)
{
    size_t place = 2, start, length;

    for (unsigned type = 0; type < 256; type++) {
        if (!second_counted(SECOND_PRESENT, SECOND_LENIENT, o, n,
                            (uint8_t)type, &start, &length))
            continue;
        out[place] = (uint8_t)type;
        out[place + 1] = (uint8_t)length;
        memcpy(out + place + 2, o + start, length);
        place += 2 + length;
    }
    return place > 2 ? frame(o[0], out, place - 2) : 0;
}

/* The next message of which something counts, settled; by turns of listed
 * types alone and with others among them, now and then with a date at a limit
 * of its month. */
static size_t next_settled(struct traffic *t, unsigned turn, uint8_t *out)
{
    uint8_t o[TRAFFIC_OCTETS];
    size_t n, size;

    t->edition = SECOND_PRESENT;
    do {
        t->way = turn % 2 ? SECOND_STRICT : SECOND_LENIENT;
        n = turn % DATED_EVERY == 0 ? traffic_dated(t, o) : traffic_next(t, o);
        size = settled(o, n, out);
    } while (size == 0);
    return size;
}

/* Its listing comes back as the message itself, or, where the area is one octet
 * short, not at all. */
static void put_there_and_back(struct traffic *t, const uint8_t *o, size_t n)
{
    struct page p = {0, ""};
    uint8_t area[ROOM + 1];
    struct second_made made;
    size_t room = n + traffic_number(t, 4);

    if (traffic_number(t, 16) == 0)
        room = n - 1;
    p.n = second_listing(o, n, p.text);
    made = hoped_case(&p, room, good, area);
    if (room < n ? made.number != 15 || made.place != n
                 : made.number || made.size != n || memcmp(area, o, n))
        complain(p.text, p.n, room < n ? "must be 15" : "must be its message");
}

static void put_messages(struct traffic *t)
{
    uint8_t o[TRAFFIC_OCTETS];
    unsigned turn = 0, kept = 0, passed = 0;

    while (kept < MESSAGES) {
        size_t n = next_settled(t, turn++, o);
        if (n > SHORT && ++passed % LONG_EVERY)
            continue;
        kept++;
        put_there_and_back(t, o, n);
    }
}

/* Listings of traffic, and those of all keys. */
static void put_damaged(struct traffic *t)
{
    struct listing l;
    uint8_t o[TRAFFIC_OCTETS];

    for (unsigned kept = 0; kept < DAMAGED;) {
        size_t n = next_settled(t, kept, o);
        if (n > SHORT || (kept % 4 && n < 10))
            continue;
        kept++;
        l.page.n = second_listing(o, n, l.page.text);
        damage(t, &l, n + kept % 2);
    }
    l.page.n = 0;
    add_words(&l.page, ALL_KEYS);
    damage(t, &l, 195);
    l.page.n = 0;
    add_words(&l.page, ABSENT_KEYS);
    damage(t, &l, 149);
}

/* ---- Listings gathered from traffic ---- */

/* The last contents of each type. */
static struct {
    uint8_t n, c[SECOND_TEXTS];
} stock[256];

static void fill_stock(const uint8_t *o)
{
    for (size_t at = 2; at < o[1] + 2u; at += 2u + o[at + 1]) {
        stock[o[at]].n = o[at + 1];
        memcpy(stock[o[at]].c, o + at + 2, o[at + 1]);
    }
}

/* The line of the type's contents in stock, as it is listed alone. */
static void add_stock(struct page *p, uint8_t type)
{
    static const char before[] = "kind=call\n", behind[] = "carried=0\n";
    const size_t around = strlen(before) + strlen(behind);
    char text[SECOND_LISTING];
    uint8_t o[ROOM];
    size_t n;

    o[2] = type;
    o[3] = stock[type].n;
    memcpy(o + 4, stock[type].c, stock[type].n);
    n = second_listing(o, frame(0x80, o, 2u + stock[type].n), text);
    if (n > around)
        add(p, text + strlen(before), n - around);
}

/* Some types, one at least, and of each pair no more; gives the octets that
 * they take. */
static size_t choose_types(struct traffic *t, uint8_t chosen[256])
{
    uint32_t of = 2 + traffic_number(t, 4);
    size_t octets = 0;

    do {
        for (unsigned type = 0; type < 256; type++)
            chosen[type] = stock[type].n > 0 && traffic_number(t, of) > 0;
        chosen[chosen[0x02] ? 0x04 : 0x02] = 0;
        chosen[traffic_number(t, 2) ? 0x07 : 0x08] = 0;
        for (unsigned type = 0; type < 256; type++)
            octets += chosen[type] ? 2u + stock[type].n : 0;
    } while (octets == 0);
    return octets;
}

/* With a display such that all take about 255 octets, if there is one. */
static size_t fill_up(struct traffic *t, uint8_t chosen[256], size_t octets)
{
    size_t whole = 250 + traffic_number(t, 11);
    size_t others = octets - (chosen[0x50] ? 2u + stock[0x50].n : 0u);

    if (whole < others + 3 || whole > others + 255)
        return octets;
    chosen[0x50] = 1;
    stock[0x50].n = (uint8_t)(whole - others - 2);
    memset(stock[0x50].c, 'D', stock[0x50].n);
    stock[0x50].c[0] = 0x70;
    return whole;
}

/* Kind and values of these types; gives the number of lines. */
static size_t gather(struct traffic *t, const uint8_t chosen[256],
                     struct page *p)
{
    size_t count = 1;

    add_words(p, traffic_number(t, 2) ? "kind=call\n" : "kind=notice\n");
    for (unsigned type = 0; type < 256; type++) {
        if (chosen[type]) {
            add_stock(p, (uint8_t)type);
            count++;
        }
    }
    return count;
}

/* Its parameters take so many octets, its area has room for them or not; now
 * and then its end is bad, which goes before both. */
static void put_gathered(struct traffic *t)
{
    static const struct {
        const char *words;
        size_t bad; /* 1 for the last line, 2 for the one behind it */
    } ends[] = {{"carried=0\n", 0}, {"carried=0\n", 0}, {"carried=0\n", 0},
                {"carried=0", 1}, {"carried=1\n", 1}, {"", 1},
                {"carried=0\n\n", 2}};
    const size_t end = traffic_number(t, sizeof ends / sizeof *ends);
    struct page p = {0, ""};
    uint8_t chosen[256], area[ROOM + 1];
    size_t octets = choose_types(t, chosen), room = traffic_number(t, 8);
    size_t bad;
    unsigned number;

    if (traffic_number(t, 4))
        octets = fill_up(t, chosen, octets);
    if (octets <= 255 && traffic_number(t, 2))
        room = octets + 3;
    bad = gather(t, chosen, &p) + ends[end].bad;
    add_words(&p, ends[end].words);
    number = octets > 255 ? 62 : room < octets + 3 ? 15 : 0;
    if (ends[end].bad)
        number = 61;
    if (hoped_case(&p, room, ends[end].bad ? bad_at(bad) : good, area).number
        != number)
        complain(p.text, p.n, octets > 255 ? "must be 62, or 61"
                                           : "must not be 62");
}

static void put_gathered_ones(struct traffic *t)
{
    uint8_t o[TRAFFIC_OCTETS];

    for (unsigned turn = 0; turn < 400; turn++) {
        next_settled(t, turn, o);
        fill_stock(o);
    }
    for (unsigned turn = 0; turn < GATHERED; turn++) {
        next_settled(t, turn, o);
        fill_stock(o);
        put_gathered(t);
    }
}

int main(int argc, char **argv)
{
    struct traffic t;

    if (argc != 3)
        return 2;
    cases = fopen(argv[1], "wb");
    lines = fopen(argv[2], "wb");
    if (!cases || !lines)
        return 2;
    put_rows();
    put_values();
    put_values_between();
    put_lengths();
    put_limits();
    put_long_ones();
    put_octets();
    put_numbers();
    put_days();
    traffic_start(&t, 61);
    put_damaged(&t);
    put_messages(&t);
    put_gathered_ones(&t);
    wrong |= ferror(cases) | ferror(lines);
    wrong |= fclose(cases) | fclose(lines);
    return wrong ? 1 : 0;
}
