/*
 * The second reader: an independent reading of 01 to compare the built
 * listener, reader, desk, caption finder and showmsg against, and the way back
 * from listings to messages (02, Q-1). It starts from whole messages ("The
 * message") and derives every other answer from them.
 * Every question names the edition and the way: the present edition's types
 * are 01's table and the rest of source 004's (02, Q-4), the old one's are
 * source 001's (02, Q-5); types without a row in the edition's own table are
 * refused by the strict way, and carried by the lenient one (02, Q-11).
 * Clarity comes before speed.
 */
#ifndef SECOND_H
#define SECOND_H

#include <stddef.h>
#include <stdint.h>

/* ---- Editions (02, Q-5) and ways (02, Q-11) ---- */

/* All other numbers are unknown, of an edition as of a way: 16, at 0 in 0,
 * ahead of all numbers but 17; the answer then names no edition, and its field
 * is 0. No answer names the way. */
enum { SECOND_PRESENT, SECOND_OLD, SECOND_EDITIONS };
enum { SECOND_STRICT, SECOND_LENIENT, SECOND_WAYS };

/* ---- Is it a message? ("The message") ---- */

/* 1 if o[0..n) is, from its first octet to its last, one accepted message of
 * the edition by the way. By an unknown number there is none. */
int second_is_message(uint8_t edition, uint8_t way, const uint8_t *o,
                      size_t n);

/* 1 if some accepted message begins with o[0..n) and is longer than n. */
int second_can_go_on(uint8_t edition, uint8_t way, const uint8_t *o, size_t n);

/* How many parameters begin among o[0..n), carried ones and repeats too: those
 * whose type octet is there (02, Q-3), whatever the way. The octets are a
 * message or begin one; the last may be the one that spoils it. */
size_t second_begun(uint8_t edition, const uint8_t *o, size_t n);

/* ---- "Listening" ---- */

enum { SECOND_WAITS, SECOND_MESSAGE, SECOND_REFUSED };

/* Fields without a meaning for the answer are 0. */
struct second_answer {
    int answer;       /* SECOND_WAITS, SECOND_MESSAGE or SECOND_REFUSED */
    unsigned number;  /* 1 to 6 or 10 when refused, or 16 */
    size_t place;     /* of the spoiling octet, counted from the reset */
    size_t parameter; /* that it belongs to, from 1, or 0 (02, Q-3) */
    size_t size;      /* of the message */
    size_t taken;     /* octets taken since the reset, spoiling one included */
    uint8_t edition;  /* that the answer names */
};

/* What a listener says that was offered o[0..n) since its reset. */
struct second_answer second_listen(uint8_t edition, uint8_t way,
                                   const uint8_t *o, size_t n);

/* ---- "Drafts" and the whole read ---- */

struct second_verdict {
    unsigned number;  /* 0: not declined */
    size_t place;
    size_t parameter; /* at fault, from 1; 0 where it is none (02, Q-3) */
    uint8_t edition;  /* that the answer names; 0 with 16 and 17 */
};

enum {
    SECOND_CODE, SECOND_DATE, SECOND_STATE, SECOND_TEXT, SECOND_CARRIED,
    SECOND_MOMENT,   /* 0FH: a date, perhaps with seconds */
    SECOND_DURATION, /* 23H */
    SECOND_MARKED    /* 40H and 50H: an octet, and a text behind it */
};

#define SECOND_ENTRIES 85
#define SECOND_TEXTS 253

/*
 * number[] holds: a code's octet; a date's month, day, hour and minute; a
 * state's octet and reference; a moment's month, day, hour, minute and, where
 * seconds were sent, one more than these; a duration's hours, minutes and
 * seconds; a mark. start and length are a text's, in the packed texts; a
 * marked text is what stands behind its mark, of 50H perhaps nothing, and its
 * start is then where the next text's would be. What a kind does not use is 0,
 * an unused entry is all zeros, and so are the octets of texts[] from
 * text_octets on.
 */
struct second_entry {
    uint8_t type;
    uint8_t kind;
    uint16_t number[5];
    uint16_t start;
    uint16_t length;
};

struct second_draft {
    uint8_t message_type;
    uint8_t edition;
    uint8_t entries;
    uint16_t text_octets;
    struct second_entry entry[SECOND_ENTRIES];
    uint8_t texts[SECOND_TEXTS];
};

/* The whole read with a text area of area_len octets: declines with 16, 1 to 6
 * or 10, 8, 7 or 9, the draft then holding what it held; else the draft is
 * set. A draft holds no way. */
struct second_verdict second_read(uint8_t edition, uint8_t way,
                                  const uint8_t *o, size_t n, size_t area_len,
                                  struct second_draft *draft);

/* ---- "The desk", and Q-6 of 02 ---- */

#define SECOND_UNKNOWN (-1)

#define SECOND_FREE (-1)
#define SECOND_PLACES 16

struct second_desk {
    int waiting; /* SECOND_UNKNOWN or 0 to 255 */
    int lamp;    /* SECOND_UNKNOWN, 0 off, 1 on */
    long open[SECOND_PLACES]; /* SECOND_FREE or a reference, 0 to 65,535 */
};

void second_clear(struct second_desk *desk);

/* Settles a notice: 0, or 17 for a desk out of range or with a reference
 * twice, or 16, or 1 to 8 or 10, or 21 for a reference without a place. */
struct second_verdict second_settle(uint8_t edition, uint8_t way,
                                    struct second_desk *desk, const uint8_t *o,
                                    size_t n);

/* ---- "What counts" ---- */

/* 1 if o[0..n) is an accepted message of the edition by the way, in which a
 * parameter of this type, which the edition lists, counts; its contents are
 * then o[start..start+length). Else 0, and start and length stay. */
int second_counted(uint8_t edition, uint8_t way, const uint8_t *o, size_t n,
                   uint8_t type, size_t *start, size_t *length);

/* ---- "What showmsg prints" ---- */

#define SECOND_LISTING 1024

/* What showmsg prints for o[0..n), without a closing zero. out has room for
 * SECOND_LISTING octets, and the longest listing has 542; at most 259 octets of
 * o are looked at. Listings are of the present edition, by the lenient way. */
size_t second_listing(const uint8_t *o, size_t n, char *out);

/* ---- "The caption" ---- */

enum { SECOND_IN_MESSAGE, SECOND_IN_DIRECTORY };

struct second_part {
    unsigned number;  /* 0, or 16, 1 to 8 or 10 with the empty part at 0 */
    size_t place;
    size_t parameter; /* at fault, likewise */
    uint8_t edition;  /* that the answer names */
    int slice;        /* SECOND_IN_MESSAGE or SECOND_IN_DIRECTORY */
    size_t start;
    size_t length;
};

struct second_part second_caption(uint8_t edition, uint8_t way,
                                  const uint8_t *o, size_t n,
                                  const uint8_t *directory, size_t octets);

/* ---- Listings come back as messages (02, Q-1) ---- */

/* Fields without a meaning for the answer are 0. */
struct second_made {
    unsigned number; /* 0, or 61, 62 or 15 */
    size_t place;    /* of 61 the line, from 1; of 15 the octets needed */
    size_t size;     /* of the message */
    uint8_t edition; /* that the answer names: the present one, as listings */
};

/*
 * The message that has one parameter for each value line of the listing
 * text[0..n), laid down in out[0..room). A listing is what showmsg prints of a
 * message with nothing carried, but that its parameters may pass 255 octets.
 * 61 is at the first line that no listing has behind the lines before it, be it
 * one that is not ended, or not there; then 62, the parameters pass 255 octets,
 * at 0; then 15. With a refusal out stays as it was; with a message the octets
 * behind it do.
 */
struct second_made second_message_of(const char *text, size_t n, uint8_t *out,
                                     size_t room);

#endif
