/*
 * Anthercup for the boxes' firmware: the listener, the reader, what counts, the
 * caption and the desk (document 01, Listening, Drafts, What counts, The
 * caption and The desk; document 02, Q-2, Q-3, Q-4, Q-5, Q-6 and Q-11).
 *
 * Link with the archive: cc app.c -lanthercup (tools/install puts header,
 * archive and a pkg-config file in place). The archive is for x86-64 alone,
 * position-independent, uses SSE registers and needs memset of the
 * C library. It has no data of its own: calls on different records may run at
 * the same time, in threads or interrupts. Stack, measured on the deepest
 * message: read, settle, counted, caption and listen use less than 1,000 octets
 * each.
 *
 * What the caller owes. Octets are handed over as a pointer and a length. A
 * pointer is never null, also where the length is 0, and what is lent for
 * writing overlaps nothing else. The octets of a message, from the reset on,
 * are held by the caller: 258 suffice; read, counted, caption and settle want
 * them whole.
 * Indices of entries are below ANTHERCUP_MOST_ENTRIES, places of a desk below
 * ANTHERCUP_MOST_PLACES.
 *
 * Anything else may be handed in: a record of another size, or one that holds
 * a code or number out of range, gets number 17 and stays as it was; an
 * edition or a way that is unknown gets 16, and nothing lent changes. No
 * function keeps a pointer, allocates, or fails to return.
 *
 * Two editions. ANTHERCUP_PRESENT (0) is what the exchanges of today send;
 * ANTHERCUP_OLD (1) is the old sheet, to which some exchanges were built. Ask
 * which one the line's exchange speaks: neither edition contains the other, and
 * a message does not say its own. What may stand in a parameter of a type, by
 * edition (n is the length of its contents):
 *
 *   type  present                           old
 *   01H   n 8: month 01-12, a day that the month has (February 29), hour
 *         00-23, minute 00-59, as digits    the same
 *   02H   n 1-20: 0-9 * # space - ( )       n 1-18: 0-9
 *   03H   as 02H                            not listed
 *   04H   n 1: O or P                       the same
 *   07H   n 1-50: 20H-7EH                   n 1-20: 20H-7EH
 *   08H   n 1: O or P                       not listed
 *   0BH   n 1: 00H or FFH                   the same
 *   0DH   n 3: 00H, 55H or FFH, and a reference of two octets, high octet
 *         first                             not listed
 *   0EH   as 02H                            not listed
 *   0FH   n 8: as 01H; or n 10: behind it the second, 00-59, as digits
 *                                           not listed
 *   10H   as 02H                            not listed
 *   11H   n 1: 01H-07H, 10H, 11H, 50H, 51H, 81H-FFH
 *                                           not listed
 *   12H   as 02H                            n 1-18: 0-9
 *   13H   n 1: 0-255                        not listed
 *   15H   n 1: 00H-06H, 80H-FFH             n 1: 00H-06H
 *   16H   n 1: 00H-0FH                      n 1: 00H, 03H-05H, 0AH-0DH, 0FH
 *   1AH   as 02H                            not listed
 *   20H   n 14: a charge (below)            not listed
 *   21H   as 20H                            not listed
 *   22H   as 20H                            not listed
 *   23H   n 6: hours 00-99, minutes 00-59, seconds 00-59, as digits
 *                                           not listed
 *   30H   n 1-20: 20H-7EH                   not listed
 *   31H   as 30H                            not listed
 *   40H   n 2: 01H, then 00H-07H; or n 2-21: 02H or 03H, then 1 to 20 octets
 *         as in type 02H                    not listed
 *   50H   n 1-253: 00H, 01H, 03H-06H or 70H-7FH, or one of these with bit 8
 *         set; then 20H-7EH                 not listed
 *   55H   n 1: 00H, 01H, 80H-FFH            not listed
 *   E0H   n 10: an operator's extension (below)
 *                                           not listed
 *   all others                              not listed in both
 *
 * Message types, lengths, rooms, checksum, places and parameters' numbers are
 * the same in both. In the present edition 02H and 04H are rivals, and 07H and
 * 08H; in the old one 02H and 04H alone: there 08H silences no name. A notice
 * of the old edition changes a desk's lamp and nothing else.
 *
 * Two ways with a type that the edition does not list. ANTHERCUP_STRICT (0)
 * refuses it: 10, at that octet, in any room, so ahead of 3, with the number
 * that its parameter would have. ANTHERCUP_LENIENT (1) carries it: its
 * contents are 1 to 253 octets of any value, which are read and never count,
 * and 10 is never given. By the strict way a listener waits exactly while
 * listed types can still complete the message. All else is the same by both:
 * what the strict way accepts the lenient one accepts too, with the same
 * answers, draft, caption and desk.
 *
 * anthercup_reset and anthercup_read name no way, and are strict;
 * anthercup_reset_way and anthercup_read_way are told it, and so are counted,
 * caption and settle. Name the lenient way where a message is wanted though
 * parts of it are unknown, as programs do that relied on carrying: up to
 * layout 3 every call carried.
 *
 * read, counted, caption and settle are told edition and way at each call; a
 * listener is told them at its reset, and its record keeps both. Read and
 * settle a message by the edition and the way by which it was heard: by
 * another it may be refused, or say something else. Any number but 0 and 1 is
 * unknown, of an edition as of a way, as an argument and in a listener's
 * record: that is 16, place 0, behind 17 and before all other numbers.
 *
 * How a box listens. A channel seizure before the message is heard as octets
 * 55H: while no message has begun (1 at 0) reset and hunt on, and say nothing.
 * After a message, or a refusal with 2 to 6 or 10, take nothing more until the
 * carrier drops: what follows may be the rest of a spoilt message and look
 * like a whole one. When the carrier drops, reset, also in the middle of a
 * message.
 *
 * An answer is one word:
 *   octet 0 (lowest)  the number of a refusal; 0 where there is none
 *   octets 1 and 2    the place of a refusal; 0 where there is none
 *   octets 3 and 4    a size: listen gives the message's size, 0 while it
 *                     waits; read gives the text octets laid down; counted
 *                     gives the length of what counts; 0 in every refusal
 *   octets 5 and 6    listen gives the octets that this call took, the
 *                     spoiling one included, 0 with 16 and 17; counted gives
 *                     the start of what counts; 0 in all other answers
 *   octet 7           bits 0 to 6 the parameter's number: with 3, 4, 5 and
 *                     10 which parameter of the message is at fault, from 1
 *                     to 85, carried and repeated ones counted; a type that
 *                     is refused (3, 10) has the number that its parameter
 *                     would have; 0 in all other answers, message type,
 *                     length and checksum (1, 2 and 6) being no parameter's.
 *                     Bit 7 is the edition by which the answer was given,
 *                     refusals too; 0 with 16 and 17, and 0 from new_desk,
 *                     which is told none
 * So a word of the old edition is not 0 where nothing is refused: ask for its
 * number, never for the word. No word names the way.
 */
#ifndef ANTHERCUP_H
#define ANTHERCUP_H

#include <stddef.h>
#include <stdint.h>

#ifdef __cplusplus
extern "C" {
#endif

/* ---- Sizes ---- */

/* Which layout of records, words and calls this header describes. A record
 * that an archive of another layout wrote is reset, not handed on: so every
 * record is when the archive changes. Layout 5 numbers the classes of contents
 * in a listener's record anew: one of layout 4 may be in range here and go on
 * by another class. Its drafts have three kinds of value more, 5 to 7, and the
 * present edition lists thirteen types more, 0FH, 10H, 1AH, 20H to 23H, 30H,
 * 31H, 40H, 50H, 55H and E0H, which up to layout 4 were carried or refused with
 * 10: a message with one of them may now be refused with 3, 4 or 5, and its
 * contents count. A listener's record of layout 3, which carried, would be
 * taken for one of the strict way by its octet 12. Number 16 had the name
 * ANTHERCUP_REFUSED_EDITION there. */
#define ANTHERCUP_LAYOUT 5

#define ANTHERCUP_MESSAGE_OCTETS 258 /* the longest message */
#define ANTHERCUP_LISTENER_OCTETS 16
#define ANTHERCUP_DRAFT_OCTETS 688
#define ANTHERCUP_TEXTS_OCTETS 253 /* a text area that is never too short */
#define ANTHERCUP_PART_OCTETS 24
#define ANTHERCUP_DESK_OCTETS 52
#define ANTHERCUP_MOST_ENTRIES 85
#define ANTHERCUP_MOST_PLACES 16

/* Contents of one size, and their parts. */
#define ANTHERCUP_CHARGE_OCTETS 14
#define ANTHERCUP_CURRENCY_OCTETS 3
#define ANTHERCUP_COST_OCTETS 10
#define ANTHERCUP_PRICE_OCTETS 5
#define ANTHERCUP_EXTENSION_OCTETS 10
#define ANTHERCUP_OPERATOR_OCTETS 4
#define ANTHERCUP_VERSION_OCTETS 3

/* ---- Editions and ways ---- */

enum anthercup_editions { ANTHERCUP_PRESENT = 0, ANTHERCUP_OLD = 1 };

enum anthercup_ways { ANTHERCUP_STRICT = 0, ANTHERCUP_LENIENT = 1 };

/* ---- What messages hold ---- */

enum anthercup_messages { ANTHERCUP_CALL = 0x80, ANTHERCUP_NOTICE = 0x82 };

/* The parameter types that the present edition lists. The old one lists TIME,
 * CALLER, CALLER_ABSENT, NAME, LAMP, FIRST_CALLED, FORWARDED and USER
 * alone. */
enum anthercup_parameters {
    ANTHERCUP_PARAMETER_TIME = 0x01,
    ANTHERCUP_PARAMETER_CALLER = 0x02,
    ANTHERCUP_PARAMETER_CALLED = 0x03,
    ANTHERCUP_PARAMETER_CALLER_ABSENT = 0x04,
    ANTHERCUP_PARAMETER_NAME = 0x07,
    ANTHERCUP_PARAMETER_NAME_ABSENT = 0x08,
    ANTHERCUP_PARAMETER_LAMP = 0x0B,
    ANTHERCUP_PARAMETER_IDENTITY = 0x0D,
    ANTHERCUP_PARAMETER_DEPOSITOR = 0x0E,
    ANTHERCUP_PARAMETER_LEFT_TIME = 0x0F,
    ANTHERCUP_PARAMETER_NETWORK_CALLER = 0x10,
    ANTHERCUP_PARAMETER_CALL_TYPE = 0x11,
    ANTHERCUP_PARAMETER_FIRST_CALLED = 0x12,
    ANTHERCUP_PARAMETER_WAITING = 0x13,
    ANTHERCUP_PARAMETER_FORWARDED = 0x15,
    ANTHERCUP_PARAMETER_USER = 0x16,
    ANTHERCUP_PARAMETER_REDIRECTING = 0x1A,
    ANTHERCUP_PARAMETER_CHARGE = 0x20,
    ANTHERCUP_PARAMETER_ADDITIONAL_CHARGE = 0x21,
    ANTHERCUP_PARAMETER_EXTRA_CHARGE = 0x22,
    ANTHERCUP_PARAMETER_DURATION = 0x23,
    ANTHERCUP_PARAMETER_PROVIDER = 0x30,
    ANTHERCUP_PARAMETER_CARRIER = 0x31,
    ANTHERCUP_PARAMETER_TERMINAL = 0x40,
    ANTHERCUP_PARAMETER_DISPLAY = 0x50,
    ANTHERCUP_PARAMETER_SERVICE = 0x55,
    ANTHERCUP_PARAMETER_EXTENSION = 0xE0
};

/* The states of a message (0DH); a lamp (0BH) is off or on. */
enum anthercup_states {
    ANTHERCUP_STATE_OFF = 0x00,
    ANTHERCUP_STATE_UNSET = 0x55,
    ANTHERCUP_STATE_ON = 0xFF
};

/* What the rest of a terminal's contents is (40H), by its mark, their first
 * octet: behind CONNECTION one octet that is no character, 0 not identified, 1
 * voice, 2 fax, 3 data, 4 video, 5 e-mail, 6 telemetry, 7 text; behind the
 * other two the digits of a number or of a subaddress. */
enum anthercup_terminals {
    ANTHERCUP_TERMINAL_CONNECTION = 0x01,
    ANTHERCUP_TERMINAL_NUMBER = 0x02,
    ANTHERCUP_TERMINAL_SUBADDRESS = 0x03
};

/* What a text for the display is (50H), by the lower seven bits of its mark;
 * 70H-7FH are the operator's own. The highest bit, STORED, says that it was
 * stored. */
enum anthercup_displays {
    ANTHERCUP_DISPLAY_UNKNOWN = 0x00, /* or another */
    ANTHERCUP_DISPLAY_POSITIVE = 0x01,
    ANTHERCUP_DISPLAY_NEGATIVE = 0x03,
    ANTHERCUP_DISPLAY_ADVERTISEMENT = 0x04,
    ANTHERCUP_DISPLAY_PROVIDER = 0x05,
    ANTHERCUP_DISPLAY_REMOTE_USER = 0x06,
    ANTHERCUP_DISPLAY_STORED = 0x80
};

/* ---- Refusals ---- */

enum anthercup_refusals {
    ANTHERCUP_REFUSED_MESSAGE_TYPE = 1,
    ANTHERCUP_REFUSED_LENGTH = 2,
    ANTHERCUP_REFUSED_TYPE = 3,
    ANTHERCUP_REFUSED_PARAMETER_LENGTH = 4,
    ANTHERCUP_REFUSED_CONTENT = 5,
    ANTHERCUP_REFUSED_CHECKSUM = 6,
    ANTHERCUP_REFUSED_FOLLOWED = 7, /* place: the first octet that follows */
    ANTHERCUP_REFUSED_EARLY = 8,    /* place: the number of octets */
    ANTHERCUP_REFUSED_AREA = 9,     /* place: the text octets needed */
    ANTHERCUP_REFUSED_UNLISTED = 10,
    ANTHERCUP_REFUSED_UNKNOWN = 16,
    ANTHERCUP_REFUSED_RECORD = 17,
    ANTHERCUP_REFUSED_NO_PLACE = 21
};

/* A number in words. */
static inline const char *anthercup_text(unsigned number)
{
    switch (number) {
    case 0:
        return "not refused";
    case ANTHERCUP_REFUSED_MESSAGE_TYPE:
        return "the message type is neither 80H nor 82H";
    case ANTHERCUP_REFUSED_LENGTH:
        return "the message's length is below 3";
    case ANTHERCUP_REFUSED_TYPE:
        return "the parameter type is impossible in its room";
    case ANTHERCUP_REFUSED_PARAMETER_LENGTH:
        return "the parameter's length is not allowed, or leaves a bad room";
    case ANTHERCUP_REFUSED_CONTENT:
        return "no legal content has this octet after those before it";
    case ANTHERCUP_REFUSED_CHECKSUM:
        return "the checksum is wrong";
    case ANTHERCUP_REFUSED_FOLLOWED:
        return "octets follow the message";
    case ANTHERCUP_REFUSED_EARLY:
        return "the message ends early, nothing wrong yet";
    case ANTHERCUP_REFUSED_AREA:
        return "the text area is too short";
    case ANTHERCUP_REFUSED_UNLISTED:
        return "the edition does not list this parameter type";
    case ANTHERCUP_REFUSED_UNKNOWN:
        return "the edition or the way is unknown";
    case ANTHERCUP_REFUSED_RECORD:
        return "the record has a wrong size, or a code or number out of range";
    case ANTHERCUP_REFUSED_NO_PLACE:
        return "all places of the desk hold other references";
    default:
        return "no number of ours";
    }
}

/* ---- Answers ---- */

static inline unsigned anthercup_number(uint64_t answer)
{
    return (unsigned)(answer & 0xff);
}

static inline unsigned anthercup_place(uint64_t answer)
{
    return (unsigned)(answer >> 8 & 0xffff);
}

static inline unsigned anthercup_size(uint64_t answer)
{
    return (unsigned)(answer >> 24 & 0xffff);
}

static inline unsigned anthercup_taken(uint64_t answer)
{
    return (unsigned)(answer >> 40 & 0xffff);
}

/* Which parameter is at fault, from 1; 0 where it is none, or no refusal. */
static inline unsigned anthercup_parameter(uint64_t answer)
{
    return (unsigned)(answer >> 56 & 0x7f);
}

/* The edition that the answer names; 0 with 16 and 17, which name none. */
static inline unsigned anthercup_edition(uint64_t answer)
{
    return (unsigned)(answer >> 63);
}

/* Of listen's answer alone: neither a message nor a refusal yet. */
static inline int anthercup_listen_waits(uint64_t answer)
{
    return anthercup_number(answer) == 0 && anthercup_size(answer) == 0;
}

/* ---- The listener ----
 *
 * Its record, in octets:
 *    0       what comes next: 0 the message type, 1 the length, 2 a parameter
 *            type or (no room left) the checksum, 3 a parameter length, 4
 *            contents; or 5 a message, 6 a refusal
 *    1       the sum of the octets so far modulo 256; 0 with 5 and 6
 *    2, 3    the octets so far, with 5 the message's size, with 6 the
 *            refusal's place; low octet first
 *    4       with 3 and 4 the class of contents: 0 carried, by the lenient
 *            way alone; 1 date, 2 number, 3 absent, 4 name, 5 lamp, 6
 *            identity, 7 call type, 8 waiting, 9 forwarded, 10 calling user,
 *            11 short text (30H and 31H; in the old edition the name), 12
 *            moment (0FH), 13 charge, 14 duration, 15 terminal, 16 display, 17
 *            service, 18 extension; of the old edition alone 19 number, 20
 *            forwarded, 21 calling user
 *    5, 6    with 4 the length of the contents, and the index of the octet to
 *            come
 *    7       with 4 what is remembered of the contents, 0 before the first of
 *            them: of a date and a moment the tens of the month; then its
 *            days; then how many of them are left from the tens of the day on;
 *            after the day the last digit heard; of a duration the last digit
 *            heard; of a charge 1 in and behind a currency of dashes, 0 of
 *            letters; behind its flags 0 in a cost, 1 behind the comma there,
 *            2 in units and their price, 3 behind the comma there, 4 in units
 *            without a price, 5 where it is not available; of a terminal 1
 *            behind the mark 01H; of an extension 1 behind a second octet that
 *            is a space, until the third; else 0
 *    8       the room: with 2 what is left of the message's length, with 3 what
 *            was left as the parameter began, its type counted, with 4 what is
 *            left behind these contents
 *    9       with 6 the refusal's number
 *   10       the parameter's number: with 2, 3 and 4 how many parameters have
 *            begun, those counted whose type has come; with 6 the refusal's
 *   11       the edition, as the reset was told it; no call changes it
 *   12       the way, likewise
 *   13 to 15 0, kept
 *
 * A record is 17 where octet 0 is above 6, a class is none of its edition's
 * (the present one has 1 to 18, the old one 1, 3, 5, 11 and 19 to 21, and both
 * by the lenient way also 0), an octet that its stage does not use is not 0, or
 * a number is out of range: with 0 and 1 the octets so far are 0 and 1; with 2
 * octets and room add up to 5 to 257; with 3 the room is at least 1 and they
 * add up to 6 to 258; with 4 the index is below the length, and octets, length
 * and room add up to 5 to 257 and the index; a size is 6 to 258; a refusal has
 * a number of 1 to 6, by the strict way also 10, and a place up to 257. Of the
 * parameter's number, a parameter having three octets at least: with 2 three
 * times it and 2 are at most the octets so far; with 3 it is at least 1, and
 * three times it at most the octets so far; with 4 it is at least 1, and three
 * times it, 1 and the index are together at most the octets so far; a refusal's
 * is 1 to 85 with 3, 4, 5 and 10, and 0 with 1, 2 and 6. Sum and memory are not
 * judged: a record in range whose sum, memory or parameter's number no octets
 * lead to is stepped by the same rule.
 *
 * A record whose edition or way, octet 11 or 12, is neither 0 nor 1 is 16
 * where all else is in range, and 17 where it is not. By an unknown edition a
 * class may then be 1 to 21, by a known one what it is with a known way; it
 * may be 0 where octet 12 is not 0; and a refusal's number may be 10, whatever
 * the other of the two octets. */

/* Makes the record that of a new listener of this edition and way, whatever it
 * holds. Number 0; or 17 where listener_len is not ANTHERCUP_LISTENER_OCTETS,
 * then 16, and the record stays as it was. */
uint64_t anthercup_reset_way(uint8_t edition, uint8_t way, uint8_t *listener,
                             size_t listener_len);

/* The same by the strict way: anthercup_reset_way told ANTHERCUP_STRICT. */
uint64_t anthercup_reset(uint8_t edition, uint8_t *listener,
                         size_t listener_len);

/* Takes a run of octets of any length, 0 included, and says what all octets
 * since the reset come to, by the edition and the way of the reset: it waits
 * (number and size 0), has a message of a size, or refuses with a number from
 * 1 to 6, by the strict way also 10, a place counted from the reset and the
 * parameter's number, also where earlier calls heard its parameters. After an
 * answer it takes none and says the same again, until it is reset. Ahead of
 * all that 17, then 16: no octet is taken, and the record stays as it was. */
uint64_t anthercup_listen(uint8_t *listener, size_t listener_len,
                          const uint8_t *octets, size_t octets_len);

/* ---- Drafts ----
 *
 * A draft's record, in octets:
 *    0       the message type: 80H a call message, 82H a notice
 *    1       the number of entries, 1 to 85
 *    2       the edition by which it was read; no octet names the way
 *    3 to 7  0, kept
 *    then 85 entries of eight octets, one for each parameter in message order:
 *    0       the parameter type
 *    1       the kind of value: 0 a code, 1 a date, 2 a state with a
 *            reference, 3 a text (numbers, names, 30H and 31H; charges and
 *            E0H, contents of one size), 4 a carried text (types that the
 *            edition does not list, by the lenient way alone), 5 a moment
 *            (0FH), 6 a duration (23H), 7 a marked text (40H and 50H)
 *    2 to 7  0: the code; 1: month, day, hour, minute; 2: the state, 0, the
 *            reference (low octet first); 3 and 4: start and length in the
 *            text area (low octets first); 5: month, day, hour, minute, and
 *            one more than the second, 0 where none was sent; 6: hours,
 *            minutes, seconds; 7: the mark, which is the first octet of the
 *            contents, 0, and of the rest of them start and length in the text
 *            area (low octets first)
 * What a record does not use is 0, and so is every entry that is not used. A
 * text has at least one octet, but for that of 50H, which may be empty: then
 * its start is where the next text's would be.
 *
 * A draft has every parameter, repeats too; which of them count, and which text
 * a display shows, say anthercup_counted and anthercup_caption. */

enum anthercup_values {
    ANTHERCUP_VALUE_CODE = 0,
    ANTHERCUP_VALUE_DATE = 1,
    ANTHERCUP_VALUE_STATE = 2,
    ANTHERCUP_VALUE_TEXT = 3,
    ANTHERCUP_VALUE_CARRIED = 4,
    ANTHERCUP_VALUE_MOMENT = 5,
    ANTHERCUP_VALUE_DURATION = 6,
    ANTHERCUP_VALUE_MARKED = 7
};

/* Reads one whole message into a draft's record and a text area, in which all
 * texts are packed from octet 0 on in message order; later octets of the area
 * stay. The record is only written: whatever it holds, only its size is
 * judged. Number 0; or, in this order, 17 where draft_len is not
 * ANTHERCUP_DRAFT_OCTETS, 16, one of 1 to 6 and 10 as the first octet has it
 * that spoils the message, 8, 7, 9; record and area then hold what they held.
 */
uint64_t anthercup_read_way(uint8_t edition, uint8_t way,
                            const uint8_t *octets, size_t octets_len,
                            uint8_t *draft, size_t draft_len, uint8_t *texts,
                            size_t texts_len);

/* The same by the strict way: anthercup_read_way told ANTHERCUP_STRICT. */
uint64_t anthercup_read(uint8_t edition, const uint8_t *octets,
                        size_t octets_len, uint8_t *draft, size_t draft_len,
                        uint8_t *texts, size_t texts_len);

static inline unsigned anthercup_message_type(const uint8_t *draft)
{
    return draft[0];
}

static inline unsigned anthercup_entries(const uint8_t *draft)
{
    return draft[1];
}

/* The edition by which the draft was read. */
static inline unsigned anthercup_draft_edition(const uint8_t *draft)
{
    return draft[2];
}

/* Entries are numbered from 0; those from anthercup_entries() on are not used,
 * and all zeros. Whatever a record holds, each of the readers below looks at
 * the eight octets of one entry and at nothing else; what it gives is in the
 * range that is named where the record was read into. A code, the parts of a
 * date and those of a state read as some number in an entry that has none. */
static inline const uint8_t *anthercup_entry(const uint8_t *draft, unsigned i)
{
    return draft + 8 + 8 * (size_t)i;
}

static inline unsigned anthercup_entry_type(const uint8_t *draft, unsigned i)
{
    return anthercup_entry(draft, i)[0];
}

static inline unsigned anthercup_entry_kind(const uint8_t *draft, unsigned i)
{
    return anthercup_entry(draft, i)[1];
}

static inline unsigned anthercup_entry_code(const uint8_t *draft, unsigned i)
{
    return anthercup_entry(draft, i)[2];
}

/* Month, day, hour and minute are those of a date or of a moment. */
static inline unsigned anthercup_entry_month(const uint8_t *draft, unsigned i)
{
    return anthercup_entry(draft, i)[2];
}

static inline unsigned anthercup_entry_day(const uint8_t *draft, unsigned i)
{
    return anthercup_entry(draft, i)[3];
}

static inline unsigned anthercup_entry_hour(const uint8_t *draft, unsigned i)
{
    return anthercup_entry(draft, i)[4];
}

static inline unsigned anthercup_entry_minute(const uint8_t *draft, unsigned i)
{
    return anthercup_entry(draft, i)[5];
}

static inline unsigned anthercup_entry_state(const uint8_t *draft, unsigned i)
{
    return anthercup_entry(draft, i)[2];
}

static inline unsigned anthercup_entry_reference(const uint8_t *draft,
                                                 unsigned i)
{
    return anthercup_entry(draft, i)[4] + 256u * anthercup_entry(draft, i)[5];
}

/* An octet, from 2 to 7, of an entry of this kind; -1 of any other entry. */
static inline int anthercup_entry_octet(const uint8_t *draft, unsigned i,
                                        unsigned kind, unsigned at)
{
    const uint8_t *entry = anthercup_entry(draft, i);

    return entry[1] == kind ? entry[at] : -1;
}

/* The second of a moment, 0 to 59; -1 where none was sent, and of any other
 * entry, also of a date. */
static inline int anthercup_entry_second(const uint8_t *draft, unsigned i)
{
    int more = anthercup_entry_octet(draft, i, ANTHERCUP_VALUE_MOMENT, 6);

    return more > 0 ? more - 1 : -1;
}

/* Hours, 0 to 99, minutes and seconds of a duration; -1 of any other entry. */
static inline int anthercup_entry_duration_hours(const uint8_t *draft,
                                                 unsigned i)
{
    return anthercup_entry_octet(draft, i, ANTHERCUP_VALUE_DURATION, 2);
}

static inline int anthercup_entry_duration_minutes(const uint8_t *draft,
                                                   unsigned i)
{
    return anthercup_entry_octet(draft, i, ANTHERCUP_VALUE_DURATION, 3);
}

static inline int anthercup_entry_duration_seconds(const uint8_t *draft,
                                                   unsigned i)
{
    return anthercup_entry_octet(draft, i, ANTHERCUP_VALUE_DURATION, 4);
}

/* The mark of a marked text: of a terminal one of enum anthercup_terminals, of
 * a display as enum anthercup_displays has it; -1 of any other entry. */
static inline int anthercup_entry_mark(const uint8_t *draft, unsigned i)
{
    return anthercup_entry_octet(draft, i, ANTHERCUP_VALUE_MARKED, 2);
}

/* Start and length, in the area that was read into, of a text, a carried text
 * or a marked text, of the last without its mark; 0 and 0 of any other entry.
 * In a record that was read into, a text ends within the text octets laid
 * down. */
static inline unsigned anthercup_entry_start(const uint8_t *draft, unsigned i)
{
    const uint8_t *entry = anthercup_entry(draft, i);

    switch (entry[1]) {
    case ANTHERCUP_VALUE_TEXT:
    case ANTHERCUP_VALUE_CARRIED:
        return entry[2] + 256u * entry[3];
    case ANTHERCUP_VALUE_MARKED:
        return entry[4] + 256u * entry[5];
    default:
        return 0;
    }
}

static inline unsigned anthercup_entry_length(const uint8_t *draft, unsigned i)
{
    const uint8_t *entry = anthercup_entry(draft, i);

    switch (entry[1]) {
    case ANTHERCUP_VALUE_TEXT:
    case ANTHERCUP_VALUE_CARRIED:
        return entry[4] + 256u * entry[5];
    case ANTHERCUP_VALUE_MARKED:
        return entry[6] + 256u * entry[7];
    default:
        return 0;
    }
}

/* Where the text of an entry begins in the area that was read into; where the
 * area does, for an entry that has none. */
static inline const uint8_t *
anthercup_entry_text(const uint8_t *draft, unsigned i, const uint8_t *texts)
{
    return texts + anthercup_entry_start(draft, i);
}

/* Where a text of this size stands in an area of texts_len octets; NULL for an
 * entry of another kind or size, and for one that does not end within them. */
static inline const uint8_t *
anthercup_entry_sized(const uint8_t *draft, unsigned i, const uint8_t *texts,
                      size_t texts_len, unsigned size)
{
    unsigned start = anthercup_entry_start(draft, i);

    if (anthercup_entry_kind(draft, i) != ANTHERCUP_VALUE_TEXT
        || anthercup_entry_length(draft, i) != size
        || texts_len < (size_t)start + size)
        return NULL;
    return texts + start;
}

/* ---- Charges and extensions ----
 *
 * Texts of one size, found by their entry, in the area that was read into, of
 * texts_len octets: where the 14 octets of a charge stand (20H to 22H), or the
 * 10 of an extension (E0H). NULL for any other entry, also for one of these
 * types that is carried, as in the old edition. In a message of the present
 * edition they stand where anthercup_counted says. */
static inline const uint8_t *
anthercup_entry_charge(const uint8_t *draft, unsigned i, const uint8_t *texts,
                       size_t texts_len)
{
    unsigned type = anthercup_entry_type(draft, i);

    if (type < ANTHERCUP_PARAMETER_CHARGE
        || type > ANTHERCUP_PARAMETER_EXTRA_CHARGE)
        return NULL;
    return anthercup_entry_sized(draft, i, texts, texts_len,
                                 ANTHERCUP_CHARGE_OCTETS);
}

static inline const uint8_t *
anthercup_entry_extension(const uint8_t *draft, unsigned i,
                          const uint8_t *texts, size_t texts_len)
{
    if (anthercup_entry_type(draft, i) != ANTHERCUP_PARAMETER_EXTENSION)
        return NULL;
    return anthercup_entry_sized(draft, i, texts, texts_len,
                                 ANTHERCUP_EXTENSION_OCTETS);
}

/* A charge: 20H what the call cost, 21H all calls up to the last, 22H calls not
 * made from this line, as forwarded ones (source 004, 5.4.18 to 5.4.20). Its 14
 * octets:
 *    0 to 2  the currency: three letters A-Z, or three dashes
 *    3       flags, bits as enum anthercup_charge_bits has them
 *    4 to 13 what is charged
 * NOT_AVAILABLE, UNITS and currency say what that is, and nothing else is
 * accepted:
 *    both clear, letters       a cost in 4 to 13
 *    UNITS alone, letters      units in 4 to 8, the price of one in 9 to 13
 *    UNITS alone, dashes       units in 4 to 8, no price: dashes in 9 to 13
 *    NOT_AVAILABLE, dashes,    nothing: dashes in 4 to 13
 *    UNITS set or clear
 * Units are five digits; of a cost's ten octets and a price's five all are
 * digits, or all but one, which is the decimal comma and may be any of them.
 * The other bits of the flags are free, and say nothing of the octets.
 *
 * Each of these takes a pointer to 14 octets, whatever they are, and looks at
 * no others. */

enum anthercup_charge_bits {
    ANTHERCUP_CHARGE_FREE = 0x01,
    ANTHERCUP_CHARGE_SUBTOTAL = 0x02, /* clear: the total */
    ANTHERCUP_CHARGE_CARD = 0x04,     /* to a credit or debit card */
    ANTHERCUP_CHARGE_NOT_AVAILABLE = 0x08,
    ANTHERCUP_CHARGE_UNITS = 0x10 /* clear: an amount of the currency */
};

enum anthercup_charged_kinds {
    ANTHERCUP_CHARGED_NOTHING = 0,
    ANTHERCUP_CHARGED_COST = 1,
    ANTHERCUP_CHARGED_UNITS = 2
};

/* Where the currency's ANTHERCUP_CURRENCY_OCTETS stand, all letters; NULL where
 * the first is a dash, and so are all. */
static inline const uint8_t *anthercup_charge_currency(const uint8_t *charge)
{
    return charge[0] == '-' ? NULL : charge;
}

static inline unsigned anthercup_charge_flags(const uint8_t *charge)
{
    return charge[3];
}

/* What is charged, by the flags: one of enum anthercup_charged_kinds. */
static inline unsigned anthercup_charged(const uint8_t *charge)
{
    if (charge[3] & ANTHERCUP_CHARGE_NOT_AVAILABLE)
        return ANTHERCUP_CHARGED_NOTHING;
    return charge[3] & ANTHERCUP_CHARGE_UNITS ? ANTHERCUP_CHARGED_UNITS
                                              : ANTHERCUP_CHARGED_COST;
}

/* Where the ANTHERCUP_COST_OCTETS of a cost stand; NULL where none is. */
static inline const uint8_t *anthercup_charge_cost(const uint8_t *charge)
{
    return anthercup_charged(charge) == ANTHERCUP_CHARGED_COST ? charge + 4
                                                               : NULL;
}

/* The number of units, 0 to 99,999; -1 where there are none, or their five
 * octets are not all digits. */
static inline int32_t anthercup_charge_units(const uint8_t *charge)
{
    int32_t units = 0;

    if (anthercup_charged(charge) != ANTHERCUP_CHARGED_UNITS)
        return -1;
    for (unsigned i = 4; i < 9; i++) {
        if (charge[i] < '0' || charge[i] > '9')
            return -1;
        units = 10 * units + (charge[i] - '0');
    }
    return units;
}

/* Where the ANTHERCUP_PRICE_OCTETS of the price of a unit stand; NULL where
 * there are no units, or the first is a dash, and so are all. */
static inline const uint8_t *anthercup_charge_price(const uint8_t *charge)
{
    if (anthercup_charged(charge) != ANTHERCUP_CHARGED_UNITS
        || charge[9] == '-')
        return NULL;
    return charge + 9;
}

/* An extension names the operator whose own coding the message uses, and its
 * version (source 004, 5.4.27). Its 10 octets:
 *    0 to 2  the country's code: a digit, or two, or three, and spaces behind
 *    3 to 6  the operator's code: 20H-7EH, spaces where it is shorter
 *    7 to 9  the version: likewise
 * Each of these takes a pointer to 10 octets, whatever they are, and looks at
 * no others. */

/* The country's code as a number, 0 to 999, a 0 in front adding nothing; -1 of
 * octets that are none. */
static inline int anthercup_extension_country(const uint8_t *extension)
{
    int country = 0;

    for (unsigned i = 0; i < 3; i++) {
        if (i > 0 && extension[i] == ' ')
            return i == 2 || extension[2] == ' ' ? country : -1;
        if (extension[i] < '0' || extension[i] > '9')
            return -1;
        country = 10 * country + (extension[i] - '0');
    }
    return country;
}

/* Where the operator's code stands, ANTHERCUP_OPERATOR_OCTETS. */
static inline const uint8_t *
anthercup_extension_operator(const uint8_t *extension)
{
    return extension + 3;
}

/* Where the version stands, ANTHERCUP_VERSION_OCTETS. */
static inline const uint8_t *
anthercup_extension_version(const uint8_t *extension)
{
    return extension + 7;
}

/* ---- What counts, and the caption ---- */

/* Of one whole message, where the contents of a parameter type stand that
 * count: those of the first parameter of the type, unless its rival stands
 * before it (02H and 04H are rivals, and in the present edition 07H and 08H).
 * Carried types never count. Number 0; or 16, then 1 to 8 and 10 as read has
 * them. Any type may be asked for. */
uint64_t anthercup_counted(uint8_t edition, uint8_t way, const uint8_t *octets,
                           size_t octets_len, uint8_t type);

/* Of counted's answer alone: whether the type counts in that message; then its
 * contents are the length octets of the message from start on, start and length
 * being 0 otherwise. */
static inline int anthercup_counts(uint64_t answer)
{
    return anthercup_taken(answer) != 0;
}

static inline unsigned anthercup_counted_start(uint64_t answer)
{
    return anthercup_taken(answer);
}

static inline unsigned anthercup_counted_length(uint64_t answer)
{
    return anthercup_size(answer);
}

/* The caption of one whole message, as a part of the message or of a directory:
 * the name that counts; else, if a caller counts, the text after the first = on
 * the first line of the directory whose text before it is that caller; else the
 * caller; else the empty part at the message's start. Lines end with octet 0AH,
 * the last perhaps without; a line with no = is passed over. A directory may
 * have any size, 0 included.
 *
 * The part's record is only written, in octets:
 *    0       0 a part of the message, 1 of the directory
 *    1 to 7  0, kept
 *    8 to 15 where the part starts in it, low octet first
 *   16 to 23 how long it is, low octet first
 * Number 0; or 17 where part_len is not ANTHERCUP_PART_OCTETS, then 16, then 1
 * to 8 and 10 as read has them, and the record holds what it held: ask of a
 * part only after number 0. */
uint64_t anthercup_caption(uint8_t edition, uint8_t way, const uint8_t *octets,
                           size_t octets_len, const uint8_t *directory,
                           size_t directory_len, uint8_t *part,
                           size_t part_len);

static inline int anthercup_part_in_directory(const uint8_t *part)
{
    return part[0];
}

static inline size_t anthercup_part_start(const uint8_t *part)
{
    uint64_t start = 0;

    for (unsigned i = 8; i < 16; i++)
        start |= (uint64_t)part[i] << 8 * (i - 8);
    return (size_t)start;
}

static inline size_t anthercup_part_length(const uint8_t *part)
{
    uint64_t length = 0;

    for (unsigned i = 16; i < 24; i++)
        length |= (uint64_t)part[i] << 8 * (i - 16);
    return (size_t)length;
}

/* Where the part begins, in the message and the directory that were handed
 * in. */
static inline const uint8_t *anthercup_part_text(const uint8_t *part,
                                                 const uint8_t *octets,
                                                 const uint8_t *directory)
{
    return (anthercup_part_in_directory(part) ? directory : octets)
        + anthercup_part_start(part);
}

/* ---- The desk ----
 *
 * A desk's record, in octets:
 *    0       1 where the waiting number is known, else 0
 *    1       the waiting number, 0 where it is not known
 *    2       the lamp: 0 unknown, 1 off, 2 on
 *    3       0, kept
 *    4 to 51 sixteen places for the references of open messages, three octets
 *            each, low octet first: 0 where the place is free, else one more
 *            than the reference that it holds; no reference stands twice */

enum anthercup_lamps {
    ANTHERCUP_LAMP_UNKNOWN = 0,
    ANTHERCUP_LAMP_OFF = 1,
    ANTHERCUP_LAMP_ON = 2
};

/* Clears a desk: makes the record that of a new one, whatever it holds: number
 * and lamp unknown, all places free. A desk is of no edition and no way.
 * Number 0, or 17 where desk_len is not ANTHERCUP_DESK_OCTETS. */
uint64_t anthercup_new_desk(uint8_t *desk, size_t desk_len);

/* Settles one whole message on a desk: a notice sets the waiting number and
 * the lamp where it says them, to what it says; where it says a message's
 * state, on adds its reference to the lowest free place, unless it is there,
 * off takes it out, unset does nothing. A call message changes nothing. In the
 * old edition, which lists neither 13H nor 0DH, a notice says the lamp alone.
 * Number 0; or 17 for a record that is no desk's, then 16, then 1 to 8 and 10
 * as read has them, then 21: nothing at all is settled then, and the record
 * stays as it was. The same message settled twice running by one edition and
 * one way leaves what once left. */
uint64_t anthercup_settle(uint8_t edition, uint8_t way, uint8_t *desk,
                          size_t desk_len, const uint8_t *octets,
                          size_t octets_len);

/* The waiting number, or -1 where it is not known. */
static inline int anthercup_waiting(const uint8_t *desk)
{
    return desk[0] ? desk[1] : -1;
}

static inline unsigned anthercup_lamp(const uint8_t *desk)
{
    return desk[2];
}

/* The reference in a place, 0 to 15, or -1 where it is free. */
static inline int32_t anthercup_open(const uint8_t *desk, unsigned place)
{
    const uint8_t *p = desk + 4 + 3 * (size_t)place;

    return (int32_t)p[0] + 256 * (int32_t)p[1] + 65536 * (int32_t)p[2] - 1;
}

#ifdef __cplusplus
}
#endif

#endif
