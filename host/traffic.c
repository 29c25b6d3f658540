/* Traffic through the archive and the second reader in one process, of both editions (document 02, Q-5) and for both
 * ways, now and then built for one and judged by another: each message is heard whole, octet by octet and in
 * runs of random cuts, and every answer, place, parameter, size, edition and count of octets taken is held to what the
 * second reader says of the octets offered so far. Records are handed back after every call, the parameters begun in
 * them held to the second reader too, and their edition and way to those of the reset; records with another
 * parameter's number, edition or way, and records of random octets, are refused with 17 or 16 as they were, or are
 * stepped, as the header says of them. Each message is read whole, with areas on both sides of what its texts need and
 * records of other sizes: every octet of every entry, every text and all that must stay. Where what counts stands is
 * asked for some types, often the message's own, and the caption with directories of many kinds. Each is settled on a
 * desk, twice, and so is a history of messages about a few references, of which the last word on each is kept here
 * too. What the strict way accepts is read, asked for and settled by the lenient one too, with the same words, records
 * and areas. The calls that name no way are made in turn with those that are told the strict one. Editions and ways
 * that there are not are named at every export. Messages with dates at the limits of their months follow. Says how
 * many answers it compared; a difference ends it with status 1. */
#include <stdio.h>
#include <stdlib.h>
#include <string.h>

#include "anthercup.h"
#include "second.h"
#include "traffic.h"

static unsigned long compared, by_line;

/* refusals of the first parameter, of a later one, of the last that a message can hold */
static unsigned long in_first, in_later, in_last;

/* records that octets did not lead to: heard, refused with 16, refused with 17 */
static unsigned long records[3];

/* entries read, by kind of value; those that are not used are among the codes */
static unsigned long kinds[SECOND_MARKED + 1];

/* entries read of the present edition, by type */
static unsigned long types[256];

/* types asked for that count */
static unsigned long counting;

/* what a call is told */
struct book {
    uint8_t edition, way;
};

/* by edition and way: messages judged, those of them that are messages, and those refused with 10 */
static struct {
    unsigned long judged, messages, unlisted;
} by_book[2][2];

static void differ(const char *what, const uint8_t *o, size_t n, unsigned long got, unsigned long wanted) {
    printf("traffic: %s: got %lu, wanted %lu, after", what, got, wanted);
    for (size_t i = 0; i < n; i++) printf(" %02X", o[i]);
    printf("\n");
    exit(1);
}

static void same(const char *what, const uint8_t *o, size_t n, unsigned long got, unsigned long wanted) {
    compared++;
    if (got != wanted) differ(what, o, n, got, wanted);
}

/* what the second reader says of the first n octets, given what it says of all: the answer where it has come by then,
 * else that it waits */
static struct second_answer at_cut(struct second_answer whole, size_t n) {
    struct second_answer waits = {SECOND_WAITS, 0, 0, 0, 0, n, whole.edition};
    return whole.answer != SECOND_WAITS && whole.taken <= n ? whole : waits;
}

/* the record has been offered o[0..n) since its reset, and took `taken` of them in all */
static void as_second(const uint8_t *o, size_t n, struct second_answer s, uint64_t answer, size_t taken) {
    same("number", o, n, anthercup_number(answer), s.number);
    same("place", o, n, anthercup_place(answer), s.place);
    same("size", o, n, anthercup_size(answer), s.size);
    same("taken", o, n, taken, s.taken);
    same("waits", o, n, (unsigned long)anthercup_listen_waits(answer), s.answer == SECOND_WAITS);
    same("parameter", o, n, anthercup_parameter(answer), s.parameter);
    same("edition", o, n, anthercup_edition(answer), s.edition);
}

/* the word of a verdict that declines, or of one that has nothing more to say */
static unsigned long word_of(unsigned number, size_t place, size_t parameter, unsigned edition) {
    return (unsigned long)(number | (uint64_t)place << 8 | (uint64_t)parameter << 56 | (uint64_t)edition << 63);
}

/* 17, which names no edition, in the place of what the second reader says of a record that is none */
static struct second_verdict no_record(void) {
    struct second_verdict v = {ANTHERCUP_REFUSED_RECORD, 0, 0, 0};
    return v;
}

/* an edition and a way, each as often as the others */
static struct book any_book(struct traffic *t) {
    uint32_t k = traffic_number(t, 4);
    return (struct book){(uint8_t)(k / 2), (uint8_t)(k % 2)};
}

/* the other edition, the other way, or both */
static struct book another_book(struct traffic *t, struct book b) {
    uint32_t k = traffic_number(t, 3);
    if (k != 1) b.edition = (uint8_t)(1 - b.edition);
    if (k != 0) b.way = (uint8_t)(1 - b.way);
    return b;
}

/* an edition or a way that there is not, or both */
static struct book unknown_book(struct traffic *t) {
    struct book b = any_book(t);
    uint8_t x = (uint8_t)(traffic_number(t, 2) ? 2 + traffic_number(t, 2) : 2 + traffic_number(t, 254));
    uint32_t k = traffic_number(t, 3);
    if (k != 1) b.edition = x;
    if (k != 0) b.way = x;
    return b;
}

static int is_known(struct book b) { return b.edition <= ANTHERCUP_OLD && b.way <= ANTHERCUP_LENIENT; }

static struct book book_of(const uint8_t *l) { return (struct book){l[11], l[12]}; }

/* the strict way, half of the time by the function that names none */
static uint64_t reset(struct traffic *t, struct book b, uint8_t *l, size_t size) {
    if (b.way == ANTHERCUP_STRICT && traffic_number(t, 2)) return anthercup_reset(b.edition, l, size);
    return anthercup_reset_way(b.edition, b.way, l, size);
}

static uint64_t read_by(struct traffic *t, struct book b, const uint8_t *o, size_t n, uint8_t *draft, size_t draft_len,
                        uint8_t *texts, size_t area) {
    if (b.way == ANTHERCUP_STRICT && traffic_number(t, 2))
        return anthercup_read(b.edition, o, n, draft, draft_len, texts, area);
    return anthercup_read_way(b.edition, b.way, o, n, draft, draft_len, texts, area);
}

/* by the header, of a record that is in range but perhaps for its parameter's number */
static int parameter_in_range(const uint8_t *l) {
    unsigned place = l[2] + 256u * l[3], thrice = 3u * l[10];
    switch (l[0]) {
    case 2: return thrice + 2 <= place;
    case 3: return l[10] >= 1 && thrice <= place;
    case 4: return l[10] >= 1 && thrice + 1 + l[6] <= place;
    case 6: return (l[9] >= 3 && l[9] <= 5) || l[9] == 10 ? l[10] >= 1 && l[10] <= 85 : l[10] == 0;
    default: return l[10] == 0;
    }
}

/* by the header, the classes of contents that a record of this edition and way may have */
static int class_in_range(struct book b, uint8_t class) {
    if (class == 0) return b.way != ANTHERCUP_STRICT;
    if (b.edition == ANTHERCUP_PRESENT) return class <= 18;
    if (b.edition == ANTHERCUP_OLD && class <= 18) return class == 1 || class == 3 || class == 5 || class == 11;
    return class <= 21;
}

/* by the header, the numbers that a refusal in a record of this edition and way may have */
static int number_in_range(struct book b, uint8_t number) {
    return (number >= 1 && number <= 6) || (number == 10 && !(is_known(b) && b.way == ANTHERCUP_LENIENT));
}

static int among(unsigned low, unsigned high, unsigned x) { return low <= x && x <= high; }

/* by the header, a whole record, whatever its edition and way */
static int in_range(const uint8_t *l) {
    unsigned octets = l[2] + 256u * l[3], room = l[8];
    int inner = l[4] || l[5] || l[6] || l[7], kept = l[13] || l[14] || l[15];
    if (kept || !parameter_in_range(l)) return 0;
    switch (l[0]) {
    case 0:
    case 1: return !inner && octets == l[0] && !l[8] && !l[9];
    case 2: return !inner && !l[9] && among(5, 257, octets + room);
    case 3:
        return !l[5] && !l[6] && !l[7] && !l[9] && class_in_range(book_of(l), l[4]) && room >= 1
            && among(6, 258, octets + room);
    case 4:
        return !l[9] && class_in_range(book_of(l), l[4]) && l[6] < l[5]
            && among(5u + l[6], 257u + l[6], octets + l[5] + room);
    case 5: return !inner && !l[1] && !l[8] && !l[9] && among(6, 258, octets);
    case 6: return !inner && !l[1] && !l[8] && number_in_range(book_of(l), l[9]) && octets <= 257;
    default: return 0;
    }
}

/* what a record gets at once: 17, 16, or 0 where it is heard */
static unsigned refused_record(const uint8_t *l) {
    if (!in_range(l)) return ANTHERCUP_REFUSED_RECORD;
    return is_known(book_of(l)) ? 0 : ANTHERCUP_REFUSED_UNKNOWN;
}

/* a record gets 17 or 16 alone, and stays; or it is heard by its edition and way, and stays of them and in range */
static void heard_or_refused(const uint8_t *o, size_t n, uint8_t *l, const uint8_t *octets, size_t run) {
    uint8_t before[ANTHERCUP_LISTENER_OCTETS];
    unsigned number = refused_record(l);
    records[number ? number - 15 : 0]++;
    memcpy(before, l, sizeof before);
    uint64_t answer = anthercup_listen(l, sizeof before, octets, run);
    if (number) {
        same("a record that is refused", o, n, (unsigned long)answer, number);
        same("a record that is refused: stays", o, n, (unsigned long)memcmp(l, before, sizeof before), 0);
        return;
    }
    number = anthercup_number(answer);
    same("a record that is heard", o, n, number <= 6 || (number == 10 && before[12] == ANTHERCUP_STRICT), 1);
    same("a record that is heard: named", o, n, anthercup_edition(answer), before[11]);
    same("a record that is heard: its edition", o, n, l[11], before[11]);
    same("a record that is heard: its way", o, n, l[12], before[12]);
    same("a record that is heard: in range", o, n, refused_record(l), 0);
}

/* a record after o[0..n) with another parameter's number, often near the most that the octets can hold: 17, or stepped
 * from there on */
static void another_parameter(struct traffic *t, const uint8_t *o, size_t n, const uint8_t *record) {
    uint8_t l[ANTHERCUP_LISTENER_OCTETS], before[sizeof l], octet = (uint8_t)traffic_number(t, 256);
    unsigned most = (record[2] + 256u * record[3]) / 3, number, begun;
    memcpy(l, record, sizeof l);
    l[10] = (uint8_t)(traffic_number(t, 4) ? most + traffic_number(t, 4) - 2 : traffic_number(t, 256));
    memcpy(before, l, sizeof l);
    uint64_t answer = anthercup_listen(l, sizeof l, &octet, 1);
    number = anthercup_number(answer);
    same("another parameter", o, n, number != ANTHERCUP_REFUSED_RECORD, (unsigned long)parameter_in_range(before));
    same("another parameter: known", o, n, number != ANTHERCUP_REFUSED_RECORD, (unsigned long)in_range(before));
    if (number == ANTHERCUP_REFUSED_RECORD) {
        same("another parameter: stays", o, n, (unsigned long)memcmp(l, before, sizeof l), 0);
        return;
    }
    begun = before[10] + (before[0] == 2 ? 1u : 0u);
    if (!anthercup_listen_waits(answer) && (number < 3 || number > 5) && number != 10) begun = 0;
    same("another parameter: kept", o, n, l[10], begun);
    same("another parameter: said", o, n, anthercup_parameter(answer), number ? begun : 0);
    same("another parameter: in range", o, n, (unsigned long)parameter_in_range(l), 1);
}

/* a record after o[0..n) with another edition or way, the other one or an unknown one */
static void of_another(struct traffic *t, const uint8_t *o, size_t n, const uint8_t *record) {
    uint8_t l[ANTHERCUP_LISTENER_OCTETS], octets[4];
    struct book b = traffic_number(t, 2) ? another_book(t, book_of(record)) : unknown_book(t);
    memcpy(l, record, sizeof l);
    l[11] = b.edition, l[12] = b.way;
    for (size_t i = 0; i < sizeof octets; i++) octets[i] = (uint8_t)traffic_number(t, 256);
    heard_or_refused(o, n, l, octets, traffic_number(t, sizeof octets + 1));
}

static void in_runs(struct traffic *t, struct book b, const uint8_t *o, size_t n, struct second_answer whole,
                    uint32_t most) {
    uint8_t l[ANTHERCUP_LISTENER_OCTETS];
    size_t at = 0, taken = 0;
    memset(l, 0x5A, sizeof l);
    same("reset", o, 0, (unsigned long)reset(t, b, l, sizeof l), word_of(0, 0, 0, whole.edition));
    for (;;) {
        size_t run = most ? traffic_number(t, most + 1) : n;
        if (run > n - at) run = n - at;
        uint64_t answer = anthercup_listen(l, sizeof l, o + at, run);
        at += run;
        taken += anthercup_taken(answer);
        struct second_answer s = traffic_number(t, 32) ? at_cut(whole, at) : second_listen(b.edition, b.way, o, at);
        as_second(o, at, s, answer, taken);
        size_t begun = s.answer == SECOND_WAITS ? second_begun(b.edition, o, at) : s.parameter;
        same("record: parameter", o, at, l[10], begun);
        same("record: edition", o, at, l[11], b.edition);
        same("record: way", o, at, l[12], b.way);
        same("record: kept", o, at, (unsigned long)(l[13] | l[14] | l[15]), 0);
        if (traffic_number(t, 8) == 0) another_parameter(t, o, at, l);
        if (traffic_number(t, 8) == 0) of_another(t, o, at, l);
        if (at == n) return;
    }
}

/* random octets; as many of them in range as there are where the stage's unused octets are often 0 */
static void any_record(struct traffic *t) {
    uint8_t l[40], before[40], octet = (uint8_t)traffic_number(t, 256);
    size_t size = traffic_number(t, 4) ? ANTHERCUP_LISTENER_OCTETS : traffic_number(t, sizeof l);
    for (size_t i = 0; i < size; i++) {
        uint32_t x = traffic_number(t, 16) ? traffic_number(t, 24) : traffic_number(t, 256);
        l[i] = (uint8_t)(traffic_number(t, 3) ? 0 : x);
    }
    if (size > 12 && traffic_number(t, 2)) {
        l[0] = (uint8_t)(2 + traffic_number(t, 5));
        l[11] = (uint8_t)traffic_number(t, 3), l[12] = (uint8_t)traffic_number(t, 3);
        memset(l + 13, 0, size - 13);
        if (l[0] < 5) l[9] = 0;
    }
    if (size == ANTHERCUP_LISTENER_OCTETS) {
        memcpy(before, l, size);
        heard_or_refused(before, size, l, &octet, 1);
        return;
    }
    memcpy(before, l, size);
    same("17 alone", before, size, (unsigned long)anthercup_listen(l, size, &octet, 1), ANTHERCUP_REFUSED_RECORD);
    same("a record on 17", before, size, (unsigned long)memcmp(l, before, size), 0);
}

/* an entry's octets, by the header: what its kind does not use is 0 */
static void lay_entry(const struct second_entry *e, uint8_t *cell) {
    size_t text = e->kind == SECOND_MARKED ? 4 : 2;
    memset(cell, 0, 8);
    cell[0] = e->type, cell[1] = e->kind;
    switch (e->kind) {
    case SECOND_STATE: cell[4] = (uint8_t)e->number[1], cell[5] = (uint8_t)(e->number[1] >> 8); /* fall through */
    case SECOND_CODE:
    case SECOND_MARKED: cell[2] = (uint8_t)e->number[0]; break;
    default:
        for (size_t i = 0; i < 5; i++) cell[2 + i] = (uint8_t)e->number[i];
    }
    if (e->kind != SECOND_TEXT && e->kind != SECOND_CARRIED && e->kind != SECOND_MARKED) return;
    cell[text] = (uint8_t)e->start, cell[text + 1] = (uint8_t)(e->start >> 8);
    cell[text + 2] = (uint8_t)e->length, cell[text + 3] = (uint8_t)(e->length >> 8);
}

static void date_is(const uint8_t *o, size_t n, const uint8_t *draft, unsigned i, const struct second_entry *e) {
    same("month", o, n, anthercup_entry_month(draft, i), e->number[0]);
    same("day", o, n, anthercup_entry_day(draft, i), e->number[1]);
    same("hour", o, n, anthercup_entry_hour(draft, i), e->number[2]);
    same("minute", o, n, anthercup_entry_minute(draft, i), e->number[3]);
}

/* what the readers of one kind say, of any other entry -1, and of one that has no text 0 and 0 */
static void readers_say(const uint8_t *o, size_t n, const uint8_t *draft, unsigned i, const struct second_entry *e) {
    int moment = e->kind == SECOND_MOMENT, duration = e->kind == SECOND_DURATION, marked = e->kind == SECOND_MARKED;
    const int said[] = {anthercup_entry_second(draft, i), anthercup_entry_duration_hours(draft, i),
                        anthercup_entry_duration_minutes(draft, i), anthercup_entry_duration_seconds(draft, i),
                        anthercup_entry_mark(draft, i)};
    const int wanted[] = {moment ? e->number[4] - 1 : -1, duration ? e->number[0] : -1, duration ? e->number[1] : -1,
                          duration ? e->number[2] : -1, marked ? e->number[0] : -1};
    for (size_t k = 0; k < sizeof said / sizeof said[0]; k++)
        same("second, duration or mark", o, n, (unsigned long)said[k], (unsigned long)wanted[k]);
    same("start", o, n, anthercup_entry_start(draft, i), e->start);
    same("length", o, n, anthercup_entry_length(draft, i), e->length);
}

/* an entry: its octets, and what the header's readers say of them */
static void entry_is(const uint8_t *o, size_t n, const uint8_t *draft, unsigned i, const struct second_entry *e) {
    uint8_t cell[8];
    lay_entry(e, cell);
    same("an entry's octets", o, n, (unsigned long)memcmp(anthercup_entry(draft, i), cell, sizeof cell), 0);
    same("entry type", o, n, anthercup_entry_type(draft, i), e->type);
    same("kind of value", o, n, anthercup_entry_kind(draft, i), e->kind);
    switch (e->kind) {
    case SECOND_CODE: same("code", o, n, anthercup_entry_code(draft, i), e->number[0]); break;
    case SECOND_DATE:
    case SECOND_MOMENT: date_is(o, n, draft, i, e); break;
    case SECOND_STATE:
        same("state", o, n, anthercup_entry_state(draft, i), e->number[0]);
        same("reference", o, n, anthercup_entry_reference(draft, i), e->number[1]);
        break;
    }
    readers_say(o, n, draft, i, e);
    kinds[e->kind]++;
}

/* a whole read into a record and an area that hold noise: what is not written must stay, all that is written must be
 * as the second reader has it */
static void read_as_second(struct traffic *t, struct book b, const uint8_t *o, size_t n, size_t draft_len,
                           size_t area) {
    uint8_t draft[ANTHERCUP_DRAFT_OCTETS + 8], texts[300], draft_before[sizeof draft], texts_before[sizeof texts];
    struct second_draft s;
    memset(draft, (int)traffic_number(t, 256), sizeof draft);
    memset(texts, (int)traffic_number(t, 256), sizeof texts);
    memcpy(draft_before, draft, sizeof draft);
    memcpy(texts_before, texts, sizeof texts);
    uint64_t answer = read_by(t, b, o, n, draft, draft_len, texts, area);
    struct second_verdict v = second_read(b.edition, b.way, o, n, area, &s);
    size_t laid = 0;
    if (draft_len != ANTHERCUP_DRAFT_OCTETS) v = no_record();
    same("read: number", o, n, anthercup_number(answer), v.number);
    same("read: place", o, n, anthercup_place(answer), v.place);
    same("read: parameter", o, n, anthercup_parameter(answer), v.parameter);
    same("read: octets taken", o, n, anthercup_taken(answer), 0);
    same("read: edition", o, n, anthercup_edition(answer), v.edition);
    if (v.number) {
        same("read: size of a refusal", o, n, anthercup_size(answer), 0);
        same("read: record of a refusal", o, n, (unsigned long)memcmp(draft, draft_before, sizeof draft), 0);
    } else {
        laid = s.text_octets;
        same("read: text octets", o, n, anthercup_size(answer), laid);
        same("read: texts", o, n, (unsigned long)memcmp(texts, s.texts, laid), 0);
        same("read: message type", o, n, anthercup_message_type(draft), s.message_type);
        same("read: entries", o, n, anthercup_entries(draft), s.entries);
        same("read: edition of the draft", o, n, anthercup_draft_edition(draft), s.edition);
        for (size_t i = 3; i < 8; i++) same("read: header", o, n, draft[i], 0);
        for (unsigned i = 0; i < ANTHERCUP_MOST_ENTRIES; i++) entry_is(o, n, draft, i, &s.entry[i]);
        for (unsigned i = 0; i < s.entries && s.edition == ANTHERCUP_PRESENT; i++) types[s.entry[i].type]++;
        for (size_t i = ANTHERCUP_DRAFT_OCTETS; i < sizeof draft; i++)
            same("read: behind the record", o, n, draft[i], draft_before[i]);
    }
    int rest = memcmp(texts + laid, texts_before + laid, sizeof texts - laid);
    same("read: the rest of the area", o, n, (unsigned long)rest, 0);
}

/* with room; some with every area near the limit; and with records of other sizes */
static void reads(struct traffic *t, struct book b, const uint8_t *o, size_t n) {
    struct second_draft s;
    read_as_second(t, b, o, n, ANTHERCUP_DRAFT_OCTETS, ANTHERCUP_TEXTS_OCTETS);
    if (traffic_number(t, 8) == 0 && second_read(b.edition, b.way, o, n, ANTHERCUP_TEXTS_OCTETS, &s).number == 0)
        for (size_t area = s.text_octets < 2 ? 0 : s.text_octets - 2u; area <= s.text_octets + 1u; area++)
            read_as_second(t, b, o, n, ANTHERCUP_DRAFT_OCTETS, area);
    if (traffic_number(t, 4) == 0) {
        size_t size = ANTHERCUP_DRAFT_OCTETS - 2 + traffic_number(t, 5);
        if (traffic_number(t, 2)) size = traffic_number(t, ANTHERCUP_DRAFT_OCTETS);
        read_as_second(t, b, o, n, size, traffic_number(t, 260));
    }
}

/* what a desk's record shows, as the second reader keeps it */
static struct second_desk desk_of(const uint8_t *desk) {
    struct second_desk s;
    s.waiting = anthercup_waiting(desk);
    s.lamp = (int)anthercup_lamp(desk) - 1;
    for (unsigned i = 0; i < SECOND_PLACES; i++) s.open[i] = anthercup_open(desk, i);
    return s;
}

static int same_desk(struct second_desk a, struct second_desk b) {
    return a.waiting == b.waiting && a.lamp == b.lamp && memcmp(a.open, b.open, sizeof a.open) == 0;
}

/* the same desk through both, and settled twice */
static uint64_t settles(struct book b, const uint8_t *o, size_t n, uint8_t *desk) {
    struct second_desk s = desk_of(desk), before = s;
    uint8_t once[ANTHERCUP_DESK_OCTETS];
    struct second_verdict v = second_settle(b.edition, b.way, &s, o, n);
    uint64_t answer = anthercup_settle(b.edition, b.way, desk, sizeof once, o, n);
    same("settle: number", o, n, anthercup_number(answer), v.number);
    same("settle: place", o, n, anthercup_place(answer), v.place);
    same("settle: parameter", o, n, anthercup_parameter(answer), v.parameter);
    same("settle: other fields", o, n, (unsigned long)answer, word_of(v.number, v.place, v.parameter, v.edition));
    same("settle: desk", o, n, (unsigned long)same_desk(desk_of(desk), s), 1);
    if (v.number) same("settle: desk of a refusal", o, n, (unsigned long)same_desk(s, before), 1);
    memcpy(once, desk, sizeof once);
    same("settle: twice", o, n, anthercup_settle(b.edition, b.way, desk, sizeof once, o, n) != answer, 0);
    same("settle: desk of twice", o, n, (unsigned long)memcmp(once, desk, sizeof once), 0);
    return answer;
}

/* the type of some parameter, where the octets are a message */
static uint8_t own_type(struct traffic *t, const uint8_t *o, size_t n) {
    size_t at = 2, end = n > 2 ? n - 1 : 0;
    while (at + 1 < end && at + 2u + o[at + 1] < end && traffic_number(t, 4)) at += 2u + o[at + 1];
    return at < end ? o[at] : 0;
}

/* of some types what counts, and number, place and parameter of the whole read where the octets are no message */
static void counts(struct traffic *t, struct book b, const uint8_t *o, size_t n, struct second_verdict v) {
    const uint8_t asked[] = {(uint8_t)traffic_number(t, 256), (uint8_t)traffic_number(t, 32), own_type(t, o, n)};
    for (size_t i = 0; i < sizeof asked; i++) {
        size_t start = 0, length = 0;
        int one = second_counted(b.edition, b.way, o, n, asked[i], &start, &length);
        uint64_t answer = anthercup_counted(b.edition, b.way, o, n, asked[i]);
        counting += (unsigned long)one;
        same("counted: number", o, n, anthercup_number(answer), v.number);
        same("counted: place", o, n, anthercup_place(answer), v.place);
        same("counted: whether", o, n, (unsigned long)anthercup_counts(answer), (unsigned long)one);
        same("counted: start", o, n, anthercup_counted_start(answer), start);
        same("counted: length", o, n, anthercup_counted_length(answer), length);
        same("counted: parameter", o, n, anthercup_parameter(answer), v.parameter);
        same("counted: edition", o, n, anthercup_edition(answer), v.edition);
    }
}

/* a line of a directory about a caller: for it, for one that it begins or that begins it, without an = behind it, or
 * with any octet before it */
static size_t line(struct traffic *t, uint8_t *d, const uint8_t *caller, size_t length) {
    static const char *const texts[] = {"", "Ann", "B=C", "=", "the post\r", "40912=x"};
    const char *text = texts[traffic_number(t, sizeof texts / sizeof texts[0])];
    uint32_t sort = traffic_number(t, 8);
    size_t n = 0, some = sort < 4 ? length : traffic_number(t, (uint32_t)length + 1);
    if (sort == 7) d[n++] = (uint8_t)traffic_number(t, 256);
    for (size_t i = 0; i < some; i++) d[n++] = caller[i];
    if (sort == 6) d[n++] = '7';
    if (sort != 3) d[n++] = '=';
    for (size_t i = 0; text[i]; i++) d[n++] = (uint8_t)text[i];
    d[n++] = '\n';
    return n;
}

/* the caption, with a directory about the caller that counts, or about 7 */
static void caption(struct traffic *t, struct book b, const uint8_t *o, size_t n) {
    uint8_t d[6 * 64], part[ANTHERCUP_PART_OCTETS + 4], was[sizeof part];
    size_t size = traffic_number(t, 16) ? ANTHERCUP_PART_OCTETS : traffic_number(t, sizeof part);
    size_t octets = 0, start = 0, length = 0;
    const uint8_t *caller = (const uint8_t *)"7";
    if (second_counted(b.edition, b.way, o, n, 0x02, &start, &length)) caller = o + start;
    else length = 1;
    for (uint32_t k = traffic_number(t, 6); k > 0; k--) octets += line(t, d + octets, caller, length);
    if (octets && traffic_number(t, 2)) octets--;
    struct second_part s = second_caption(b.edition, b.way, o, n, d, octets);
    if (size != ANTHERCUP_PART_OCTETS) s.number = ANTHERCUP_REFUSED_RECORD, s.place = s.parameter = 0, s.edition = 0;
    memset(part, 0x5A, sizeof part);
    memcpy(was, part, sizeof was);
    uint64_t answer = anthercup_caption(b.edition, b.way, o, n, d, octets, part, size);
    same("caption: word", o, n, (unsigned long)answer, word_of(s.number, s.place, s.parameter, s.edition));
    if (s.number) {
        same("caption: stays", o, n, (unsigned long)memcmp(part, was, sizeof part), 0);
        return;
    }
    same("caption: side", o, n, (unsigned long)anthercup_part_in_directory(part), s.slice == SECOND_IN_DIRECTORY);
    same("caption: start", o, n, anthercup_part_start(part), s.start);
    same("caption: length", o, n, anthercup_part_length(part), s.length);
    for (size_t i = 1; i < 8; i++) same("caption: kept", o, n, part[i], 0);
    for (size_t i = ANTHERCUP_PART_OCTETS; i < sizeof part; i++) same("caption: behind", o, n, part[i], was[i]);
    by_line += s.slice == SECOND_IN_DIRECTORY;
}

/* any record at all: 17 exactly where size, codes, places or a reference twice make it none */
static void any_desk(struct traffic *t, struct book b, const uint8_t *o, size_t n) {
    static const uint32_t ends[] = {1, 2, 3, 65535, 65536, 65537, 16777215};
    uint8_t any[ANTHERCUP_DESK_OCTETS + 4] = {0}, was[sizeof any];
    size_t size = traffic_number(t, 4) ? ANTHERCUP_DESK_OCTETS : traffic_number(t, sizeof any);
    for (size_t i = 0; i < 3; i++)
        any[i] = (uint8_t)(traffic_number(t, 3) ? traffic_number(t, 3) : traffic_number(t, 256));
    if (traffic_number(t, 8) == 0) any[3] = (uint8_t)traffic_number(t, 4);
    for (uint32_t k = traffic_number(t, 4); k > 0; k--) {
        uint32_t held = ends[traffic_number(t, sizeof ends / sizeof ends[0])];
        uint32_t at = 4 + 3 * traffic_number(t, SECOND_PLACES);
        for (unsigned i = 0; i < 3; i++) any[at + i] = (uint8_t)(held >> 8 * i);
    }
    memcpy(was, any, sizeof any);
    struct second_desk s = desk_of(any);
    if (any[0] > 1 || (any[0] == 0 && any[1] != 0) || any[3] != 0) s.waiting = SECOND_UNKNOWN - 1;
    if (any[2] > 2) s.lamp = 2;
    struct second_verdict v = second_settle(b.edition, b.way, &s, o, n);
    if (size != ANTHERCUP_DESK_OCTETS) v = no_record();
    uint64_t answer = anthercup_settle(b.edition, b.way, any, size, o, n);
    same("any desk: number", was, size, anthercup_number(answer), v.number);
    same("any desk: place", was, size, anthercup_place(answer), v.place);
    same("any desk: parameter", was, size, anthercup_parameter(answer), v.parameter);
    same("any desk: edition", was, size, anthercup_edition(answer), v.edition);
    if (v.number) same("any desk: stays", was, size, (unsigned long)memcmp(any, was, sizeof any), 0);
    else same("any desk: settled", was, size, (unsigned long)same_desk(desk_of(any), s), 1);
    answer = anthercup_new_desk(any, size);
    same("new desk", was, size, (unsigned long)answer, size == ANTHERCUP_DESK_OCTETS ? 0 : ANTHERCUP_REFUSED_RECORD);
}

/* what the strict way accepts the lenient one accepts too, with the same words, draft, area, caption and desk */
static void lenient_too(uint8_t edition, const uint8_t *o, size_t n, const uint8_t *desk) {
    uint8_t drafts[2][ANTHERCUP_DRAFT_OCTETS], areas[2][ANTHERCUP_TEXTS_OCTETS], parts[2][ANTHERCUP_PART_OCTETS];
    uint8_t desks[2][ANTHERCUP_DESK_OCTETS];
    uint64_t words[2][4];
    memset(drafts, 0x5A, sizeof drafts), memset(areas, 0x5A, sizeof areas), memset(parts, 0x5A, sizeof parts);
    for (uint8_t way = 0; way <= ANTHERCUP_LENIENT; way++) {
        memcpy(desks[way], desk, sizeof desks[way]);
        words[way][0] = anthercup_read_way(edition, way, o, n, drafts[way], sizeof drafts[way], areas[way],
                                           sizeof areas[way]);
        words[way][1] = anthercup_counted(edition, way, o, n, ANTHERCUP_PARAMETER_CALLER);
        words[way][2] = anthercup_caption(edition, way, o, n, o, n, parts[way], sizeof parts[way]);
        words[way][3] = anthercup_settle(edition, way, desks[way], sizeof desks[way], o, n);
    }
    same("lenient too: read", o, n, anthercup_number(words[ANTHERCUP_STRICT][0]), 0);
    same("lenient too: words", o, n, (unsigned long)memcmp(words[0], words[1], sizeof words[0]), 0);
    same("lenient too: draft", o, n, (unsigned long)memcmp(drafts[0], drafts[1], sizeof drafts[0]), 0);
    same("lenient too: area", o, n, (unsigned long)memcmp(areas[0], areas[1], sizeof areas[0]), 0);
    same("lenient too: part", o, n, (unsigned long)memcmp(parts[0], parts[1], sizeof parts[0]), 0);
    same("lenient too: desk", o, n, (unsigned long)memcmp(desks[0], desks[1], sizeof desks[0]), 0);
}

/* messages about a few references on one desk, cleared now and then, most of the present edition, some of the old one,
 * which says nothing of references, by both ways, and by unknown numbers: after each, a reference is open exactly as
 * the last notice said that was done and added or removed it */
static void history(struct traffic *t, long messages) {
    static uint8_t last[65536];
    uint8_t o[TRAFFIC_OCTETS], desk[ANTHERCUP_DESK_OCTETS];
    unsigned long full = 0, old = 0;
    unsigned open = 0;
    anthercup_new_desk(desk, sizeof desk);
    for (long i = 0; i < messages; i++) {
        struct book b = any_book(t);
        if (traffic_number(t, 2)) b.edition = ANTHERCUP_PRESENT;
        if (traffic_number(t, 64) == 0) b = unknown_book(t);
        size_t n = traffic_about(t, o), start, length;
        uint64_t answer = settles(b, o, n, desk);
        full += anthercup_number(answer) == ANTHERCUP_REFUSED_NO_PLACE;
        old += b.edition == ANTHERCUP_OLD;
        int done = anthercup_number(answer) == 0 && o[0] == 0x82;
        if (done && second_counted(b.edition, b.way, o, n, 0x0D, &start, &length) && o[start] != 0x55) {
            uint8_t *word = &last[o[start + 1] * 256 + o[start + 2]];
            open = open - *word + (o[start] == 0xFF);
            *word = o[start] == 0xFF;
        }
        if (traffic_number(t, 500) == 0) {
            anthercup_new_desk(desk, sizeof desk);
            memset(last, 0, sizeof last);
            open = 0;
        }
        unsigned held = 0;
        for (unsigned p = 0; p < ANTHERCUP_MOST_PLACES; p++)
            if (anthercup_open(desk, p) >= 0) {
                same("history: held is open", o, n, last[anthercup_open(desk, p)], 1);
                held++;
            }
        same("history: open is held", o, n, held, open);
    }
    if (full == 0 || old == 0) differ("history: no message without a place, or of the old edition", o, 0, 0, 1);
    printf("history: %ld messages about references, %lu of the old edition, %lu without a place\n", messages, old,
           full);
}

/* an edition or a way that there is not, told to every export: 16 alone, behind 17, and all that is lent stays */
static void nowhere(struct traffic *t, const uint8_t *o, size_t n, uint8_t *desk) {
    uint8_t l[ANTHERCUP_LISTENER_OCTETS], before[sizeof l];
    struct book b = unknown_book(t);
    struct second_answer s = second_listen(b.edition, b.way, o, n);
    struct second_draft d;
    for (size_t i = 0; i < sizeof l; i++) l[i] = (uint8_t)traffic_number(t, 256);
    memcpy(before, l, sizeof l);
    same("reset, unknown", o, n, (unsigned long)reset(t, b, l, sizeof l), s.number);
    same("reset, unknown: stays", o, n, (unsigned long)memcmp(l, before, sizeof l), 0);
    reads(t, b, o, n);
    counts(t, b, o, n, second_read(b.edition, b.way, o, n, ANTHERCUP_TEXTS_OCTETS, &d));
    caption(t, b, o, n);
    settles(b, o, n, desk);
    any_desk(t, b, o, n);
}

/* what came of it, by edition and way */
static void tally(struct book b, struct second_answer whole) {
    in_first += whole.parameter == 1;
    in_later += whole.parameter > 1;
    in_last += whole.parameter == 85;
    by_book[b.edition][b.way].judged++;
    by_book[b.edition][b.way].messages += whole.answer == SECOND_MESSAGE;
    by_book[b.edition][b.way].unlisted += whole.number == 10;
}

/* one message through everything, by one edition and way; every eighth octet by octet too, and by numbers that there
 * are not */
static void one_message(struct traffic *t, struct book b, const uint8_t *o, size_t n, uint8_t *desk, long i) {
    struct second_answer whole = second_listen(b.edition, b.way, o, n);
    struct second_draft s;
    struct second_verdict v = second_read(b.edition, b.way, o, n, ANTHERCUP_TEXTS_OCTETS, &s);
    tally(b, whole);
    in_runs(t, b, o, n, whole, 0);
    in_runs(t, b, o, n, whole, 40);
    if (i % 8 == 0) in_runs(t, b, o, n, whole, 1);
    any_record(t);
    reads(t, b, o, n);
    counts(t, b, o, n, v);
    caption(t, b, o, n);
    if (b.way == ANTHERCUP_STRICT && v.number == 0) lenient_too(b.edition, o, n, desk);
    settles(b, o, n, desk);
    any_desk(t, b, o, n);
    if (i % 8 == 0) nowhere(t, o, n, desk);
    if (i % 64 == 0) anthercup_new_desk(desk, ANTHERCUP_DESK_OCTETS);
}

/* messages with dates at the limits of their months and beside them; some must be taken, and some spoilt at each of
 * the day's two digits */
static void dated(struct traffic *t, long messages) {
    uint8_t o[TRAFFIC_OCTETS], desk[ANTHERCUP_DESK_OCTETS];
    unsigned long taken = 0, spoilt[2] = {0, 0};
    anthercup_new_desk(desk, sizeof desk);
    for (long i = 0; i < messages; i++) {
        struct book b = any_book(t);
        size_t n = traffic_dated(t, o), date = 0;
        struct second_answer s = second_listen(b.edition, b.way, o, n);
        one_message(t, b, o, n, desk, i);
        if (s.answer == SECOND_MESSAGE) taken++;
        if (s.number != 5) continue;
        for (size_t place = 2; place < s.place; place += 2u + o[place + 1]) date = place;
        if (s.place == date + 4 || s.place == date + 5) spoilt[s.place - date - 4]++;
    }
    if (!taken || !spoilt[0] || !spoilt[1]) differ("dated: no message on one side of a day", o, 0, 0, 1);
    printf("dated: %ld messages with dates at limits, %lu taken, %lu and %lu spoilt at a day's two digits\n", messages,
           taken, spoilt[0], spoilt[1]);
}

/* what was judged by each edition and way; of each there must be messages, and 10 by the strict way alone */
static void say_books(const uint8_t *o) {
    for (unsigned edition = 0; edition < 2; edition++)
        for (unsigned way = 0; way < 2; way++) {
            unsigned long messages = by_book[edition][way].messages, unlisted = by_book[edition][way].unlisted;
            if (messages == 0) differ("no message by an edition and a way", o, 0, 0, 1);
            if ((unlisted != 0) != (way == ANTHERCUP_STRICT)) differ("10 by a way", o, 0, unlisted, 0);
            printf("edition %u way %u: %lu judged, %lu of them messages, %lu refused with 10\n", edition, way,
                   by_book[edition][way].judged, messages, unlisted);
        }
}

/* what was read, by kind of value; of each there must be entries, and of each type that the present edition lists */
static void say_entries(const uint8_t *o) {
    static const uint8_t listed[] = {0x01, 0x02, 0x03, 0x04, 0x07, 0x08, 0x0B, 0x0D, 0x0E, 0x0F, 0x10, 0x11, 0x12, 0x13,
                                     0x15, 0x16, 0x1A, 0x20, 0x21, 0x22, 0x23, 0x30, 0x31, 0x40, 0x50, 0x55, 0xE0};
    unsigned long least = types[listed[0]];
    for (size_t i = 0; i < sizeof kinds / sizeof kinds[0]; i++)
        if (kinds[i] == 0) differ("no entry of a kind of value", o, 0, 0, i);
    for (size_t i = 0; i < sizeof listed; i++)
        if (types[listed[i]] < least) least = types[listed[i]];
    if (least == 0) differ("no entry of a type", o, 0, 0, 1);
    printf("entries: %lu codes and unused ones, %lu dates, %lu states, %lu texts, %lu carried, %lu moments, %lu "
           "durations, %lu marked; of each type at least %lu; of the types asked for %lu count\n", kinds[SECOND_CODE],
           kinds[SECOND_DATE], kinds[SECOND_STATE], kinds[SECOND_TEXT], kinds[SECOND_CARRIED], kinds[SECOND_MOMENT],
           kinds[SECOND_DURATION], kinds[SECOND_MARKED], least, counting);
}

/* built for each edition and way in turn, and judged by them, or now and then by others */
int main(int argc, char **argv) {
    struct traffic t;
    uint8_t o[TRAFFIC_OCTETS], desk[ANTHERCUP_DESK_OCTETS];
    long messages = argc > 1 ? atol(argv[1]) : 250000;
    traffic_start(&t, 1);
    anthercup_new_desk(desk, sizeof desk);
    for (long i = 0; i < messages; i++) {
        struct book b = any_book(&t);
        t.edition = b.edition, t.way = b.way;
        size_t n = traffic_next(&t, o);
        one_message(&t, traffic_number(&t, 8) ? b : another_book(&t, b), o, n, desk, i);
    }
    if (by_line == 0) differ("caption: no line of a directory", o, 0, 0, 1);
    history(&t, messages / 4);
    dated(&t, messages / 8);
    if (!in_first || !in_later || !in_last) differ("no fault in the first, a later or the last parameter", o, 0, 0, 1);
    printf("parameters: %lu messages with a fault in the first, %lu in a later one, %lu of them in the 85th\n",
           in_first, in_later, in_last);
    say_books(o);
    say_entries(o);
    if (!records[0] || !records[1] || !records[2]) differ("no other record of a kind", o, 0, 0, 1);
    printf("records: %lu that no octets led to heard, %lu with 16, %lu with 17\n", records[0], records[1], records[2]);
    printf("traffic: %ld messages, %lu answers as the second reader has them\n", messages, compared);
    return 0;
}
