/* The peers of the benchmark do our work: the same words, records and areas.
 * The plain listener and the tuned C hear traffic of both editions, for both
 * ways, in random runs, by the edition and way that it is built for or by
 * others, records of random octets, and records inside contents of every
 * class, at all places and with any memory, also such that no octets lead to;
 * the tuned C reads the traffic into areas of random sizes, and settles it on a
 * desk that lives on and on desks of random octets. Ours is called by the
 * functions that name no way, too. Unknown editions and ways are named now and
 * then. Usage: same [SEED] */
#include <stdio.h>
#include <stdlib.h>
#include <string.h>

#include "anthercup.h"
#include "peer.h"
#include "traffic.h"
#include "tuned.h"

enum { MESSAGES = 40000, ANY = 60 };

static unsigned long heard, sound, reads, accepted, nines, settled, done, full;

/* answers that name the old edition, and those with 10 and 16 */
static unsigned long old, unlisted, unknown;

/* octets inside contents that were taken, and those that were refused */
static unsigned long stood, spoilt;

/* What a call is told. */
struct book {
    uint8_t edition, way;
};

static void fail(const char *what, uint64_t x, uint64_t y)
{
    printf("same: %s: %llx and %llx, or another record\n", what,
           (unsigned long long)x, (unsigned long long)y);
    exit(1);
}

static void names(uint64_t answer)
{
    old += anthercup_edition(answer) == ANTHERCUP_OLD;
    unlisted += anthercup_number(answer) == ANTHERCUP_REFUSED_UNLISTED;
    unknown += anthercup_number(answer) == ANTHERCUP_REFUSED_UNKNOWN;
}

/* Often this number, now and then the other, or any. */
static uint8_t any_number(struct traffic *t, uint8_t number)
{
    if (traffic_number(t, 8))
        return number;
    if (traffic_number(t, 2))
        return (uint8_t)(1 - number);
    return (uint8_t)traffic_number(t, traffic_number(t, 2) ? 4 : 256);
}

static struct book any_book(struct traffic *t, uint8_t edition, uint8_t way)
{
    struct book b;

    b.edition = any_number(t, edition);
    b.way = any_number(t, way);
    return b;
}

/* ---- Listening ---- */

struct records {
    uint8_t ours[ANY], peer[ANY], tuned[ANY];
};

static void all_hear(struct records *r, size_t size, const uint8_t *o,
                     size_t n)
{
    uint64_t x = anthercup_listen(r->ours, size, o, n);
    uint64_t y = peer_listen(r->peer, size, o, n);
    uint64_t z = tuned_listen(r->tuned, size, o, n);

    heard++;
    names(x);
    sound += anthercup_number(x) != ANTHERCUP_REFUSED_RECORD
             && anthercup_number(x) != ANTHERCUP_REFUSED_UNKNOWN;
    if (x != y || memcmp(r->ours, r->peer, size) != 0)
        fail("listen", x, y);
    if (x != z || memcmp(r->ours, r->tuned, size) != 0)
        fail("listen, tuned", x, z);
}

/* A reset of records that hold anything, in the strict way also without naming
 * it; whether it was refused. */
static int all_reset(struct records *r, struct book b, size_t size)
{
    uint8_t before[ANY];
    uint64_t w, x, y, z;

    memcpy(before, r->ours, ANY);
    x = anthercup_reset_way(b.edition, b.way, r->ours, size);
    y = peer_reset(b.edition, b.way, r->peer, size);
    z = tuned_reset(b.edition, b.way, r->tuned, size);
    if (b.way == ANTHERCUP_STRICT) {
        w = anthercup_reset(b.edition, before, size);
        if (w != x || memcmp(before, r->ours, ANY) != 0)
            fail("reset, no way named", w, x);
    }
    names(x);
    if (x != y || memcmp(r->ours, r->peer, ANY) != 0)
        fail("reset", x, y);
    if (x != z || memcmp(r->ours, r->tuned, ANY) != 0)
        fail("reset, tuned", x, z);
    return anthercup_number(x) != 0;
}

static void in_runs(struct traffic *t, struct book b, const uint8_t *o,
                    size_t n)
{
    struct records r;

    memset(&r, (int)traffic_number(t, 256), sizeof r);
    if (all_reset(&r, b, ANTHERCUP_LISTENER_OCTETS))
        return;
    for (size_t at = 0, run; at < n; at += run) {
        run = traffic_number(t, 12);
        if (run > n - at)
            run = n - at;
        all_hear(&r, ANTHERCUP_LISTENER_OCTETS, o + at, run);
    }
    all_reset(&r, any_book(t, b.edition, b.way), traffic_number(t, 40));
}

static uint8_t any_octet(struct traffic *t)
{
    if (traffic_number(t, 2))
        return 0;
    return (uint8_t)traffic_number(t, traffic_number(t, 8) ? 23 : 256);
}

/* Parameters near the most that the octets so far can hold, or that any message
 * can. */
static uint8_t near_most(struct traffic *t, const uint8_t *record)
{
    unsigned most = (record[2] + 256u * record[3]) / 3;

    if (traffic_number(t, 4) == 0)
        most = 86;
    return (uint8_t)(most + traffic_number(t, 4) - 2);
}

/* Octets 1 to 10 that the stage does not use are 0, a bit for each. */
static void tidy(uint8_t *record)
{
    static const uint16_t unused[] = {0x7FC, 0x7F8, 0x2F0, 0x2E0,
                                      0x200, 0x7F2, 0x1F2};

    for (size_t i = 1; i <= 10 && record[0] < 7; i++)
        if (unused[record[0]] >> i & 1)
            record[i] = 0;
    record[3] &= 1;
}

static void any_record(struct traffic *t, const uint8_t *o, size_t n)
{
    struct records r = {{0}, {0}, {0}};
    size_t size = traffic_number(t, 8) ? ANTHERCUP_LISTENER_OCTETS
                                       : traffic_number(t, 40);

    for (size_t i = 0; i < size; i++)
        r.ours[i] = any_octet(t);
    if (size > 13 && traffic_number(t, 4)) {
        memset(r.ours + 13, 0, size - 13);
        r.ours[11] = any_number(t, (uint8_t)traffic_number(t, 2));
        r.ours[12] = any_number(t, (uint8_t)traffic_number(t, 2));
    }
    if (size > 10 && traffic_number(t, 2))
        r.ours[9] = 0, r.ours[0] = 4;
    if (size > 10 && traffic_number(t, 2))
        r.ours[10] = near_most(t, r.ours);
    if (size > 10 && traffic_number(t, 2))
        tidy(r.ours);
    memcpy(r.peer, r.ours, ANY);
    memcpy(r.tuned, r.ours, ANY);
    all_hear(&r, size, o, n < 5 ? n : 5);
}

/* An octet that some contents have, or any. */
static uint8_t content_octet(struct traffic *t)
{
    static const uint8_t some[] = {
        '0', '1', '2', '3', '5', '6', '9', '-', ',', ' ', 'A', 'Z', '@', '[',
        '#', '*', '(', ')', 'O', 'P', '/', ':', 0x7E, 0x7F, 0x1F, 0x00, 0x01,
        0x02, 0x03, 0x06, 0x07, 0x08, 0x0F, 0x10, 0x11, 0x18, 0x70, 0x80, 0x81,
        0x83, 0x87, 0xE0, 0xE8, 0xF0, 0xFF};

    return traffic_number(t, 8) ? some[traffic_number(t, sizeof some)]
                                : (uint8_t)traffic_number(t, 256);
}

/* A record inside contents: of a class, of its own length often, near or at
 * any index, with memories that occur or any; then up to 15 octets, one at a
 * time or in one run. A digit, a dash or a character is often repeated, so
 * that runs go on. */
static void in_contents(struct traffic *t)
{
    static const uint8_t lengths[] = {1,  8,  20, 1,  50, 1, 3,   1, 1,  1, 1,
                                      20, 10, 14, 6,  2,  253, 1, 10, 18, 1, 1};
    struct records r = {{0}, {0}, {0}};
    uint8_t o[15], class = (uint8_t)traffic_number(t, 22), length, index;
    size_t n = traffic_number(t, 2) ? 1 : traffic_number(t, sizeof o + 1);
    unsigned place;

    length = traffic_number(t, 4) ? lengths[class]
                                  : (uint8_t)(1 + traffic_number(t, 24));
    index = (uint8_t)traffic_number(t, length);
    place = 4u + index + traffic_number(t, 8);
    for (size_t i = 0; i < n; i++)
        o[i] = i && traffic_number(t, 2) ? o[i - 1] : content_octet(t);
    r.ours[0] = 4;
    r.ours[1] = (uint8_t)traffic_number(t, 256);
    r.ours[2] = (uint8_t)place;
    r.ours[3] = (uint8_t)(place >> 8);
    r.ours[4] = class;
    r.ours[5] = length;
    r.ours[6] = index;
    r.ours[7] = (uint8_t)(traffic_number(t, 2)   ? traffic_number(t, 7)
                          : traffic_number(t, 4) ? traffic_number(t, 34)
                                                 : traffic_number(t, 256));
    r.ours[8] = (uint8_t)(length == 253 ? 0 : traffic_number(t, 9));
    r.ours[10] = 1;
    r.ours[11] = class > 18 || (class % 2 && class < 12 && traffic_number(t, 2));
    r.ours[12] = (uint8_t)(class ? traffic_number(t, 2) : ANTHERCUP_LENIENT);
    memcpy(r.peer, r.ours, ANY);
    memcpy(r.tuned, r.ours, ANY);
    if (traffic_number(t, 4))
        all_hear(&r, ANTHERCUP_LISTENER_OCTETS, o, n);
    else
        for (size_t i = 0; i < n; i++)
            all_hear(&r, ANTHERCUP_LISTENER_OCTETS, o + i, 1);
    stood += r.ours[0] <= 4;
    spoilt += r.ours[0] == 6 && r.ours[9] == 5;
}

/* ---- Reading ---- */

static void both_read(struct traffic *t, struct book b, const uint8_t *o,
                      size_t n)
{
    static uint8_t a[700], c[700], s[300], u[300];
    size_t size = traffic_number(t, 50) ? ANTHERCUP_DRAFT_OCTETS
                                        : traffic_number(t, sizeof a);
    size_t area = traffic_number(t, 3) ? ANTHERCUP_TEXTS_OCTETS
                                       : traffic_number(t, 254);
    uint64_t x, y;

    for (size_t i = 0; i < sizeof a; i++)
        a[i] = c[i] = (uint8_t)traffic_number(t, 256);
    memset(s, 0xEE, sizeof s);
    memset(u, 0xEE, sizeof u);
    if (b.way == ANTHERCUP_STRICT && traffic_number(t, 2))
        x = anthercup_read(b.edition, o, n, a, size, s, area);
    else
        x = anthercup_read_way(b.edition, b.way, o, n, a, size, s, area);
    y = tuned_read(b.edition, b.way, o, n, c, size, u, area);
    reads++;
    names(x);
    accepted += anthercup_number(x) == 0;
    nines += anthercup_number(x) == ANTHERCUP_REFUSED_AREA;
    if (x != y || memcmp(a, c, sizeof a) || memcmp(s, u, sizeof s))
        fail("read", x, y);
}

/* ---- Settling ---- */

static void both_settle(struct book b, uint8_t *ours, uint8_t *tuned,
                        size_t size, const uint8_t *o, size_t n)
{
    uint64_t x = anthercup_settle(b.edition, b.way, ours, size, o, n);
    uint64_t y = tuned_settle(b.edition, b.way, tuned, size, o, n);

    settled++;
    names(x);
    done += anthercup_number(x) == 0;
    full += anthercup_number(x) == ANTHERCUP_REFUSED_NO_PLACE;
    if (x != y || memcmp(ours, tuned, ANTHERCUP_DESK_OCTETS))
        fail("settle", x, y);
}

static void any_desk(struct traffic *t, const uint8_t *o, size_t n)
{
    uint8_t a[ANY] = {0}, b[ANY];
    size_t size = traffic_number(t, 20) ? ANTHERCUP_DESK_OCTETS
                                        : 51 + traffic_number(t, 3);

    a[0] = (uint8_t)traffic_number(t, traffic_number(t, 8) ? 2 : 4);
    a[1] = (uint8_t)traffic_number(t, traffic_number(t, 2) ? 256 : 1);
    a[2] = (uint8_t)traffic_number(t, traffic_number(t, 8) ? 3 : 5);
    a[3] = traffic_number(t, 20) == 0;
    for (size_t i = 4; i < ANTHERCUP_DESK_OCTETS; i += 3) {
        if (traffic_number(t, 2))
            continue;
        a[i] = (uint8_t)traffic_number(t, traffic_number(t, 2) ? 256 : 30);
        a[i + 1] = (uint8_t)traffic_number(t, 2);
        a[i + 2] = traffic_number(t, 100) == 0;
    }
    memcpy(b, a, sizeof b);
    both_settle(any_book(t, ANTHERCUP_PRESENT, (uint8_t)traffic_number(t, 2)),
                a, b, size, o, n);
}

static void one_message(struct traffic *t, uint8_t *ours, uint8_t *tuned,
                        const uint8_t *o, size_t n)
{
    struct book b = any_book(t, t->edition, t->way);

    in_runs(t, b, o, n);
    for (int k = 0; k < 20; k++) {
        any_record(t, o, n);
        in_contents(t);
    }
    both_read(t, b, o, n);
    both_settle(b, ours, tuned, ANTHERCUP_DESK_OCTETS, o, n);
}

static void one_notice(struct traffic *t, uint8_t *ours, uint8_t *tuned,
                       uint8_t *o)
{
    size_t n = traffic_about(t, o);
    struct book b = any_book(t, ANTHERCUP_PRESENT, t->way);

    both_read(t, b, o, n);
    both_settle(b, ours, tuned, ANTHERCUP_DESK_OCTETS, o, n);
    any_desk(t, o, n);
    if (traffic_number(t, 40) == 0) {
        anthercup_new_desk(ours, ANTHERCUP_DESK_OCTETS);
        tuned_new_desk(tuned, ANTHERCUP_DESK_OCTETS);
    }
}

int main(int argc, char **argv)
{
    struct traffic t;
    uint8_t o[TRAFFIC_OCTETS];
    uint8_t a[ANTHERCUP_DESK_OCTETS], b[ANTHERCUP_DESK_OCTETS];

    traffic_start(&t, argc > 1 ? (unsigned)atoi(argv[1]) : 2);
    anthercup_new_desk(a, sizeof a);
    tuned_new_desk(b, sizeof b);
    for (int i = 0; i < MESSAGES; i++) {
        size_t n;

        t.edition = (uint8_t)traffic_number(&t, 2);
        t.way = (uint8_t)traffic_number(&t, 2);
        n = i % 8 ? traffic_next(&t, o) : traffic_dated(&t, o);
        one_message(&t, a, b, o, n);
        for (int k = 0; k < 5; k++)
            one_notice(&t, a, b, o);
    }
    printf("same: %lu calls of listen alike, %lu on sound records; %lu reads, "
           "%lu accepted, %lu with 9; %lu settlings, %lu done, %lu with 21; "
           "%lu answers name the old edition, %lu are 10, %lu are 16; of %lu "
           "runs inside contents %lu are refused with 5\n",
           heard, sound, reads, accepted, nines, settled, done, full, old,
           unlisted, unknown, stood + spoilt, spoilt);
    return !(sound && accepted && nines && done && full && old && unlisted
             && unknown && stood && spoilt);
}
