/* One piece of work on one message, many times, for counting instructions: EDITION and WAY are 0 or 1, WHO is none,
 * ours, second, peer (a plain C listener) or tuned (tuned C), WHAT is whole, octets (heard whole, or octet by octet),
 * read or settle. Says what came out last, so that no work is left out; a message that is refused ends it with status
 * 1. Usage: cost EDITION WAY WHO WHAT MESSAGE TIMES */
#include <stdio.h>
#include <stdlib.h>
#include <string.h>

#include "anthercup.h"
#include "peer.h"
#include "second.h"
#include "tuned.h"

static uint8_t edition, way;

/* parameters as octets; the message around them is made. The same messages by all editions and ways, but for three. The
 * fourth, of 258 octets: the old edition takes neither numbers of 20 digits nor names of 50 characters, so there its
 * texts have 18 and 20, and what is carried is so much longer: as many octets and parameters. By the strict way nothing
 * is carried: in the present edition names stand in its place, again as many octets and parameters; in the old one,
 * whose longest parameter has 22 octets, 258 octets take 13 parameters. The first: the old edition does not list 13H,
 * and by the strict way its message has 0BH. The sixth has one parameter of each type of document 02, Q-4: the old
 * edition carries them all, and by the strict way refuses it. */
static size_t message(int which, uint8_t *o) {
    static const uint8_t time[] = {1, 8, '0', '6', '1', '5', '1', '4', '3', '0'};
    static const char european[] =
        "\x0F\x0A" "0615143059" "\x10\x01" "7" "\x1A\x01" "8" "\x20\x0E" "FRF" "\x00" "0000023,45" "\x21\x0E" "---"
        "\x10" "00023-----" "\x22\x0E" "DEM" "\x10" "0007800,12" "\x23\x06" "995958" "\x30\x02" "AB" "\x31\x01" "C"
        "\x40\x02\x01\x07" "\x50\x03\x81" "Hi" "\x55\x01\x01" "\xE0\x0A" "33 FT  V01";
    size_t n = 2;
    uint8_t sum = 0;
    o[0] = which == 0 ? 0x82 : 0x80;
#define TEXT(type, length, x) \
    (o[n] = (type), o[n + 1] = (length), memset(o + n + 2, (x), (length)), n += 2 + (size_t)(length))
#define TIME() (memcpy(o + n, time, sizeof time), n += sizeof time)
    switch (which) {
    case 0:
        if (edition == ANTHERCUP_OLD && way == ANTHERCUP_STRICT) TEXT(0x0B, 1, 0xFF);
        else TEXT(0x13, 1, 2);
        break;
    case 1: TIME(); TEXT(0x02, 5, '4'); break;
    case 2: TIME(); TEXT(0x02, 8, '4'); TEXT(0x07, 15, 'A'); break;
    case 3:
        TIME();
        if (edition == ANTHERCUP_PRESENT && way == ANTHERCUP_STRICT) {
            TEXT(0x07, 50, 'A'); TEXT(0x02, 20, '4'); TEXT(0x03, 10, '5'); TEXT(0x0E, 1, '6'); TEXT(0x07, 50, 'B');
            TEXT(0x07, 50, 'C'); TEXT(0x07, 50, 'D');
        } else if (edition == ANTHERCUP_PRESENT) {
            TEXT(0x07, 50, 'A'); TEXT(0x02, 20, '4'); TEXT(0x03, 20, '5'); TEXT(0x0E, 20, '6'); TEXT(0x12, 20, '7');
            TEXT(0x60, 50, 0); TEXT(0x61, 51, 0);
        } else if (way == ANTHERCUP_STRICT) {
            for (int i = 0; i < 11; i++) TEXT(0x07, 20, 'A');
            TEXT(0x02, 1, '4');
        } else {
            TEXT(0x07, 20, 'A'); TEXT(0x02, 18, '4'); TEXT(0x03, 20, '5'); TEXT(0x0E, 20, '6'); TEXT(0x12, 18, '7');
            TEXT(0x60, 67, 0); TEXT(0x61, 68, 0);
        }
        break;
    case 4:
        for (int i = 0; i < 85; i++) TEXT(0x04, 1, 'P');
        break;
    default: memcpy(o + n, european, sizeof european - 1), n += sizeof european - 1;
    }
    o[1] = (uint8_t)(n - 2);
    for (size_t i = 0; i < n; i++) sum = (uint8_t)(sum + o[i]);
    o[n++] = (uint8_t)(0 - sum);
    return n;
}

static unsigned heard(uint64_t (*reset)(uint8_t, uint8_t, uint8_t *, size_t),
                      uint64_t (*listen)(uint8_t *, size_t, const uint8_t *, size_t), const uint8_t *o, size_t n,
                      size_t run) {
    uint8_t l[ANTHERCUP_LISTENER_OCTETS];
    uint64_t answer = reset(edition, way, l, sizeof l);
    for (size_t at = 0; at < n; at += run) answer = listen(l, sizeof l, o + at, run);
    return anthercup_size(answer);
}

static unsigned ours(const char *what, const uint8_t *o, size_t n) {
    static uint8_t desk[ANTHERCUP_DESK_OCTETS], draft[ANTHERCUP_DRAFT_OCTETS], texts[ANTHERCUP_TEXTS_OCTETS];
    if (strcmp(what, "whole") == 0) return heard(anthercup_reset_way, anthercup_listen, o, n, n);
    if (strcmp(what, "octets") == 0) return heard(anthercup_reset_way, anthercup_listen, o, n, 1);
    if (strcmp(what, "read") == 0)
        return anthercup_size(anthercup_read_way(edition, way, o, n, draft, sizeof draft, texts, sizeof texts))
             + draft[1];
    return !anthercup_number(anthercup_settle(edition, way, desk, sizeof desk, o, n));
}

static unsigned second(const char *what, const uint8_t *o, size_t n) {
    static struct second_draft draft;
    static struct second_desk desk;
    static int made;
    unsigned last = 0;
    if (!made) second_clear(&desk), made = 1;
    if (strcmp(what, "whole") == 0) return (unsigned)second_listen(edition, way, o, n).size;
    if (strcmp(what, "octets") == 0) {
        for (size_t at = 1; at <= n; at++) last = (unsigned)second_listen(edition, way, o, at).size;
        return last;
    }
    if (strcmp(what, "read") == 0)
        return second_read(edition, way, o, n, SECOND_TEXTS, &draft).number + draft.text_octets + draft.entries;
    return !second_settle(edition, way, &desk, o, n).number;
}

static unsigned peer(const char *what, const uint8_t *o, size_t n) {
    return heard(peer_reset, peer_listen, o, n, strcmp(what, "whole") == 0 ? n : 1);
}

static unsigned tuned(const char *what, const uint8_t *o, size_t n) {
    static uint8_t desk[ANTHERCUP_DESK_OCTETS], draft[ANTHERCUP_DRAFT_OCTETS], texts[ANTHERCUP_TEXTS_OCTETS];
    if (strcmp(what, "whole") == 0) return heard(tuned_reset, tuned_listen, o, n, n);
    if (strcmp(what, "octets") == 0) return heard(tuned_reset, tuned_listen, o, n, 1);
    if (strcmp(what, "read") == 0)
        return anthercup_size(tuned_read(edition, way, o, n, draft, sizeof draft, texts, sizeof texts)) + draft[1];
    return !anthercup_number(tuned_settle(edition, way, desk, sizeof desk, o, n));
}

int main(int argc, char **argv) {
    uint8_t o[300];
    unsigned last = 0;
    if (argc != 7) return 2;
    edition = (uint8_t)atoi(argv[1]);
    way = (uint8_t)atoi(argv[2]);
    size_t n = message(atoi(argv[5]), o);
    for (int i = atoi(argv[6]); i > 0; i--) {
        if (strcmp(argv[3], "ours") == 0) last = ours(argv[4], o, n);
        if (strcmp(argv[3], "second") == 0) last = second(argv[4], o, n);
        if (strcmp(argv[3], "peer") == 0) last = peer(argv[4], o, n);
        if (strcmp(argv[3], "tuned") == 0) last = tuned(argv[4], o, n);
    }
    printf("%u\n", last);
    return last == 0 && strcmp(argv[3], "none") != 0;
}
