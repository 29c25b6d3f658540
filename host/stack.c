/* The deepest message, 85 parameters in 258 octets, on a painted stack, by each
 * edition and way, and one with a parameter of each type that the present
 * edition lists, so with contents of each of its classes: read, settled, asked
 * for what counts and for its caption, and heard; the deepest octet touched by
 * each call is printed. More than the header says ends it with status 1: so it
 * does where header and contents are no longer one loop, since each parameter
 * then costs stack of its own. */
#include <stdio.h>
#include <string.h>

#include "anthercup.h"

enum { PAINTED = 1 << 18, WANTED = 1000 };

static uint8_t o[ANTHERCUP_MESSAGE_OCTETS], draft[ANTHERCUP_DRAFT_OCTETS],
    texts[ANTHERCUP_TEXTS_OCTETS], desk[ANTHERCUP_DESK_OCTETS],
    listener[ANTHERCUP_LISTENER_OCTETS], part[ANTHERCUP_PART_OCTETS];

/* the message type, L, and behind the n octets that are laid down the sum */
static size_t around(uint8_t type, size_t n)
{
    uint8_t sum = 0;

    o[0] = type;
    o[1] = (uint8_t)(n - 2);
    for (size_t i = 0; i < n; i++)
        sum = (uint8_t)(sum + o[i]);
    o[n] = (uint8_t)-sum;
    return n + 1;
}

/* L is 255: texts of one octet, by the lenient way carried ones, by the strict
 * way first called numbers; the last is the caller, 7 */
static size_t deepest(uint8_t type, uint8_t way)
{
    int carried = way == ANTHERCUP_LENIENT;
    size_t n = 2;

    for (unsigned i = 0; i < ANTHERCUP_MOST_ENTRIES; i++) {
        o[n++] = carried ? 0x60 : ANTHERCUP_PARAMETER_FIRST_CALLED;
        o[n++] = 1;
        o[n++] = (uint8_t)(carried ? i : '0' + i % 10);
    }
    o[n - 3] = ANTHERCUP_PARAMETER_CALLER;
    o[n - 1] = '7';
    return around(type, n);
}

/* each type of the present edition, in order, but for 08H, ahead of 07H: no
 * name counts */
static size_t each(uint8_t type, uint8_t way)
{
    static const char all[] =
        "\x01\x08" "06151430" "\x02\x01" "7" "\x03\x01" "7" "\x04\x01" "P"
        "\x08\x01" "O" "\x07\x03" "Ann" "\x0B\x01\xFF" "\x0D\x03\xFF\x01\x02"
        "\x0E\x01" "7" "\x0F\x0A" "0615143059" "\x10\x01" "7" "\x11\x01\x01"
        "\x12\x01" "7" "\x13\x01\x02" "\x15\x01\x06" "\x16\x01\x0A"
        "\x1A\x01" "7" "\x20\x0E" "FRF" "\x00" "0000023,45"
        "\x21\x0E" "---" "\x10" "00023-----"
        "\x22\x0E" "DEM" "\x10" "0007800,12" "\x23\x06" "995959"
        "\x30\x02" "AB" "\x31\x01" "C" "\x40\x05\x02" "40*#"
        "\x50\x06\x81" "Hello" "\x55\x01\x01" "\xE0\x0A" "33 FT  V01";

    (void)way;
    memcpy(o + 2, all, sizeof all - 1);
    return around(type, 2 + sizeof all - 1);
}

struct sample {
    size_t (*made)(uint8_t type, uint8_t way);
    size_t octets;
    unsigned entries, texts;
};

static const struct sample deep = {deepest, ANTHERCUP_MESSAGE_OCTETS,
                                   ANTHERCUP_MOST_ENTRIES,
                                   ANTHERCUP_MOST_ENTRIES};
static const struct sample of_each = {each, 167, 27, 73};

/* of a call of the caller 7 */
static const uint8_t line[] = {'7', '=', 'A', 'n', 'n'};

static void paint(void)
{
    volatile uint8_t below[PAINTED];

    for (size_t i = 0; i < sizeof below; i++)
        below[i] = 0xA5;
}

/* how much of what was painted is no longer so, from the near end down to the
 * deepest octet touched */
static size_t touched(void)
{
    volatile uint8_t below[PAINTED];
    size_t i = 0;

    while (i < sizeof below && below[i] == 0xA5)
        i++;
    return sizeof below - i;
}

static int failed(const char *what, uint64_t answer)
{
    printf("stack: %s: %u at %u in %u\n", what, anthercup_number(answer),
           anthercup_place(answer), anthercup_parameter(answer));
    return 1;
}

/* Texts and carried texts are the contents of their parameters. */
static int texts_are(void)
{
    size_t at = 2;

    for (unsigned i = 0; i < anthercup_entries(draft); i++) {
        unsigned kind = anthercup_entry_kind(draft, i);

        if ((kind == ANTHERCUP_VALUE_TEXT || kind == ANTHERCUP_VALUE_CARRIED)
            && memcmp(anthercup_entry_text(draft, i, texts), o + at + 2,
                      o[at + 1]) != 0)
            return 0;
        at += 2u + o[at + 1];
    }
    return 1;
}

/* Each call is made between painting and looking, so that nothing else is
 * measured. */
static int by(const struct sample *s, uint8_t edition, uint8_t way)
{
    size_t n = s->made(ANTHERCUP_NOTICE, way), read, settle, listen, counted,
           caption;
    uint64_t answer;

    if (n != s->octets)
        return 1;
    paint();
    answer = anthercup_read_way(edition, way, o, n, draft, sizeof draft, texts,
                                sizeof texts);
    read = touched();
    if (anthercup_number(answer) || anthercup_size(answer) != s->texts
        || anthercup_edition(answer) != edition)
        return failed("read", answer);
    if (anthercup_entries(draft) != s->entries
        || anthercup_draft_edition(draft) != edition)
        return failed("entries", answer);
    if (!texts_are())
        return failed("text", answer);

    anthercup_new_desk(desk, sizeof desk);
    paint();
    answer = anthercup_settle(edition, way, desk, sizeof desk, o, n);
    settle = touched();
    if (anthercup_number(answer))
        return failed("settle", answer);

    paint();
    answer = anthercup_counted(edition, way, o, n, ANTHERCUP_PARAMETER_CALLER);
    counted = touched();
    if (anthercup_number(answer) || !anthercup_counts(answer))
        return failed("counted", answer);

    anthercup_reset_way(edition, way, listener, sizeof listener);
    paint();
    answer = anthercup_listen(listener, sizeof listener, o, n);
    listen = touched();
    if (anthercup_size(answer) != n)
        return failed("listen", answer);

    n = s->made(ANTHERCUP_CALL, way);
    paint();
    answer = anthercup_caption(edition, way, o, n, line, sizeof line, part,
                               sizeof part);
    caption = touched();
    if (anthercup_number(answer) || !anthercup_part_in_directory(part))
        return failed("caption", answer);

    printf("stack: edition %u way %u, %zu octets, %u parameters: read %zu "
           "octets of stack, settle %zu, counted %zu, caption %zu, listen "
           "%zu\n", edition, way, n, s->entries, read, settle, counted,
           caption, listen);
    return read > WANTED || settle > WANTED || counted > WANTED
        || caption > WANTED || listen > WANTED;
}

int main(void)
{
    return by(&deep, ANTHERCUP_PRESENT, ANTHERCUP_STRICT)
        || by(&deep, ANTHERCUP_PRESENT, ANTHERCUP_LENIENT)
        || by(&deep, ANTHERCUP_OLD, ANTHERCUP_STRICT)
        || by(&deep, ANTHERCUP_OLD, ANTHERCUP_LENIENT)
        || by(&of_each, ANTHERCUP_PRESENT, ANTHERCUP_STRICT)
        || by(&of_each, ANTHERCUP_PRESENT, ANTHERCUP_LENIENT);
}
