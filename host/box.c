/* A box's program, to copy from. It hears octets from standard input as the
 * modem gives them, shows who calls, the lamp, how many messages wait and
 * which are open, and settles notices on a desk. Its first argument is the
 * edition that the line's exchange speaks, 0 the present one, 1 the old; it is
 * 0 where none is named, as in the boxes in service. A file named as its second
 * argument is the directory: lines of caller=text.
 *
 * A box has one edition and one way: they are told at every reset of the
 * listener, and to every other call.
 *
 * How a box listens. Before a message the line carries a channel seizure,
 * which a modem hears as some thirty octets 55H: while no message has begun
 * (1 at 0) the box hunts on and says nothing. Once a message is there or
 * spoilt, it hears nothing more until the line pauses, since what follows may
 * be the rest of a spoilt message and look like another. A pause resets the
 * listener, also in the middle of a message. In a box the modem tells that its
 * carrier dropped; here a gap in the input is the pause. */
#define _POSIX_C_SOURCE 200809L
#include <poll.h>
#include <stdio.h>
#include <string.h>
#include <unistd.h>

#include "anthercup.h"

/* a pause in milliseconds: at 1200 bit/s an octet takes 9 */
enum { PAUSE = 100 };

/* the octets that a directory may have here */
enum { DIRECTORY = 4096 };

/* The way with parameter types that the edition does not list: a box carries
 * them, as those in service do, and shows the rest of the message
 * (docs/LENIENT.md). A strict one would show a refusal with 10 instead. */
static const uint8_t way = ANTHERCUP_LENIENT;

/* The listener keeps no octets: the message is those heard since the reset,
 * and they are held here. */
struct box {
    uint8_t edition;
    uint8_t listener[ANTHERCUP_LISTENER_OCTETS];
    uint8_t desk[ANTHERCUP_DESK_OCTETS];
    uint8_t held[ANTHERCUP_MESSAGE_OCTETS];
    size_t count;
    int answered;
    uint8_t directory[DIRECTORY];
    size_t directory_len;
};

/* Number, place, which parameter of the message is at fault, 0 for none, and
 * the edition by which it is. */
static void show_refusal(uint64_t answer)
{
    unsigned number = anthercup_number(answer);

    printf("refused: %u at %u in %u, %s (edition %u)\n", number,
           anthercup_place(answer), anthercup_parameter(answer),
           anthercup_text(number), anthercup_edition(answer));
}

/* Why a call has no caller, where the message says it. */
static const char *absence(const struct box *b)
{
    uint64_t answer = anthercup_counted(b->edition, way, b->held, b->count,
                                        ANTHERCUP_PARAMETER_CALLER_ABSENT);

    if (!anthercup_counts(answer))
        return "";
    if (b->held[anthercup_counted_start(answer)] == 'P')
        return ", caller private";
    return ", caller unavailable";
}

/* The caption; a call may have none. */
static void show_call(const struct box *b)
{
    uint8_t part[ANTHERCUP_PART_OCTETS];
    uint64_t answer =
        anthercup_caption(b->edition, way, b->held, b->count, b->directory,
                          b->directory_len, part, sizeof part);

    if (anthercup_number(answer))
        show_refusal(answer);
    else if (anthercup_part_length(part) == 0)
        printf("a call%s\n", absence(b));
    else
        printf("a call from %.*s\n", (int)anthercup_part_length(part),
               (const char *)anthercup_part_text(part, b->held, b->directory));
}

static void show_desk(const uint8_t *desk)
{
    static const char *const lamps[] = {"unknown", "off", "on"};

    printf("lamp %s, ", lamps[anthercup_lamp(desk)]);
    if (anthercup_waiting(desk) < 0)
        printf("waiting unknown");
    else
        printf("waiting %d", anthercup_waiting(desk));
    for (unsigned i = 0; i < ANTHERCUP_MOST_PLACES; i++)
        if (anthercup_open(desk, i) >= 0)
            printf(", open %d", (int)anthercup_open(desk, i));
    printf("\n");
}

/* A message is held whole: its first octet is its type. */
static void show_message(struct box *b)
{
    uint64_t answer;

    if (b->held[0] == ANTHERCUP_CALL) {
        show_call(b);
        return;
    }
    answer = anthercup_settle(b->edition, way, b->desk, sizeof b->desk,
                              b->held, b->count);
    if (anthercup_number(answer))
        show_refusal(answer);
    show_desk(b->desk);
}

/* The line pauses: whatever was heard of a message is over. */
static void line_paused(struct box *b)
{
    anthercup_reset_way(b->edition, way, b->listener, sizeof b->listener);
    b->count = 0;
    b->answered = 0;
}

/* One run of octets. */
static void hear(struct box *b, const uint8_t *run, size_t n)
{
    while (n > 0 && !b->answered) {
        uint64_t answer =
            anthercup_listen(b->listener, sizeof b->listener, run, n);
        size_t taken = anthercup_taken(answer);

        memcpy(b->held + b->count, run, taken);
        b->count += taken;
        run += taken;
        n -= taken;
        if (anthercup_listen_waits(answer))
            return;
        if (anthercup_number(answer) == ANTHERCUP_REFUSED_MESSAGE_TYPE) {
            line_paused(b); /* no message has begun: hunt on */
            continue;
        }
        b->answered = 1;
        if (anthercup_number(answer))
            show_refusal(answer);
        else
            show_message(b);
        fflush(stdout);
    }
}

/* The edition as it is told, 0 or 1 and nothing else: any other number would be
 * refused at every call (16). */
static int edition_told(struct box *b, const char *text)
{
    if (strcmp(text, "0") != 0 && strcmp(text, "1") != 0)
        return 0;
    b->edition = text[0] == '1' ? ANTHERCUP_OLD : ANTHERCUP_PRESENT;
    return 1;
}

/* The directory from a file. */
static int directory_read(struct box *b, const char *name)
{
    FILE *file = fopen(name, "rb");
    int whole;

    if (!file)
        return 0;
    b->directory_len = fread(b->directory, 1, sizeof b->directory, file);
    whole = fgetc(file) == EOF && !ferror(file);
    fclose(file);
    return whole;
}

int main(int argc, char **argv)
{
    struct pollfd line = {0, POLLIN, 0};
    static struct box b;
    uint8_t run[64];
    ssize_t got = 1;

    if (argc > 3) {
        fprintf(stderr, "usage: box [EDITION [DIRECTORY]]\n");
        return 2;
    }
    if (argc > 1 && !edition_told(&b, argv[1])) {
        fprintf(stderr, "box: %s is no edition: 0 is the present one, 1 the "
                "old\n", argv[1]);
        return 2;
    }
    if (argc > 2 && !directory_read(&b, argv[2])) {
        fprintf(stderr, "box: %s cannot be read, or has more than %d octets\n",
                argv[2], DIRECTORY);
        return 2;
    }
    anthercup_new_desk(b.desk, sizeof b.desk);
    line_paused(&b);
    while (got > 0) {
        if (poll(&line, 1, b.count || b.answered ? PAUSE : -1) == 0) {
            line_paused(&b);
            continue;
        }
        got = read(0, run, sizeof run);
        if (got > 0)
            hear(&b, run, (size_t)got);
    }
    return 0;
}
