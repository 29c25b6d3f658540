/*
 * Writes what the program `replay` reads and what it must print: seeded
 * traffic, then some accepted messages with one wrong octet at every place,
 * then both again with dates at the limits of their months; each message
 * behind its length in two octets, and the second reader's listing of each.
 * All of it is of the present edition and the lenient way, as listings are.
 * Usage: replay MESSAGES LISTINGS
 */
#include <stdio.h>
#include <string.h>

#include "second.h"
#include "traffic.h"

/* Short ones, and a long one now and then, so that the files stay small. */
#define MESSAGES 3000
#define SHORT 40
#define LONG_EVERY 40
#define SPOILT 12
#define DATED 400
#define DATED_SPOILT 8
#define DATE_ALONE 13

static FILE *messages, *listings;

static void put(const uint8_t *o, size_t n)
{
    char text[SECOND_LISTING];
    uint8_t size[2] = {(uint8_t)(n >> 8), (uint8_t)n};
    fwrite(size, 1, 2, messages);
    fwrite(o, 1, n, messages);
    fwrite(text, 1, second_listing(o, n, text), listings);
}

/* One wrong octet at every place, twice. */
static void put_spoilt(const uint8_t *o, size_t n)
{
    for (size_t at = 0; at < n; at++)
        for (int high = 0; high < 2; high++) {
            uint8_t p[TRAFFIC_OCTETS];
            memcpy(p, o, n);
            p[at] = (uint8_t)(high ? p[at] ^ 0x80 : p[at] + 1);
            put(p, n);
        }
}

static int is_listable(const uint8_t *o, size_t n)
{
    return second_is_message(SECOND_PRESENT, SECOND_LENIENT, o, n);
}

int main(int argc, char **argv)
{
    struct traffic t;
    uint8_t o[TRAFFIC_OCTETS];
    unsigned kept = 0, passed = 0;

    if (argc != 3)
        return 2;
    messages = fopen(argv[1], "wb");
    listings = fopen(argv[2], "wb");
    if (!messages || !listings)
        return 2;
    traffic_start(&t, 1);
    while (kept < MESSAGES) {
        size_t n = traffic_next(&t, o);
        if (n > SHORT && ++passed % LONG_EVERY)
            continue;
        kept++;
        put(o, n);
    }
    for (kept = 0; kept < SPOILT;) {
        size_t n = traffic_next(&t, o);
        if (n > SHORT || !is_listable(o, n))
            continue;
        kept++;
        put_spoilt(o, n);
    }
    for (kept = 0; kept < DATED; kept++) {
        size_t n = traffic_dated(&t, o);
        put(o, n);
    }
    for (kept = 0; kept < DATED_SPOILT;) {
        size_t n = traffic_dated(&t, o);
        if (n != DATE_ALONE || !is_listable(o, n))
            continue;
        kept++;
        put_spoilt(o, n);
    }
    int bad = ferror(messages) | ferror(listings);
    bad |= fclose(messages) | fclose(listings);
    return bad ? 1 : 0;
}
