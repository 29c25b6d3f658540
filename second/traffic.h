/*
 * Seeded traffic to compare listeners and readers on: messages built from the
 * rules of 01's "The message" and source 004's parameters (02, Q-4), or of the
 * old edition (02, Q-5), for either way (02, Q-11), and damaged ones, with
 * every limit on both of its sides. The same seed gives the same messages.
 */
#ifndef TRAFFIC_H
#define TRAFFIC_H

#include <stddef.h>
#include <stdint.h>

#define TRAFFIC_OCTETS 300

/* What was done to the last message given. Only a TRAFFIC_VALID one is
 * certain to be accepted whole; the others are what the damage made them. */
enum traffic_sort {
    TRAFFIC_VALID,
    TRAFFIC_CHANGED,        /* one octet changed at any place */
    TRAFFIC_CHANGED_SUMMED, /* likewise, and the checksum made right again */
    TRAFFIC_TRUNCATED,
    TRAFFIC_EXTENDED,
    TRAFFIC_BAD_ROOM,       /* the last parameter leaves a room of 1 or 2 */
    TRAFFIC_WRONG_SUM,
    TRAFFIC_LENGTH_0,       /* a parameter of length 0 */
    TRAFFIC_BAD_LENGTH,     /* a parameter one too long or one too short */
    TRAFFIC_BAD_TYPE,       /* a type that is impossible in its room */
    TRAFFIC_BAD_CONTENTS,   /* an octet that may be none of its type's */
    TRAFFIC_SHORT_L,        /* L below 3 */
    TRAFFIC_LATE,           /* right up to one of the last octets */
    TRAFFIC_NOISE,
    TRAFFIC_MISMATCHED,     /* octets that might each stand where they do, but
                             * perhaps not together; common for the present
                             * edition */
    TRAFFIC_UNLISTED,       /* a type that the edition does not list; for the
                             * strict way only, and common there */
    TRAFFIC_SORTS
};

struct traffic {
    uint64_t seed;          /* the generator's own state */
    enum traffic_sort sort; /* of the last message given */
    uint8_t edition;        /* that messages are built by: 0, or 1 the old */
    uint8_t way;            /* likewise: 0, of listed types alone; or 1, of
                             * all types */
};

/* Of the present edition and for the lenient way; another of each may be set
 * at any time. */
void traffic_start(struct traffic *t, uint64_t seed);

/* A number from 0 to below - 1, for callers that need one too. */
uint32_t traffic_number(struct traffic *t, uint32_t below);

/* Writes the next message and gives its number of octets, 0 to 300. In the old
 * edition the types that only the present one lists are common, with any
 * contents, or often with those that the present one takes; for the strict way
 * only as TRAFFIC_UNLISTED. */
size_t traffic_next(struct traffic *t, uint8_t out[TRAFFIC_OCTETS]);

/* Likewise a message about one of some 24 references (02, Q-6): mostly a
 * notice that adds it, removes it or leaves it unset, often with a lamp and a
 * number; now and then a second reference, a call message, or a wrong sum.
 * Both editions take the same of these by the lenient way; by the strict one
 * the old edition, which does not list 0DH, takes none. */
size_t traffic_about(struct traffic *t, uint8_t out[TRAFFIC_OCTETS]);

/* Likewise a message with a date at a limit of its month or beside it (02,
 * Q-2), February and the months of 30 days more often than the others; now
 * and then cut inside the date, changed in it, or with a wrong sum. The date is
 * one of 01H, or now and then of 0FH, with or without seconds. The octets are
 * the same for all, though the old edition does not list 0FH: such a message is
 * TRAFFIC_UNLISTED there for the strict way. */
size_t traffic_dated(struct traffic *t, uint8_t out[TRAFFIC_OCTETS]);

#endif
