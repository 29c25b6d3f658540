/* A plain C listener on the record of include/anthercup.h, with the same checks and the same answers: the peer of the
 * benchmark. */
#ifndef PEER_H
#define PEER_H

#include <stddef.h>
#include <stdint.h>

uint64_t peer_reset(uint8_t edition, uint8_t way, uint8_t *record, size_t size);
uint64_t peer_listen(uint8_t *record, size_t size, const uint8_t *octets, size_t count);

#endif
