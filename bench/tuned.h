/* Tuned C with the contracts of include/anthercup.h, on the same records: the
 * anchors of the benchmark. */
#ifndef TUNED_H
#define TUNED_H

#include <stddef.h>
#include <stdint.h>

uint64_t tuned_reset(uint8_t edition, uint8_t way, uint8_t *record, size_t size);
uint64_t tuned_listen(uint8_t *record, size_t size, const uint8_t *octets,
                      size_t count);
uint64_t tuned_read(uint8_t edition, uint8_t way, const uint8_t *octets,
                    size_t count, uint8_t *draft, size_t draft_size,
                    uint8_t *texts, size_t texts_size);
uint64_t tuned_new_desk(uint8_t *desk, size_t size);
uint64_t tuned_settle(uint8_t edition, uint8_t way, uint8_t *desk, size_t size,
                      const uint8_t *octets, size_t count);

#endif
