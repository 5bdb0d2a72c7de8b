/*
 * The four calls of tollmeander.h in plain C: the yardstick of the bench.
 */
#ifndef BENCH_PLAIN_H
#define BENCH_PLAIN_H

#include "tollmeander.h"

uint32_t plain_transmit_take(uint32_t *consumed, uint32_t *replied, uint32_t *halted,
                             uint8_t *ring, size_t ring_len,
                             const uint8_t *grants, size_t grants_len,
                             const uint8_t *window, size_t window_len,
                             struct tollmeander_held *held, size_t held_len,
                             uint8_t *frame, size_t frame_len,
                             struct tollmeander_report *report);

uint32_t plain_transmit_finish(uint32_t consumed, uint32_t *replied,
                               uint8_t *ring, size_t ring_len,
                               struct tollmeander_held *held, size_t held_len,
                               uint32_t ticket, int32_t status,
                               struct tollmeander_report *report);

uint32_t plain_receive_put(uint32_t *consumed, uint32_t *halted,
                           uint8_t *ring, size_t ring_len,
                           const uint8_t *grants, size_t grants_len,
                           uint8_t *window, size_t window_len,
                           const uint8_t *frame, size_t frame_len,
                           struct tollmeander_report *report);

uint32_t plain_transmit_post(uint32_t replies_read,
                             uint8_t *ring, size_t ring_len,
                             const uint8_t *grants, size_t grants_len,
                             uint8_t *window, size_t window_len,
                             const uint32_t *references, size_t references_len,
                             const uint8_t *frame, size_t frame_len,
                             uint32_t gso, uint16_t gso_size, uint8_t gso_type,
                             struct tollmeander_report *report);

#endif
