/* The calls of a timeslot by somebody else, whom channel.c is linked with: each takes and answers what the library's call of that name does, for requests
 * that are not refused. */
#ifndef BENCH_PEER_H
#define BENCH_PEER_H

#include "bellrope.h"

uint64_t peer_take_channel(const uint8_t *timeslot, size_t timeslot_len, uint64_t channel, uint8_t *buffer, size_t buffer_len);
uint64_t peer_put_channel(uint8_t *timeslot, size_t timeslot_len, uint64_t channel, const uint8_t *bytes, size_t bytes_len);

#endif
