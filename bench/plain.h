/* The plain reader's call: it takes and answers what bellrope_page does, for requests that are not refused. */
#ifndef BENCH_PLAIN_H
#define BENCH_PLAIN_H

#include "bellrope.h"

bellrope_answer plain_page(const uint8_t *capture, size_t capture_len, uint64_t n, uint64_t direction, uint8_t profile, uint64_t position,
                           uint64_t context, uint64_t most, uint8_t *buffer, size_t buffer_len);

#endif
