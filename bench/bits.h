/* Bits of bytes, as plain C holds them: bit 0 is the top bit of the first byte. */
#ifndef BENCH_BITS_H
#define BENCH_BITS_H

#include <stdint.h>

/* Bit p of bytes. */
static inline unsigned bit(const uint8_t *bytes, uint64_t p) { return bytes[p / 8] >> (7 - p % 8) & 1; }

/* Puts bit p of bytes; the others stand. */
static inline void put_bit(uint8_t *bytes, uint64_t p, unsigned value) {
	bytes[p / 8] = (bytes[p / 8] & ~(0x80 >> p % 8)) | (value ? 0x80 >> p % 8 : 0);
}

#endif
