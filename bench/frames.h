/* The eight kinds of frame as plain C holds them: the plain reader reads by these tables, and the captures are made by them. Written from the
 * specification; a slip shows as a difference between the plain reader and the library. */
#ifndef BENCH_FRAMES_H
#define BENCH_FRAMES_H

#include "bellrope.h"
#include "bits.h"

/* Places of a body, counted from 0. */
typedef struct {
	unsigned count;
	uint8_t at[160];
} places;

typedef struct {
	/* A letter for each bit of the body: 0 and 1 fixed; c, x and d the next C, XC and D bit; o and i a C bit that is zero or one in the coding of this
	 * kind; r a CRC bit of kind 1. */
	const char *drawing;
	unsigned least[2]; /* the least tail, up and down */
	unsigned usual;    /* the usual tail */

	/* By prepare_frames: how long the body is, where it has bits of given value (fixed and o, i) and which, and where its other bits stand. */
	unsigned body;
	places given, c, x, crc, d;
	uint8_t value[160];
} layout;

extern layout layouts[9];

/* The CRCs of a kind (1, 5 to 8), of kind 6 by mode (1 to 3 for 4,75, 5,15, 5,90), of kind 5 by whether its class carries one (1), which is 0 for the
 * others: places covered, then those of the three CRC bits. */
typedef struct {
	unsigned count;
	places covered[4];
} checks;

const checks *checks_of(unsigned kind, unsigned mode);

/* To be called once, before anything else. */
void prepare_frames(void);

/* The bits at places of a body that begins at p, as a number, the first on top. */
static inline unsigned number_at(const uint8_t *bytes, uint64_t p, const uint8_t *at, unsigned count) {
	unsigned value = 0;
	for (unsigned i = 0; i < count; i++) value = value << 1 | bit(bytes, p + at[i]);
	return value;
}

/* Whether a CRC of a body that begins at p is right: the bits covered and its own, divided by X^3 + X + 1, leave X^2 + X + 1. */
static inline int crc_right(const uint8_t *bytes, uint64_t p, const places *covered) {
	unsigned r = 0;
	for (unsigned i = 0; i < covered->count; i++) {
		r = r << 1 | bit(bytes, p + covered->at[i]);
		if (r & 8) r ^= 0xb;
	}
	return r == 7;
}

#endif
