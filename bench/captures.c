/* captures DIRECTORY: makes the captures of the benchmark, downlink, 65,536 bytes each, in the form that the listing program takes: a byte of direction,
 * then the bits. They are the same on every machine. */
#include "frames.h"
#include <stdio.h>
#include <stdlib.h>

#define BYTES 65536
#define BITS (8 * BYTES)

/* A byte of direction, then the bits, with room behind them for a frame that the end of the capture cuts. */
static uint8_t file[1 + BYTES + 64];
static uint8_t *const bits = file + 1;
static unsigned at;

/* Random numbers (splitmix64), from the same seed for each capture. */
static uint64_t state;
static uint64_t next(void) {
	uint64_t z = state += 0x9e3779b97f4a7c15;
	z = (z ^ z >> 30) * 0xbf58476d1ce4e5b9;
	z = (z ^ z >> 27) * 0x94d049bb133111eb;
	return z ^ z >> 31;
}
static unsigned below(unsigned n) { return (unsigned)((next() >> 32) * n >> 32); }

static void put(unsigned p, unsigned value) { put_bit(bits, p, value); }

/* A number at places of the frame in hand, the first on top. */
static void put_number(const uint8_t *places, unsigned count, unsigned value) {
	for (unsigned i = 0; i < count; i++) put(at + places[i], value >> (count - 1 - i) & 1);
}

/* The body of a frame: bits of given value, random ones at the other places. */
static void put_body(const layout *l) {
	for (unsigned p = 0; p < l->body; p++) put(at + p, next() >> 63);
	for (unsigned i = 0; i < l->given.count; i++) put(at + l->given.at[i], l->value[l->given.at[i]]);
}

/* Gives each CRC of the frame the one value of eight that is right, and ends the frame. */
static void end_frame(unsigned kind, unsigned mode, unsigned tail) {
	const checks *crcs = checks_of(kind, mode);
	for (unsigned i = 0; i < crcs->count; i++) {
		const places *covered = &crcs->covered[i];
		for (unsigned value = 0; value < 8; value++) {
			put_number(covered->at + covered->count - 3, 3, value);
			if (crc_right(bits, at, covered)) break;
		}
	}
	at += layouts[kind].body;
	while (tail--) put(at++, 1);
}

/* A good HR speech frame, downlink: C5 and XC6 by odd parity, XC1..XC5 of 0 or 2. */
static void put_speech(unsigned tail) {
	const layout *l = &layouts[BELLROPE_SPEECH];
	put_body(l);
	put(at + l->c.at[4], !bit(bits, at + l->c.at[3]));
	put_number(l->x.at, 6, below(2) ? 4 : 1);
	end_frame(BELLROPE_SPEECH, 0, tail);
}

/* A speech frame, good but for one bit, which is turned over. */
static void put_broken(unsigned place) {
	unsigned start = at;
	put_speech(2);
	put(start + place, !bit(bits, start + place));
}

/* A good AMR frame: kind 6 in one of its three modes (drawn 0 to 2), or kind 5, 7 or 8. */
static void put_amr(unsigned drawn) {
	static const unsigned kinds[] = {BELLROPE_LOWER, BELLROPE_LOWER, BELLROPE_LOWER, BELLROPE_NO_SPEECH, BELLROPE_AMR_670, BELLROPE_AMR_740};
	unsigned kind = kinds[drawn], mode = 0;
	const layout *l = &layouts[kind];
	put_body(l);
	if (kind == BELLROPE_LOWER) {
		mode = drawn + 1;
		put_number(l->c.at, 5, drawn << 2 | (1 + below(3))); /* C4 C5 of 00 is kind 5 */
	}
	end_frame(kind, mode, l->usual);
}

static void hr(void) { put_speech(2); }
static void amr(void) { put_amr(below(at ? 6 : 5)); } /* no run starts with kind 8 */
static void lower(void) { put_amr(below(3)); }

/* One frame in eight has lost its T bits or one of them, or has up to six ones more. */
static void slips(void) {
	static const unsigned tails[] = {0, 0, 1, 1, 3, 3, 4, 8};
	put_speech(below(8) ? 2 : tails[below(8)]);
}

static void noise(void) { put(at++, next() >> 63); }
static void zeros(void) { put(at++, 0); }
static void ones(void) { put(at++, 1); }

/* Eight zeros and a one, with which every frame that starts a run begins, as close as they can stand: each ninth place has to be looked at. */
static void prefixes(void) {
	for (unsigned p = 0; p < 9; p++) put(at++, p == 8);
}

/* Eight zeros, eight ones, eight zeros, nine ones. Where eight zeros begin, at two places in 33, all 17 bits hold that are fixed alike in the patterns of
 * HR, Low and 6,70: only what they do not share tells that no frame stands there. */
static void dense(void) {
	for (unsigned p = 0; p < 33; p++) put(at++, p / 8 % 2 || p == 32);
}

/* The last fixed bit alone is wrong, so that all before it hold. */
static void near(void) {
	const places *given = &layouts[BELLROPE_SPEECH].given;
	put_broken(given->at[given->count - 1]);
}

/* The CRC alone is wrong, so that each frame is judged to its end, and none starts a run. */
static void wrong(void) { put_broken(layouts[BELLROPE_SPEECH].crc.at[0]); }

/* A frame and ones behind it, 4,096 bytes together. */
static void longtails(void) { put_speech(8 * 4096 - layouts[BELLROPE_SPEECH].body); }

/* Fills a capture piece by piece, turns one bit in `errors` over (none where that is 0), and writes it. */
static void make(const char *directory, const char *name, void (*piece)(void), unsigned errors) {
	char path[4096];
	state = 1;
	for (at = 0; at < BITS;) piece();
	for (unsigned p = 0; errors && p < BITS; p++)
		if (below(errors) == 0) put(p, !bit(bits, p));
	file[0] = 1;
	snprintf(path, sizeof path, "%s/%s.capture", directory, name);
	FILE *to = fopen(path, "wb");
	if (!to || fwrite(file, 1, 1 + BYTES, to) != 1 + BYTES || fclose(to)) {
		fprintf(stderr, "captures: %s cannot be written. Give a directory where it can.\n", path);
		exit(2);
	}
}

int main(int argc, char **argv) {
	if (argc != 2) {
		fprintf(stderr, "usage: captures DIRECTORY\n");
		return 2;
	}
	prepare_frames();
	make(argv[1], "hr", hr, 0);
	make(argv[1], "slips", slips, 0);
	make(argv[1], "amr", amr, 0);
	make(argv[1], "lower", lower, 0);
	make(argv[1], "errors", hr, 1000);
	make(argv[1], "noise", noise, 0);
	make(argv[1], "zeros", zeros, 0);
	make(argv[1], "ones", ones, 0);
	make(argv[1], "prefixes", prefixes, 0);
	make(argv[1], "dense", dense, 0);
	make(argv[1], "near", near, 0);
	make(argv[1], "wrong", wrong, 0);
	make(argv[1], "longtails", longtails, 0);
	return 0;
}
