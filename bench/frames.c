/* The tables of frames.h. */
#include "frames.h"

#define D7 "1ddddddd"
#define D8 "dddddddd"
#define D7x3 D7 D7 D7
#define D7x15 D7x3 D7x3 D7x3 D7x3 D7x3
#define D7D8x7 D7 D8 D7 D8 D7 D8 D7 D8 D7 D8 D7 D8 D7 D8
#define D8x4 D8 D8 D8 D8

layout layouts[9] = {
	[BELLROPE_SPEECH] = {.drawing = "00000000" "1oooccxx" "01xxxxdd" D7x3 D7x3 "1rrrdddd" D7x3 D7x3 D7x3 "1dcccc", .least = {1, 0}, .usual = 2},
	[BELLROPE_DATA] = {.drawing = "00000000" "1ooiccdd" "01dddddd" D7 D7x15 "1dddddd", .least = {1, 1}, .usual = 1},
	[BELLROPE_OM] = {.drawing = "00000000" "1oioccxx" "01xxxxdd" D7 D7x15 "1dddddd", .least = {1, 1}, .usual = 1},
	[BELLROPE_CONFIGURATION] = {.drawing = "00000000" "1iiiccdd" "01dddddd" D7 D7x15 "1ddddd", .least = {2, 2}, .usual = 2},
	[BELLROPE_NO_SPEECH] = {.drawing = "00000000" "1ddddddd" "1iocoodd" "01dddddd" D7x15 "1ddddd", .least = {1, 0}, .usual = 2},
	[BELLROPE_LOWER] = {.drawing = "00000000" "1ddddddd" "1cccccdd" "01dddddd" D7x15 "1dddddd", .least = {0, 0}, .usual = 1},
	[BELLROPE_AMR_670] = {.drawing = "00000000" "1ddddddd" "1cccdddd" D7 D7 "0ddddddd" D7D8x7, .least = {0, 0}, .usual = 0},
	[BELLROPE_AMR_740] = {.drawing = "001ddddd" "0ddddddd" "1cccdddd" "0ddddddd" D8x4 D8x4 D8x4 D8x4, .least = {0, 0}, .usual = 0},
};

/* What a CRC covers: the first C bits, then stretches of D bits by number, the s numbers of the specification counted as D bits; and the D number of its
 * own first bit. */
typedef struct {
	unsigned c, d[8][2], crc;
} cover;

static const cover lower_475[] = {
	{5, {{4, 19}, {21, 22}, {24, 32}, {48, 51}}, 52}, {0, {{55, 61}}, 73}, {0, {{76, 77}, {93, 96}}, 97}, {0, {{100, 101}}, 113}};
static const cover lower_515[] = {
	{5, {{6, 21}, {24, 34}, {47, 51}}, 52}, {0, {{55, 61}, {74, 78}}, 79}, {0, {{82, 83}, {96, 100}}, 101}, {0, {{104, 105}, {118, 122}}, 123}};
static const cover lower_590[] = {{5, {{1, 17}, {27, 34}, {48, 51}}, 52}};
static const cover silence[] = {{5, {{1, 51}}, 52}};
static const cover amr_670[] = {{3, {{1, 17}, {20, 20}, {24, 24}, {27, 34}, {49, 53}}, 56}};
static const cover amr_740[] = {{3, {{1, 20}, {22, 24}, {27, 32}, {52, 53}, {55, 57}}, 59}};
static const cover speech[] = {{0, {{1, 44}}, 0}}; /* its CRC bits are no D bits */

static checks by_kind[9], by_mode[4], carried;

const checks *checks_of(unsigned kind, unsigned mode) {
	if (kind == BELLROPE_LOWER) return &by_mode[mode];
	return mode ? &carried : &by_kind[kind];
}

static void add(places *to, uint8_t place) { to->at[to->count++] = place; }

static void prepare_layout(layout *l) {
	for (const char *letter = l->drawing; *letter; letter++) {
		uint8_t p = l->body++;
		if (*letter == '1' || *letter == 'i') l->value[p] = 1;
		switch (*letter) {
		case 'o':
		case 'i': add(&l->c, p); /* fall through */
		case '0':
		case '1': add(&l->given, p); break;
		case 'c': add(&l->c, p); break;
		case 'x': add(&l->x, p); break;
		case 'r': add(&l->crc, p); break;
		case 'd': add(&l->d, p); break;
		}
	}
}

static void prepare_checks(checks *to, unsigned kind, const cover *covers, unsigned count) {
	const layout *l = &layouts[kind];
	for (to->count = 0; to->count < count; to->count++, covers++) {
		places *at = &to->covered[to->count];
		for (unsigned i = 0; i < covers->c; i++) add(at, l->c.at[i]);
		for (unsigned k = 0; covers->d[k][0]; k++)
			for (unsigned i = covers->d[k][0]; i <= covers->d[k][1]; i++) add(at, l->d.at[i - 1]);
		for (unsigned i = 0; i < 3; i++) add(at, covers->crc ? l->d.at[covers->crc - 1 + i] : l->crc.at[i]);
	}
}

void prepare_frames(void) {
	for (unsigned kind = BELLROPE_SPEECH; kind <= BELLROPE_AMR_740; kind++) prepare_layout(&layouts[kind]);
	prepare_checks(&by_kind[BELLROPE_SPEECH], BELLROPE_SPEECH, speech, 1);
	prepare_checks(&carried, BELLROPE_NO_SPEECH, silence, 1);
	prepare_checks(&by_mode[1], BELLROPE_LOWER, lower_475, 4);
	prepare_checks(&by_mode[2], BELLROPE_LOWER, lower_515, 4);
	prepare_checks(&by_mode[3], BELLROPE_LOWER, lower_590, 1);
	prepare_checks(&by_kind[BELLROPE_AMR_670], BELLROPE_AMR_670, amr_670, 1);
	prepare_checks(&by_kind[BELLROPE_AMR_740], BELLROPE_AMR_740, amr_740, 1);
}
