/* A plain reader of captures, as a C programmer would write it from the specification: bit by bit. A place is left at the first fixed bit that differs;
 * each CRC is divided bit by bit; each D bit is put alone. The search keeps the last nine bits, for every pattern that can start a run begins with eight
 * zeros and a one. It makes the same pages as the library, and is what the library is measured by. */
#include "plain.h"
#include "frames.h"

typedef struct {
	const uint8_t *bytes;
	uint64_t n, direction;
	uint8_t profile;
} capture;

typedef struct {
	unsigned kind;          /* 0 for a gap */
	uint64_t start, length; /* of the tail, or of the gap */
	unsigned verdict;
} item;

/* The C bits of a frame as a number, all of them or the first. */
static unsigned c_bits(capture a, uint64_t p, unsigned kind, unsigned count) { return number_at(a.bytes, p, layouts[kind].c.at, count); }

static unsigned xc_bits(capture a, uint64_t p, unsigned kind, unsigned count) { return number_at(a.bytes, p, layouts[kind].x.at, count); }

/* The mode that C1..C3 of a kind 6 name, or 0. */
static unsigned own_mode(capture a, uint64_t p) {
	unsigned c = c_bits(a, p, BELLROPE_LOWER, 3);
	return c < 3 ? c + 1 : 0;
}

/* Whether the body of a kind lies before n, and all of its bits of given value hold. */
static int fits(capture a, uint64_t p, const layout *l) {
	if (a.n - p < l->body) return 0;
	for (unsigned i = 0; i < l->given.count; i++) {
		unsigned place = l->given.at[i];
		if (bit(a.bytes, p + place) != l->value[place]) return 0;
	}
	return 1;
}

/* Whether the coding holds, beyond the C bits that the drawing gives. */
static int coded(capture a, uint64_t p, unsigned kind) {
	int up = a.direction == 0;
	if (kind == BELLROPE_LOWER) return c_bits(a, p, kind, 5) % 4 != 0;
	if (kind > BELLROPE_CONFIGURATION) return 1;
	unsigned c = c_bits(a, p, kind, 5);
	if (!__builtin_parity(c) || (up && c / 2 % 2 == 0)) return 0;
	if (kind != BELLROPE_SPEECH && kind != BELLROPE_OM) return 1;
	unsigned all = xc_bits(a, p, kind, 6), xc = all / 2;
	if (!__builtin_parity(all)) return 0;
	if (kind == BELLROPE_OM) return xc == 31;
	return up ? xc < 4 || (xc >= 8 && xc < 16) : xc == 0 || xc == 2;
}

static unsigned verdict(capture a, uint64_t p, unsigned kind, uint64_t context) {
	unsigned mode = 0, carries = 0, wrong = 0;
	if (kind == BELLROPE_NO_SPEECH) {
		carries = a.profile >> number_at(a.bytes, p, layouts[kind].d.at + 7, 3) & 1;
		if (!carries) return 128;
	}
	if (kind == BELLROPE_LOWER) {
		mode = own_mode(a, p);
		if (!mode && context >= 3) mode = context - 2;
		if (!mode) return 128;
	}
	const checks *crcs = checks_of(kind, mode | carries);
	for (unsigned i = 0; i < crcs->count; i++)
		if (!crc_right(a.bytes, p, &crcs->covered[i])) wrong |= 1u << i;
	return mode << 4 | wrong;
}

/* Rule 2: in context 0 a frame that starts a run, in any other one that follows. */
static int allowed(unsigned kind, uint64_t context, unsigned verdict) {
	if (context) return kind != BELLROPE_AMR_740 || context >= 2;
	return kind != BELLROPE_AMR_740 && verdict % 16 == 0 && !(kind == BELLROPE_LOWER && verdict == 128);
}

/* The frame that is due at p in a context, if any. */
static int frame_at(capture a, uint64_t p, uint64_t context, item *i) {
	for (unsigned kind = BELLROPE_SPEECH; kind <= BELLROPE_AMR_740; kind++) {
		const layout *l = &layouts[kind];
		if (!fits(a, p, l) || !coded(a, p, kind)) continue;
		i->kind = kind;
		i->verdict = verdict(a, p, kind, context);
		if (!allowed(kind, context, i->verdict)) return 0;
		uint64_t end = p + l->body;
		while (end < a.n && bit(a.bytes, end)) end++;
		i->start = p;
		i->length = end - p - l->body;
		return i->length >= l->least[a.direction];
	}
	return 0;
}

/* The first place from p on where a frame starts a run, or n. */
static uint64_t gap_end(capture a, uint64_t p) {
	unsigned nine = 0x1ff; /* the last nine bits; ones stand for those before p */
	item i;
	for (uint64_t q = p; q < a.n; q++) {
		nine = (nine << 1 | bit(a.bytes, q)) & 0x1ff;
		if (nine == 1 && frame_at(a, q - 8, 0, &i)) return q - 8;
	}
	return a.n;
}

static void put_number(uint8_t *to, uint64_t value) {
	for (unsigned i = 0; i < 4; i++) to[i] = value >> (24 - 8 * i);
}

static unsigned size(const item *i) { return i->kind ? 12 + (layouts[i->kind].d.count + 7) / 8 : 9; }

static unsigned control(capture a, uint64_t p, unsigned kind) {
	switch (kind) {
	case BELLROPE_SPEECH: return c_bits(a, p, kind, 4) << 4 | number_at(a.bytes, p, layouts[kind].c.at + 5, 4);
	case BELLROPE_DATA:
	case BELLROPE_OM:
	case BELLROPE_CONFIGURATION: return c_bits(a, p, kind, 4) << 4;
	case BELLROPE_NO_SPEECH:
	case BELLROPE_LOWER: return c_bits(a, p, kind, 5) << 3;
	default: return c_bits(a, p, kind, 3) << 5;
	}
}

static unsigned extended(capture a, uint64_t p, unsigned kind) {
	if (kind == BELLROPE_SPEECH) return xc_bits(a, p, kind, 5) << 3 | number_at(a.bytes, p, layouts[kind].crc.at, 3);
	return kind == BELLROPE_OM ? 248 : 0;
}

static void put_record(capture a, const item *i, uint8_t *to) {
	to[0] = i->kind;
	put_number(to + 1, i->start);
	put_number(to + 5, i->length);
	if (!i->kind) return;
	to[9] = control(a, i->start, i->kind);
	to[10] = extended(a, i->start, i->kind);
	to[11] = i->verdict;
	const places *d = &layouts[i->kind].d;
	for (unsigned j = 0; j < d->count; j++) {
		if (j % 8 == 0) to[12 + j / 8] = 0;
		to[12 + j / 8] |= bit(a.bytes, i->start + d->at[j]) << (7 - j % 8);
	}
}

/* The context that an item leaves. */
static uint64_t after(capture a, const item *i) {
	if (i->kind == 0) return 0;
	if (i->kind <= BELLROPE_CONFIGURATION) return 1;
	return i->kind == BELLROPE_LOWER ? 2 + own_mode(a, i->start) : 2;
}

bellrope_answer plain_page(const uint8_t *bytes, size_t len, uint64_t n, uint64_t direction, uint8_t profile, uint64_t position, uint64_t context,
                           uint64_t most, uint8_t *buffer, size_t buffer_len) {
	capture a = {bytes, n, direction, profile};
	bellrope_answer r = {.position = position, .context = context};
	item i;
	(void)len;
	while (r.items < most && r.position < n) {
		if (!frame_at(a, r.position, r.context, &i)) {
			i.kind = 0;
			i.start = r.position;
			i.length = gap_end(a, r.position + 1) - r.position;
		}
		if (buffer_len - r.bytes < size(&i)) break;
		put_record(a, &i, buffer + r.bytes);
		r.bytes += size(&i);
		r.position += layouts[i.kind].body + i.length;
		r.context = after(a, &i);
		r.items++;
	}
	return r;
}
