/* grow FILE..: capture files harvested while they grow, by bellrope_settled, or by a session and bellrope_session_settled. n goes from 0 to all bits of a
 * file by steps of a generator, from one bit to many frames. At each n all that is settled is taken, by pages of many sizes. What was taken so far must
 * then be the records of a harvest of the capture at this n without the last of them, and at the end, with the rest by bellrope_next or
 * bellrope_session_page, those of the whole, byte for byte. */
#include "bellrope.h"

#include <inttypes.h>
#include <stdio.h>
#include <string.h>

enum {
	SEEDS = 16,
	PLACES = 3,           /* of the list of sessions, all taken */
	PLACE = 1, KEY = 7,   /* of the session that harvests */
	SHORT = 8 * 1000,     /* bits: a capture up to here is held against a harvest at every n, a longer one at some */
	RECORDS_MOST = 131072 /* bytes: no capture gives more; 39 in 161 bits, a gap of one bit and 6,70, are the most */
};

/* One capture that grows, and what was taken of it. */
typedef struct {
	const char *file;
	unsigned seed;
	uint64_t state;                    /* of the generator */
	const uint8_t *bits;               /* all that will come */
	uint64_t all;                      /* how many they are */
	int inverted;                      /* whether the bits lent behind n are not those to come */
	int by_session;                    /* whether a session keeps the cursor */
	uint8_t lent[BELLROPE_BYTES_MOST]; /* the bytes of the capture */
	bellrope_capture capture;
	bellrope_cursor cursor;
	uint8_t taken[RECORDS_MOST];
	size_t bytes; /* of them */
	bellrope_session sessions[PLACES];
} growth;

typedef bellrope_answer session_paging(bellrope_session *, size_t, uint64_t, uint64_t, const uint8_t *, size_t, uint64_t, uint8_t, uint64_t, uint8_t *,
                                       size_t);

static int failures;

static void hold(const growth *g, int so, const char *what) {
	if (so) return;
	failures++;
	printf("%s, seed %u%s%s, n = %" PRIu64 ": not so: %s\n", g->file, g->seed, g->inverted ? " and other bits behind n" : "",
	       g->by_session ? ", by a session" : "", g->capture.n, what);
}

/* A number below `below`, by splitmix64. */
static uint64_t draw(growth *g, uint64_t below) {
	uint64_t z = g->state += 0x9e3779b97f4a7c15;
	z = (z ^ z >> 30) * 0xbf58476d1ce4e5b9;
	z = (z ^ z >> 27) * 0x94d049bb133111eb;
	return (z ^ z >> 31) % below;
}

/* More bits come, up to n. The calls are lent all bytes that there will be, or only those that n needs. */
static void grow_to(growth *g, uint64_t n) {
	size_t from = (size_t)(g->capture.n / 8), needed = (size_t)((n + 7) / 8);
	memcpy(g->lent + from, g->bits + from, needed - from);
	if (g->inverted && n % 8 != 0) g->lent[n / 8] ^= (uint8_t)(0xff >> n % 8);
	g->capture.n = n;
	g->capture.length = draw(g, 2) ? needed : (size_t)(g->all / 8);
}

/* How many bits come next: one, a few, about a frame, or many. */
static uint64_t step(growth *g) {
	uint64_t left = g->all - g->capture.n, bits = 1;
	switch (g->seed == 0 && g->all <= SHORT ? 0 : draw(g, 5)) {
	case 0: break;
	case 1: bits = 1 + draw(g, 9); break;
	case 2: bits = 150 + draw(g, 20); break;
	case 3: bits = 1 + draw(g, 1000); break;
	case 4: bits = 1 + draw(g, 1 + g->all / 32); break;
	}
	return bits < left ? bits : left;
}

/* All places of the list are taken, those beside the harvest's too. */
static void open_sessions(growth *g) {
	memset(g->sessions, 0, sizeof g->sessions);
	for (uint64_t place = 0; place < PLACES; place++) {
		bellrope_opened opened = bellrope_open(g->sessions, PLACES, KEY + place - PLACE, 0, g->capture.direction);
		hold(g, opened.number == BELLROPE_TAKEN && opened.place == place, "the session is opened");
	}
}

/* A page by the session. The cursor is a copy of the one that it keeps. */
static bellrope_answer session_page(growth *g, session_paging *call, uint64_t most, uint8_t *page, size_t length) {
	bellrope_capture c = g->capture;
	bellrope_answer answer = call(g->sessions, PLACES, PLACE, KEY, c.bytes, c.length, c.n, c.profile, most, page, length);
	g->cursor.position = g->sessions[PLACE].position;
	g->cursor.context = g->sessions[PLACE].context;
	return answer;
}

/* Takes page after page, what is settled or all, until one has no item. */
static void take(growth *g, int all) {
	uint8_t page[4096];
	bellrope_answer answer;
	do {
		uint64_t most = draw(g, 2) ? UINT64_MAX : 1 + draw(g, 4);
		size_t length = BELLROPE_RECORD_MOST + (size_t)draw(g, draw(g, 2) ? 100 : sizeof page - BELLROPE_RECORD_MOST + 1);
		if (g->by_session) answer = session_page(g, all ? bellrope_session_page : bellrope_session_settled, most, page, length);
		else answer = (all ? bellrope_next : bellrope_settled)(g->capture, &g->cursor, most, page, length);
		hold(g, answer.number == BELLROPE_TAKEN && answer.index == 0, "the page is taken");
		hold(g, answer.items <= most && answer.bytes <= length && (answer.items == 0) == (answer.bytes == 0), "the page keeps to its counts");
		hold(g, answer.position == g->cursor.position && answer.context == g->cursor.context, "the cursor is the one answered");
		hold(g, answer.bytes <= sizeof g->taken - g->bytes, "the records are no more than a capture gives");
		if (failures != 0) return;
		memcpy(g->taken + g->bytes, page, answer.bytes);
		g->bytes += answer.bytes;
	} while (answer.items != 0);
}

/* What was taken is a harvest of the capture at this n, but for its last record unless `whole`. */
static void compare(const growth *g, int whole) {
	static uint8_t plain[RECORDS_MOST];
	bellrope_cursor cursor = bellrope_begin();
	bellrope_record record;
	bellrope_answer answer = bellrope_next(g->capture, &cursor, UINT64_MAX, plain, sizeof plain);
	size_t due = 0, at = 0;
	hold(g, answer.number == BELLROPE_TAKEN && cursor.position == g->capture.n, "a harvest takes all");
	while (bellrope_walk(plain, answer.bytes, &at, &record))
		if (whole || at != answer.bytes) due = at;
	hold(g, g->bytes >= due, whole ? "no record is missing" : "every record but the last is settled");
	hold(g, g->bytes <= due, whole ? "no record is there twice" : "the last record is not settled");
	hold(g, memcmp(g->taken, plain, g->bytes < due ? g->bytes : due) == 0, "what was settled stands");
}

/* One capture grows once. What fails ends it. */
static void grow(growth *g) {
	g->state = g->seed;
	g->bytes = 0;
	g->cursor = bellrope_begin();
	open_sessions(g);
	g->capture.n = 0;
	g->capture.profile = (uint8_t)(g->seed == 0 ? 0 : draw(g, 256));
	for (uint64_t i = 0; i < g->all / 8; i++) g->lent[i] = (uint8_t)(g->inverted ? ~g->bits[i] : g->bits[i]);
	for (uint64_t n = 0;; n += step(g)) {
		grow_to(g, n);
		take(g, 0);
		if (g->all <= SHORT || draw(g, g->all / SHORT) == 0) compare(g, 0);
		if (failures != 0) return;
		if (n == g->all) break;
	}
	take(g, 1);
	hold(g, g->cursor.position == g->all, "the rest goes to n");
	compare(g, 1);
}

int main(int argc, char **argv) {
	static uint8_t bytes[1 + BELLROPE_BYTES_MOST];
	static growth g;
	for (int i = 1; i < argc; i++) {
		FILE *file = fopen(argv[i], "rb");
		size_t len = file ? fread(bytes, 1, sizeof bytes, file) : 0;
		if (len == 0 || fclose(file) != 0) {
			printf("%s cannot be read\n", argv[i]);
			return 1;
		}
		g.file = argv[i];
		g.bits = bytes + 1;
		g.all = 8 * (uint64_t)(len - 1);
		g.capture = bellrope_capture_of(g.lent, len - 1, 0, bytes[0]);
		for (unsigned turn = 0; turn < 4 * SEEDS; turn++) {
			g.seed = turn / 4;
			g.inverted = (int)(turn % 2);
			g.by_session = (int)(turn / 2 % 2);
			grow(&g);
			if (failures != 0) return 1;
		}
	}
	return 0;
}
