/* The client of the comparison: reads requests on standard input, makes each call with the lent bytes flush against a protected page, and writes the
 * answer, what changed that must stand, and the whole of what may change. It judges nothing else.
 *
 * A request is fifteen 64-bit numbers (call, placement, guard, input length, n, direction, profile, position, context, most, buffer length, sessions,
 * place, key, capture), then the input, the buffer as it is before the call, and the list of sessions likewise: six numbers each, as in bellrope.h. What
 * a call does not take is 0. Call 1 is paging, and its input the capture. Call 2 is writing, and its input the records. Call 3 takes a channel out, and
 * its input is the timeslot; call 4 puts one back, its input is the channel's bytes and its buffer the timeslot; the number of their channel stands in
 * the place of n. Call 5 opens a session, call 6 is a page of one, its input the capture, and call 7 closes one. Other numbers are free for later calls.
 * Placement: bit 0 set puts the input at the end of its pages, bit 1 the buffer, bit 2 the list; clear, at their start. A reply is the six numbers of
 * the answer (of calls 3, 4 and 7 the first, of call 5 the number and the place, then zeros), a number of flags, the buffer and the list. */
#define _GNU_SOURCE
#include "bellrope.h"

#include <stdint.h>
#include <stdio.h>
#include <stdlib.h>
#include <string.h>
#include <sys/mman.h>
#include <unistd.h>

enum { CALL_PAGE = 1, CALL_WRITE = 2, CALL_TAKE = 3, CALL_PUT = 4, CALL_OPEN = 5, CALL_SESSION_PAGE = 6, CALL_CLOSE = 7, CALLS = 8 };
enum { INPUT_CHANGED = 1, INPUT_GUARD_CHANGED = 2, BUFFER_GUARD_CHANGED = 4, LIST_GUARD_CHANGED = 8 };

/* The numbers of a request in their order. */
enum { CALL, PLACEMENT, GUARD, INPUT, N, DIRECTION, PROFILE, POSITION, CONTEXT, MOST, BUFFER, SESSIONS, PLACE, KEY, CAPTURE, NUMBERS };

#define LARGEST ((size_t)4 << 20)

/* Pages of which only those in use are open; the page before the first and that behind the last are always protected. */
typedef struct {
	uint8_t *first, *end; /* the span that can be opened */
	int at_end;           /* open pages lie at the end of the span, or at its start */
	size_t open;          /* bytes open now, whole pages */
	uint8_t *lent;        /* where the lent bytes begin */
	size_t len;
} arena;

static size_t page_size;

static void fail(const char *what) {
	perror(what);
	exit(2);
}

static void arena_make(arena *a, int at_end) {
	uint8_t *all = mmap(NULL, LARGEST + 2 * page_size, PROT_NONE, MAP_PRIVATE | MAP_ANONYMOUS, -1, 0);
	if (all == MAP_FAILED) fail("client: mmap");
	*a = (arena){.first = all + page_size, .end = all + page_size + LARGEST, .at_end = at_end};
}

static uint8_t *arena_open(const arena *a) { return a->at_end ? a->end - a->open : a->first; }

/* Lends `len` bytes that hold `bytes`; the rest of the open pages is filled with the guard byte. */
static void arena_lend(arena *a, const uint8_t *bytes, size_t len, uint8_t guard) {
	size_t open = len == 0 ? page_size : (len + page_size - 1) / page_size * page_size;
	if (open != a->open) {
		if (mprotect(a->first, LARGEST, PROT_NONE)) fail("client: mprotect");
		a->open = open;
		if (mprotect(arena_open(a), open, PROT_READ | PROT_WRITE)) fail("client: mprotect");
	}
	a->lent = a->at_end ? a->end - len : a->first;
	a->len = len;
	memset(arena_open(a), guard, open);
	memcpy(a->lent, bytes, len);
}

static int guards_stand(const arena *a, uint8_t guard) {
	const uint8_t *open = arena_open(a);
	for (const uint8_t *p = open; p < a->lent; p++)
		if (*p != guard) return 0;
	for (const uint8_t *p = a->lent + a->len; p < open + a->open; p++)
		if (*p != guard) return 0;
	return 1;
}

/* Reads exactly `len` bytes; 0 at the end of the input before the first of them. */
static int take(void *to, size_t len) {
	size_t got = fread(to, 1, len, stdin);
	if (got == len) return 1;
	if (got == 0 && feof(stdin)) return 0;
	fail("client: a request cut short");
	return 0;
}

static void give(const void *from, size_t len) {
	if (fwrite(from, 1, len, stdout) != len) fail("client: write");
}

#define TAKES(number) ((uint32_t)1 << (number))

/* The numbers that a call takes, beside those of every request. */
static const uint32_t takes[CALLS] = {
	[CALL_PAGE] = TAKES(INPUT) | TAKES(N) | TAKES(DIRECTION) | TAKES(PROFILE) | TAKES(POSITION) | TAKES(CONTEXT) | TAKES(MOST) | TAKES(BUFFER),
	[CALL_WRITE] = TAKES(INPUT) | TAKES(DIRECTION) | TAKES(PROFILE) | TAKES(POSITION) | TAKES(CONTEXT) | TAKES(BUFFER),
	[CALL_TAKE] = TAKES(INPUT) | TAKES(N) | TAKES(BUFFER),
	[CALL_PUT] = TAKES(INPUT) | TAKES(N) | TAKES(BUFFER),
	[CALL_OPEN] = TAKES(SESSIONS) | TAKES(KEY) | TAKES(CAPTURE) | TAKES(DIRECTION),
	[CALL_SESSION_PAGE] = TAKES(SESSIONS) | TAKES(PLACE) | TAKES(KEY) | TAKES(INPUT) | TAKES(N) | TAKES(PROFILE) | TAKES(MOST) | TAKES(BUFFER),
	[CALL_CLOSE] = TAKES(SESSIONS) | TAKES(PLACE) | TAKES(KEY),
};

/* The request is known: the call, what it takes, and lengths that there is room for. */
static int known(const uint64_t r[NUMBERS]) {
	if (r[CALL] < CALL_PAGE || r[CALL] >= CALLS) return 0;
	for (int i = INPUT; i < NUMBERS; i++)
		if (r[i] != 0 && !(takes[r[CALL]] & TAKES(i))) return 0;
	return r[INPUT] <= LARGEST && r[PROFILE] <= UINT8_MAX && r[BUFFER] <= LARGEST && r[SESSIONS] <= LARGEST / sizeof(bellrope_session);
}

/* The calls as they are made here: only the low byte of a profile's register is the profile, and the rest holds ones, as a caller may leave it. */
typedef bellrope_answer paging(const uint8_t *, size_t, uint64_t, uint64_t, uint64_t, uint64_t, uint64_t, uint64_t, uint8_t *, size_t);
typedef bellrope_answer writing(const uint8_t *, size_t, uint64_t, uint64_t, uint64_t, uint64_t, uint8_t *, size_t);
typedef bellrope_answer paging_of_session(bellrope_session *, size_t, uint64_t, uint64_t, const uint8_t *, size_t, uint64_t, uint64_t, uint64_t, uint8_t *,
                                          size_t);

static uint64_t profile_of(const uint64_t r[NUMBERS]) { return r[PROFILE] | ~(uint64_t)UINT8_MAX; }

static bellrope_answer call_on_bytes(const uint64_t r[NUMBERS], const arena *in, const arena *b) {
	uint64_t n = r[N], channel = r[N], direction = r[DIRECTION], profile = profile_of(r), position = r[POSITION], context = r[CONTEXT], most = r[MOST];
	paging *page = (paging *)(void (*)(void))bellrope_page;
	writing *write = (writing *)(void (*)(void))bellrope_write;
	switch (r[CALL]) {
	case CALL_PAGE: return page(in->lent, in->len, n, direction, profile, position, context, most, b->lent, b->len);
	case CALL_WRITE: return write(in->lent, in->len, direction, profile, position, context, b->lent, b->len);
	case CALL_TAKE: return (bellrope_answer){.number = bellrope_take_channel(in->lent, in->len, channel, b->lent, b->len)};
	default: return (bellrope_answer){.number = bellrope_put_channel(b->lent, b->len, channel, in->lent, in->len)};
	}
}

static bellrope_answer call_on_sessions(const uint64_t r[NUMBERS], const arena *in, const arena *b, const arena *list) {
	bellrope_session *sessions = (bellrope_session *)(void *)list->lent;
	uint64_t len = r[SESSIONS], place = r[PLACE], key = r[KEY];
	paging_of_session *page = (paging_of_session *)(void (*)(void))bellrope_session_page;
	if (r[CALL] == CALL_SESSION_PAGE) return page(sessions, len, place, key, in->lent, in->len, r[N], profile_of(r), r[MOST], b->lent, b->len);
	if (r[CALL] == CALL_CLOSE) return (bellrope_answer){.number = bellrope_close(sessions, len, place, key)};
	bellrope_opened opened = bellrope_open(sessions, len, key, r[CAPTURE], r[DIRECTION]);
	return (bellrope_answer){.number = opened.number, .index = opened.place};
}

int main(void) {
	static uint8_t input[LARGEST], buffer[LARGEST], sessions[LARGEST];
	arena inputs[2], buffers[2], lists[2];
	uint64_t r[NUMBERS];
	page_size = (size_t)sysconf(_SC_PAGESIZE);
	for (int i = 0; i < 2; i++) {
		arena_make(&inputs[i], i);
		arena_make(&buffers[i], i);
		arena_make(&lists[i], i);
	}
	while (take(r, sizeof r)) {
		if (!known(r)) {
			fprintf(stderr, "client: a request that it does not know\n");
			return 2;
		}
		uint64_t placement = r[PLACEMENT];
		uint8_t guard = (uint8_t)r[GUARD];
		size_t input_len = r[INPUT], buffer_len = r[BUFFER], list_len = r[SESSIONS] * sizeof(bellrope_session);
		arena *in = &inputs[placement & 1], *b = &buffers[placement >> 1 & 1], *list = &lists[placement >> 2 & 1];
		if ((input_len && !take(input, input_len)) || (buffer_len && !take(buffer, buffer_len)) || (list_len && !take(sessions, list_len))) return 2;
		arena_lend(in, input, input_len, guard);
		arena_lend(b, buffer, buffer_len, guard);
		arena_lend(list, sessions, list_len, guard);

		bellrope_answer answer = r[CALL] < CALL_OPEN ? call_on_bytes(r, in, b) : call_on_sessions(r, in, b, list);

		uint64_t flags = 0;
		if (memcmp(in->lent, input, input_len)) flags |= INPUT_CHANGED;
		if (!guards_stand(in, guard)) flags |= INPUT_GUARD_CHANGED;
		if (!guards_stand(b, guard)) flags |= BUFFER_GUARD_CHANGED;
		if (!guards_stand(list, guard)) flags |= LIST_GUARD_CHANGED;
		give(&answer, sizeof answer);
		give(&flags, sizeof flags);
		give(b->lent, buffer_len);
		give(list->lent, list_len);
		if (fflush(stdout)) fail("client: write");
	}
	return 0;
}
