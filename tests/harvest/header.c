/* The names of bellrope.h held against the library's seven calls: the layout of an answer and of a session, each number by its name, the places of a record,
 * and the limits and the bits of a channel. It is C and C++ at once, so that both can be compiled. */
#include "hold.h"

#include <assert.h>
#include <string.h>

static_assert(sizeof(bellrope_answer) == 48 && offsetof(bellrope_answer, context) == 40, "an answer is six numbers of 64 bits");
static_assert(sizeof bellrope_take_channel(NULL, 0, 0, NULL, 0) == 8 && sizeof bellrope_put_channel(NULL, 0, 0, NULL, 0) == 8, "a number has 64 bits");
static_assert(sizeof(bellrope_session) == 48 && offsetof(bellrope_session, key) == 8 && offsetof(bellrope_session, position) == 16 &&
              offsetof(bellrope_session, context) == 24 && offsetof(bellrope_session, capture) == 32 && offsetof(bellrope_session, direction) == 40,
              "a session is six numbers of 64 bits");
static_assert(sizeof(bellrope_opened) == 16 && offsetof(bellrope_opened, place) == 8, "what opening answers is two of them");
static_assert(sizeof bellrope_close(NULL, 0, 0, 0) == 8, "closing answers one");

/* Eight ones, and then a frame of HR speech. */
static const uint8_t capture[21] = {0xff, 0x00, 0x88, 0x44, 0x80, 0x80, 0x80, 0x80, 0x80, 0x80, 0xf0,
                                    0x80, 0x80, 0x80, 0x80, 0x80, 0x80, 0x80, 0x80, 0x80, 0xbf};
enum { N = 168, DOWN = BELLROPE_DOWNLINK };

static bellrope_answer page(uint64_t n, uint64_t direction, uint64_t position, uint64_t context, uint64_t most, uint8_t *buffer, size_t len) {
	return bellrope_page(capture, sizeof capture, n, direction, 0, position, context, most, buffer, len);
}

static uint8_t timeslot[BELLROPE_OCTETS_MOST + 1], channel[BELLROPE_CHANNEL_MOST + 1];

/* Both calls answer this number of the first octets of the timeslot and the first bytes of the channel. */
static int judged(uint64_t number, uint64_t k, size_t octets, size_t bytes) {
	return bellrope_take_channel(timeslot, octets, k, channel, bytes) == number && bellrope_put_channel(timeslot, octets, k, channel, bytes) == number;
}

/* What the two calls refuse, in which order, and what only just not. A refusal and an empty timeslot leave all as it was. */
static void channel_refusals(void) {
	const size_t octets = BELLROPE_OCTETS_MOST, bytes = BELLROPE_CHANNEL_MOST;
	const uint64_t none[] = {0, 9, 257, UINT64_MAX, ((uint64_t)1 << 32) + 1, (uint64_t)1 << 63 | 8};
	memset(timeslot, 0x55, sizeof timeslot);
	memset(channel, 0x33, sizeof channel);
	for (size_t i = 0; i < sizeof none / sizeof *none; i++) {
		HOLD(judged(BELLROPE_NO_CHANNEL, none[i], 8, 1) && judged(BELLROPE_NO_CHANNEL, none[i], 0, 0));
		HOLD(judged(BELLROPE_NO_CHANNEL, none[i], octets + 1, bytes + 1) && judged(BELLROPE_NO_CHANNEL, none[i], octets, bytes - 1));
	}
	for (uint64_t k = 1; k <= 8; k++) {
		HOLD(judged(BELLROPE_TOO_LONG, k, octets + 1, bytes + 1) && judged(BELLROPE_TOO_LONG, k, octets + 1, 0));
		HOLD(judged(BELLROPE_NO_ROOM, k, octets, bytes - 1) && judged(BELLROPE_NO_ROOM, k, 9, 1) && judged(BELLROPE_NO_ROOM, k, 1, 0));
		HOLD(judged(BELLROPE_TAKEN, k, 0, 0) && judged(BELLROPE_TAKEN, k, 0, bytes));
	}
	HOLD(timeslot[0] == 0x55 && memcmp(timeslot, timeslot + 1, sizeof timeslot - 1) == 0);
	HOLD(channel[0] == 0x33 && memcmp(channel, channel + 1, sizeof channel - 1) == 0);
	for (uint64_t k = 1; k <= 8; k++) HOLD(judged(BELLROPE_TAKEN, k, octets, bytes) && judged(BELLROPE_TAKEN, k, 9, 2));
}

/* One channel of eleven octets taken out, and other bits put into it, of which the last five are not looked at. */
static void channel_bits(void) {
	const uint8_t before[12] = {0x80, 0x01, 0x80, 0x80, 0x01, 0x01, 0x80, 0x00, 0xff, 0x01, 0x81, 0x55};
	const uint8_t after[12] = {0x00, 0x81, 0x00, 0x00, 0x81, 0x81, 0x00, 0x00, 0xff, 0x81, 0x81, 0x55};
	const uint8_t first[4] = {0xb2, 0xa0, 0x33, 0x33}, last[4] = {0x4c, 0xe0, 0x33, 0x33}, put[2] = {0x4c, 0xff};
	uint8_t octets[12], bytes[4];
	memcpy(octets, before, sizeof octets);
	memset(bytes, 0x33, sizeof bytes);
	HOLD(bellrope_take_channel(octets, 11, 1, bytes, 4) == BELLROPE_TAKEN && memcmp(bytes, first, 4) == 0);
	HOLD(bellrope_take_channel(octets, 11, 8, bytes, 4) == BELLROPE_TAKEN && memcmp(bytes, last, 4) == 0);
	HOLD(memcmp(octets, before, sizeof octets) == 0);
	HOLD(bellrope_put_channel(octets, 11, 1, put, 2) == BELLROPE_TAKEN && memcmp(octets, after, sizeof octets) == 0);
	HOLD(bellrope_put_channel(octets, 11, 1, first, 4) == BELLROPE_TAKEN && memcmp(octets, before, sizeof octets) == 0);
}

/* Each channel has its bit of an octet, and putting back changes that one alone. */
static void channel_weights(void) {
	for (unsigned k = 1; k <= 8; k++) {
		const uint8_t weight = (uint8_t)(256 >> k), zero = 0x7f, one = 0x80;
		uint8_t octet = weight, other = (uint8_t)~weight, bit = 0x33;
		HOLD(bellrope_take_channel(&octet, 1, k, &bit, 1) == BELLROPE_TAKEN && bit == 0x80);
		HOLD(bellrope_take_channel(&other, 1, k, &bit, 1) == BELLROPE_TAKEN && bit == 0);
		HOLD(bellrope_put_channel(&octet, 1, k, &zero, 1) == BELLROPE_TAKEN && octet == 0);
		HOLD(bellrope_put_channel(&other, 1, k, &one, 1) == BELLROPE_TAKEN && other == 0xff);
	}
}

static bellrope_session list[BELLROPE_SESSIONS_MOST + 1], before[BELLROPE_SESSIONS_MOST + 1];
static uint8_t room[40];

/* The list is empty: zeros, and behind it what is not to be looked at. */
static void clear(size_t places) {
	memset(list, 0xff, sizeof list);
	memset(list, 0, places * sizeof *list);
}

/* A session is taken and has these numbers. They are looked at through pointers, as an answer's are. */
static int holds(const bellrope_session *s, uint64_t key, uint64_t position, uint64_t context, uint64_t number, uint64_t direction) {
	const uint64_t *used = &s->used, *got[5] = {&s->key, &s->position, &s->context, &s->capture, &s->direction};
	const uint64_t due[5] = {key, position, context, number, direction};
	for (int i = 0; i < 5; i++)
		if (*got[i] != due[i]) return 0;
	return *used != 0;
}

/* Opening answers this number and this place; of a refusal the list is as it was. */
static int opens(size_t places, uint64_t key, uint64_t number, uint64_t direction, uint64_t answer, uint64_t place) {
	memcpy(before, list, sizeof list);
	bellrope_opened opened = bellrope_open(list, places, key, number, direction);
	const uint64_t *got[2] = {&opened.number, &opened.place};
	return *got[0] == answer && *got[1] == place && (answer == BELLROPE_TAKEN || memcmp(list, before, sizeof list) == 0);
}

static bellrope_answer session_page(size_t places, uint64_t place, uint64_t key, uint64_t n, uint64_t most, size_t len) {
	return bellrope_session_page(list, places, place, key, capture, sizeof capture, n, 0, most, room, len);
}

/* Paging and closing answer this number and zeros, whatever else is wrong with the page, and the list and the buffer are as they were. */
static int rejected(size_t places, uint64_t place, uint64_t key, uint64_t number) {
	static const struct {
		uint64_t n, most;
		size_t len;
	} pages[] = {{N, 9, 40}, {N, 0, 40}, {N + 1, 9, 40}, {0, 9, 40}, {N, 9, 0}};
	uint8_t still[sizeof room];
	int so = 1;
	memcpy(before, list, sizeof list);
	memcpy(still, room, sizeof room);
	for (size_t i = 0; i < sizeof pages / sizeof *pages; i++)
		so = so && is(session_page(places, place, key, pages[i].n, pages[i].most, pages[i].len), number, 0, 0, 0, 0, 0);
	return so && bellrope_close(list, places, place, key) == number && memcmp(list, before, sizeof list) == 0 && memcmp(room, still, sizeof room) == 0;
}

/* One session from opening to closing, part by part. Its neighbours stay free, and what is behind the list is not looked at. */
static void session_parts(void) {
	const bellrope_session none = {0, 0, 0, 0, 0, 0};
	const uint64_t key = (uint64_t)1 << 63 | 7, number = (uint64_t)5 << 40;
	clear(3);
	HOLD(opens(3, 1, 0, 0, BELLROPE_TAKEN, 0) && holds(&list[0], 1, 0, 0, 0, 0));
	HOLD(opens(3, key, number, DOWN, BELLROPE_TAKEN, 1) && holds(&list[1], key, 0, BELLROPE_SEARCHING, number, DOWN));
	HOLD(bellrope_close(list, 3, 0, 1) == BELLROPE_TAKEN);
	HOLD(is(session_page(3, 1, key, N, 1, 40), BELLROPE_TAKEN, 0, 1, 9, 8, 0) && holds(&list[1], key, 8, BELLROPE_SEARCHING, number, DOWN));
	HOLD(is(session_page(3, 1, key, N, UINT64_MAX, 40), BELLROPE_TAKEN, 0, 1, 26, N, 1) && holds(&list[1], key, N, BELLROPE_AFTER_HR, number, DOWN));
	HOLD(memcmp(&list[0], &none, sizeof none) == 0 && memcmp(&list[2], &none, sizeof none) == 0);
	HOLD(bellrope_close(list, 3, 1, key) == BELLROPE_TAKEN && memcmp(&list[1], &none, sizeof none) == 0);
	for (size_t at = 3 * sizeof *list; at < sizeof list; at++) HOLD(((const uint8_t *)list)[at] == 0xff);
}

/* What a page of a session is refused for beside the place: as paging is, the cursor answered and kept. */
static void session_pages(void) {
	const bellrope_session beyond = {1, 4, N + 1, 0, 0, DOWN}, odd = {1, 5, 8, BELLROPE_AFTER_590 + 1, 0, DOWN}, sideways = {1, 6, 8, 0, 0, 2};
	clear(4);
	HOLD(opens(4, 3, 0, DOWN, BELLROPE_TAKEN, 0) && is(session_page(4, 0, 3, N, 1, 9), BELLROPE_TAKEN, 0, 1, 9, 8, 0));
	list[1] = beyond;
	list[2] = odd;
	list[3] = sideways;
	memcpy(before, list, sizeof list);
	HOLD(is(session_page(4, 0, 3, N, 0, 40), BELLROPE_BAD_REQUEST, 0, 0, 0, 8, 0));
	HOLD(is(session_page(4, 3, 6, N, 9, 40), BELLROPE_BAD_REQUEST, 0, 0, 0, 8, 0));
	HOLD(is(session_page(4, 0, 3, N + 1, 9, 40), BELLROPE_TOO_LONG, 0, 0, 0, 8, 0));
	HOLD(is(session_page(4, 0, 3, 7, 9, 40), BELLROPE_BAD_CURSOR, 0, 0, 0, 8, 0));
	HOLD(is(session_page(4, 1, 4, N, 9, 40), BELLROPE_BAD_CURSOR, 0, 0, 0, N + 1, 0));
	HOLD(is(session_page(4, 2, 5, N, 9, 40), BELLROPE_BAD_CURSOR, 0, 0, 0, 8, 6));
	HOLD(is(session_page(4, 0, 3, N, 9, 25), BELLROPE_NO_ROOM, 0, 0, 0, 8, 0));
	HOLD(memcmp(list, before, sizeof list) == 0);
}

/* Numbers of the place and of opening, in which order, by lists of every length and one too long. */
static void session_refusals(void) {
	const uint64_t any[] = {1, 2, (uint64_t)1 << 32, UINT64_MAX};
	memset(room, 0x55, sizeof room);
	for (size_t places = 0; places <= BELLROPE_SESSIONS_MOST; places++) {
		clear(places);
		for (uint64_t place = 0; place < places; place++) {
			HOLD(rejected(places, place, 0, BELLROPE_NO_SESSION));
			HOLD(opens(places, place, 0, 2, BELLROPE_BAD_REQUEST, 0) && opens(places, place, 0, DOWN, BELLROPE_TAKEN, place));
			HOLD(opens(places, place, 0, 2, BELLROPE_BAD_REQUEST, 0) && opens(places, place, 0, DOWN, BELLROPE_KEY_PRESENT, 0));
			HOLD(rejected(places, place, place + 1, BELLROPE_NO_SESSION));
		}
		HOLD(opens(places, places, 0, UINT64_MAX, BELLROPE_BAD_REQUEST, 0) && opens(places, places, 0, DOWN, BELLROPE_FULL, 0));
		HOLD(rejected(places, places, UINT64_MAX, BELLROPE_NO_SESSION) && rejected(places, UINT64_MAX, 0, BELLROPE_NO_SESSION));
	}
	/* The list is full. A place freed is taken again, the lowest first; of a free one only `used` counts, and any number but 0 is used. */
	HOLD(bellrope_close(list, BELLROPE_SESSIONS_MOST, 31, 31) == BELLROPE_TAKEN && bellrope_close(list, BELLROPE_SESSIONS_MOST, 17, 17) == BELLROPE_TAKEN);
	HOLD(rejected(BELLROPE_SESSIONS_MOST, 17, 17, BELLROPE_NO_SESSION));
	list[17].key = 99;
	HOLD(rejected(BELLROPE_SESSIONS_MOST, 17, 99, BELLROPE_NO_SESSION) && opens(BELLROPE_SESSIONS_MOST, 99, 0, DOWN, BELLROPE_TAKEN, 17));
	for (size_t i = 0; i < sizeof any / sizeof *any; i++) {
		list[31].used = any[i];
		list[31].key = 77;
		HOLD(opens(BELLROPE_SESSIONS_MOST, 77, 0, DOWN, BELLROPE_KEY_PRESENT, 0) && opens(BELLROPE_SESSIONS_MOST, 78, 0, DOWN, BELLROPE_FULL, 0));
	}
	/* One place more than there may be. */
	HOLD(opens(BELLROPE_SESSIONS_MOST + 1, 200, 0, DOWN, BELLROPE_TOO_LONG, 0) && opens(BELLROPE_SESSIONS_MOST + 1, 0, 0, 2, BELLROPE_TOO_LONG, 0));
	HOLD(rejected(BELLROPE_SESSIONS_MOST + 1, 0, 0, BELLROPE_TOO_LONG) && rejected(BELLROPE_SESSIONS_MOST + 1, UINT64_MAX, 0, BELLROPE_TOO_LONG));
}

int main(void) {
	uint8_t records[40], bits[21], still[40];
	memset(still, 0x55, sizeof still);
	memset(records, 0x55, sizeof records);
	const uint8_t *gap = records, *frame = records + bellrope_record_bytes(BELLROPE_GAP);
	size_t len = bellrope_record_bytes(BELLROPE_SPEECH);

	/* Refusals of paging, which leave the buffer as it was. */
	HOLD(is(page(N, 2, 0, 0, 9, records, 40), BELLROPE_BAD_REQUEST, 0, 0, 0, 0, 0));
	HOLD(is(page(N, DOWN, 0, 0, 0, records, 40), BELLROPE_BAD_REQUEST, 0, 0, 0, 0, 0));
	HOLD(is(page(N + 1, DOWN, 0, 0, 9, records, 40), BELLROPE_TOO_LONG, 0, 0, 0, 0, 0));
	HOLD(is(page(N, DOWN, N + 1, 0, 9, records, 40), BELLROPE_BAD_CURSOR, 0, 0, 0, N + 1, 0));
	HOLD(is(page(N, DOWN, 0, BELLROPE_AFTER_590 + 1, 9, records, 40), BELLROPE_BAD_CURSOR, 0, 0, 0, 0, 6));
	HOLD(is(page(N, DOWN, 0, 0, 9, records, 8), BELLROPE_NO_ROOM, 0, 0, 0, 0, 0));
	HOLD(memcmp(records, still, 40) == 0);

	/* A page, and its records part by part. */
	HOLD(is(page(N, DOWN, 0, BELLROPE_SEARCHING, UINT64_MAX, records, 40), BELLROPE_TAKEN, 0, 2, 35, N, BELLROPE_AFTER_HR));
	HOLD(gap[BELLROPE_AT_KIND] == BELLROPE_GAP && frame[BELLROPE_AT_KIND] == BELLROPE_SPEECH);
	HOLD(bellrope_number_at(gap + BELLROPE_AT_START) == 0 && bellrope_number_at(gap + BELLROPE_AT_LENGTH) == 8);
	HOLD(bellrope_number_at(frame + BELLROPE_AT_START) == 8 && bellrope_number_at(frame + BELLROPE_AT_TAIL) == 2);
	HOLD(frame[BELLROPE_AT_CONTROL] == 0x1f && frame[BELLROPE_AT_EXTENDED] == 0x07 && frame[BELLROPE_AT_VERDICT] == 0);
	HOLD(frame + len == records + 35 && memcmp(records + 35, still, 5) == 0);

	/* Refusals of writing, and the frame written back. */
	memset(bits, 0x55, sizeof bits);
	HOLD(is(bellrope_write(gap, 9, DOWN, 0, 0, 0, bits, 21), BELLROPE_UNSOUND, 0, 0, 0, 0, 0));
	HOLD(is(bellrope_write(frame, len, DOWN, 0, 0, 0, bits, 21), BELLROPE_NOT_DUE, 0, 0, 0, 0, 0));
	HOLD(is(bellrope_write(frame, len + 1, DOWN, 0, 8, 0, bits, 21), BELLROPE_UNSOUND, 1, 0, 0, 8, 0));
	HOLD(is(bellrope_write(frame, len, DOWN, 0, 8, 0, bits, 20), BELLROPE_NO_ROOM, 0, 0, 0, 8, 0));
	HOLD(memcmp(bits, still, 21) == 0);
	HOLD(is(bellrope_write(frame, len, DOWN, 0, 8, 0, bits, 21), BELLROPE_TAKEN, 0, 1, 0, N, BELLROPE_AFTER_HR));
	HOLD(bits[0] == 0x55 && memcmp(bits + 1, capture + 1, 20) == 0);

	channel_refusals();
	channel_bits();
	channel_weights();
	session_parts();
	session_pages();
	session_refusals();
	return failures != 0;
}
