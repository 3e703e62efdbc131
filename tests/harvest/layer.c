/* The inline part of bellrope.h, held against the specification: its table of kinds is typed here anew, its examples P8, P9 and P12 are harvested, also
 * while they grow, out of a timeslot and by sessions, and P8 is written back. It is C99 and C++ at once. VERSION is the one that pkg-config gives. The
 * linker hands paging and writing to the forms below (--wrap), which see that they get valid pointers even where the length is 0. */
#include "hold.h"

#include <string.h>

#ifdef __cplusplus
extern "C" {
#endif
bellrope_answer __real_bellrope_page(const uint8_t *, size_t, uint64_t, uint64_t, uint8_t, uint64_t, uint64_t, uint64_t, uint8_t *, size_t);
bellrope_answer __real_bellrope_write(const uint8_t *, size_t, uint64_t, uint8_t, uint64_t, uint64_t, uint8_t *, size_t);
bellrope_answer __real_bellrope_session_page(bellrope_session *, size_t, uint64_t, uint64_t, const uint8_t *, size_t, uint64_t, uint8_t, uint64_t, uint8_t *,
                                             size_t);

bellrope_answer __wrap_bellrope_page(const uint8_t *capture, size_t capture_len, uint64_t n, uint64_t direction, uint8_t profile, uint64_t position,
                                     uint64_t context, uint64_t most, uint8_t *buffer, size_t buffer_len) {
	HOLD(capture != NULL && buffer != NULL);
	return __real_bellrope_page(capture, capture_len, n, direction, profile, position, context, most, buffer, buffer_len);
}

bellrope_answer __wrap_bellrope_write(const uint8_t *records, size_t records_len, uint64_t direction, uint8_t profile, uint64_t position,
                                      uint64_t context, uint8_t *buffer, size_t buffer_len) {
	HOLD(records != NULL && buffer != NULL);
	return __real_bellrope_write(records, records_len, direction, profile, position, context, buffer, buffer_len);
}

bellrope_answer __wrap_bellrope_session_page(bellrope_session *sessions, size_t sessions_len, uint64_t place, uint64_t key, const uint8_t *capture,
                                             size_t capture_len, uint64_t n, uint8_t profile, uint64_t most, uint8_t *buffer, size_t buffer_len) {
	HOLD(sessions != NULL && capture != NULL && buffer != NULL);
	return __real_bellrope_session_page(sessions, sessions_len, place, key, capture, capture_len, n, profile, most, buffer, buffer_len);
}
#ifdef __cplusplus
}
#endif

/* By kind, from the specification's table and its records: bytes, D bits, body, least tail up and down, usual tail. */
static const struct {
	const char *name;
	unsigned bytes, d_bits, body, least_up, least_down, usual_tail;
} due[9] = {
	{"gap", 9, 0, 0, 0, 0, 0},
	{"HR speech", 26, 112, 158, 1, 0, 2},
	{"data", 28, 126, 159, 1, 1, 1},
	{"O&M", 27, 120, 159, 1, 1, 1},
	{"configuration", 28, 125, 158, 2, 2, 2},
	{"No_Speech", 28, 125, 158, 1, 0, 2},
	{"lower speech", 28, 126, 159, 0, 0, 1},
	{"6,70", 30, 137, 160, 0, 0, 0},
	{"7,40", 31, 151, 160, 0, 0, 0},
};

/* P8: FF H downlink, a gap of 8 and HR speech. P12: kind 7 at 0, and Z as kind 8 at 160. */
static const uint8_t p8[21] = {0xff, 0x00, 0x88, 0x44, 0x80, 0x80, 0x80, 0x80, 0x80, 0x80, 0xf0,
                               0x80, 0x80, 0x80, 0x80, 0x80, 0x80, 0x80, 0x80, 0x80, 0xbf};
static const uint8_t p12[40] = {0x00, 0x80, 0x90, 0x80, 0x80, 0x00, 0x80, 0x00, 0x80, 0x60, 0x80, 0x00, 0x80, 0x00,
                                0x80, 0x00, 0x80, 0x00, 0x80, 0x00, 0x20, 0x00, 0x80};

static void kinds(void) {
	for (unsigned kind = 0; kind <= 8; kind++) {
		const bellrope_about *about = bellrope_about_kind(kind);
		HOLD(strcmp(about->name, due[kind].name) == 0);
		HOLD(about->bytes == due[kind].bytes && bellrope_record_bytes(kind) == due[kind].bytes);
		HOLD(about->d_bits == due[kind].d_bits && about->body == due[kind].body);
		HOLD(about->least_tail[BELLROPE_UPLINK] == due[kind].least_up && about->least_tail[BELLROPE_DOWNLINK] == due[kind].least_down);
		HOLD(about->usual_tail == due[kind].usual_tail);
		/* A verdict of kinds 2, 3 and 4 is always 0. */
		HOLD(about->has_check == (kind == 1 || kind >= 5));
		HOLD(due[kind].bytes <= BELLROPE_RECORD_MOST);
	}
	const uint64_t unknown[] = {9, 10, 255, 256, 257, (uint64_t)1 << 32, UINT64_MAX};
	for (size_t i = 0; i < sizeof unknown / sizeof *unknown; i++) {
		HOLD(bellrope_record_bytes(unknown[i]) == 0 && bellrope_about_kind(unknown[i])->d_bits == 0);
		HOLD(strcmp(bellrope_about_kind(unknown[i])->name, "unknown kind") == 0);
	}
}

static void numbers(void) {
	static const char *const names[] = {"taken", "bad request", "too long", "bad cursor", "no room", "unsound record", "record not due",
	                                    "no such channel", "list of sessions full", "key already present", "no such session"};
	for (unsigned number = 0; number <= 10; number++) HOLD(strcmp(bellrope_number_name(number), names[number]) == 0);
	HOLD(strcmp(bellrope_number_name(11), "unknown number") == 0 && strcmp(bellrope_number_name(UINT64_MAX), "unknown number") == 0);
	HOLD(strcmp(BELLROPE_VERSION, VERSION) == 0);
}

static int stands(bellrope_cursor cursor, uint64_t position, uint64_t context) { return cursor.position == position && cursor.context == context; }

/* Pages of P8: the cursor moves where a page is taken, and only there. */
static void pages(void) {
	uint8_t page[40];
	bellrope_cursor cursor = bellrope_begin();
	bellrope_capture capture = bellrope_capture_of(p8, sizeof p8, 168, BELLROPE_DOWNLINK), odd = bellrope_capture_of(p8, sizeof p8, 168, 2);
	bellrope_capture beyond = bellrope_capture_of(p8, sizeof p8, 169, BELLROPE_DOWNLINK);
	memset(page, 0x55, sizeof page);
	HOLD(stands(cursor, 0, BELLROPE_SEARCHING));
	HOLD(is(bellrope_next(odd, &cursor, 1, page, 40), BELLROPE_BAD_REQUEST, 0, 0, 0, 0, 0) && stands(cursor, 0, 0));
	HOLD(is(bellrope_next(beyond, &cursor, 1, page, 40), BELLROPE_TOO_LONG, 0, 0, 0, 0, 0) && stands(cursor, 0, 0));
	HOLD(is(bellrope_next(capture, &cursor, 9, page, 9), BELLROPE_TAKEN, 0, 1, 9, 8, 0) && stands(cursor, 8, BELLROPE_SEARCHING));
	HOLD(page[9] == 0x55);
	HOLD(is(bellrope_next(capture, &cursor, 9, page, 25), BELLROPE_NO_ROOM, 0, 0, 0, 8, 0) && stands(cursor, 8, 0));
	HOLD(is(bellrope_next(capture, &cursor, 0, page, 26), BELLROPE_BAD_REQUEST, 0, 0, 0, 8, 0) && stands(cursor, 8, 0));
	HOLD(is(bellrope_next(capture, &cursor, 9, page, 26), BELLROPE_TAKEN, 0, 1, 26, 168, 1) && stands(cursor, 168, BELLROPE_AFTER_HR));
	HOLD(is(bellrope_next(capture, &cursor, 9, page, 26), BELLROPE_TAKEN, 0, 0, 0, 168, 1) && stands(cursor, 168, BELLROPE_AFTER_HR));
	cursor.context = 6;
	HOLD(is(bellrope_next(capture, &cursor, 9, page, 26), BELLROPE_BAD_CURSOR, 0, 0, 0, 168, 6) && stands(cursor, 168, 6));
	/* NULL where the length is 0. */
	cursor = bellrope_begin();
	cursor.context = BELLROPE_AFTER_AMR;
	HOLD(is(bellrope_next(bellrope_capture_of(NULL, 0, 0, BELLROPE_UPLINK), &cursor, 1, NULL, 0), BELLROPE_TAKEN, 0, 0, 0, 0, 2));
	HOLD(stands(cursor, 0, BELLROPE_AFTER_AMR));
	HOLD(is(bellrope_next(capture, &cursor, 1, NULL, 0), BELLROPE_NO_ROOM, 0, 0, 0, 0, 2) && stands(cursor, 0, 2));
}

static const uint64_t mosts[] = {1, 2, 3, 1000, UINT64_MAX};

/* P8 at this n: up to 165 it is one gap, and nothing is settled. From 166 on, which is P9, the gap of 8 is settled and the frame is not. */
static int settles_p8(uint64_t n, uint64_t most, size_t length) {
	static const uint8_t gap[9] = {0, 0, 0, 0, 0, 0, 0, 0, 8};
	uint8_t page[41], still[41];
	bellrope_capture capture = bellrope_capture_of(p8, sizeof p8, n, BELLROPE_DOWNLINK);
	bellrope_cursor cursor = bellrope_begin();
	int room = n == 0 || length >= 9, settled = n >= 166 && room;
	memset(page, 0x55, sizeof page);
	memset(still, 0x55, sizeof still);
	int so = is(bellrope_settled(capture, &cursor, most, page, length), room ? BELLROPE_TAKEN : BELLROPE_NO_ROOM, 0, settled, settled ? 9 : 0,
	            settled ? 8 : 0, 0);
	so = so && stands(cursor, settled ? 8 : 0, BELLROPE_SEARCHING) && memcmp(page + length, still, sizeof still - length) == 0;
	if (settled) so = so && memcmp(page, gap, sizeof gap) == 0;
	if (!room || n == 0) so = so && memcmp(page, still, sizeof still) == 0;
	if (!settled) return so;
	return so && is(bellrope_settled(capture, &cursor, most, page, length), length < 26 ? BELLROPE_NO_ROOM : BELLROPE_TAKEN, 0, 0, 0, 8, 0) &&
	       stands(cursor, 8, BELLROPE_SEARCHING);
}

/* P8 as it grows, by each buffer and count. */
static void grows(void) {
	for (uint64_t n = 0; n <= 168; n++) {
		unsigned wrong = 0;
		for (size_t length = 0; length <= 40; length++)
			for (size_t i = 0; i < sizeof mosts / sizeof *mosts; i++) wrong += !settles_p8(n, mosts[i], length);
		HOLD(wrong == 0);
	}
}

/* The cursor kept stays good: behind the gap stands a frame whose tail is 0 at n = 166 and 2 at 168. */
static void kept(void) {
	uint8_t page[40];
	bellrope_cursor cursor = bellrope_begin();
	HOLD(is(bellrope_settled(bellrope_capture_of(p8, sizeof p8, 165, 1), &cursor, 9, page, 40), 0, 0, 0, 0, 0, 0) && stands(cursor, 0, 0));
	HOLD(is(bellrope_settled(bellrope_capture_of(p8, sizeof p8, 166, 1), &cursor, 9, page, 40), 0, 0, 1, 9, 8, 0) && stands(cursor, 8, 0));
	for (uint64_t n = 166; n <= 168; n++) {
		bellrope_cursor behind = cursor;
		HOLD(is(bellrope_settled(bellrope_capture_of(p8, sizeof p8, n, 1), &cursor, 9, page, 40), 0, 0, 0, 0, 8, 0) && stands(cursor, 8, 0));
		HOLD(is(bellrope_next(bellrope_capture_of(p8, sizeof p8, n, 1), &behind, 9, page, 40), 0, 0, 1, 26, n, 1) && stands(behind, n, 1));
		HOLD(bellrope_number_at(page + BELLROPE_AT_START) == 8 && bellrope_number_at(page + BELLROPE_AT_TAIL) == n - 166);
	}
}

/* FF H H: a page that `most` or the buffer ends before n is as bellrope_next has it; of one that ends at n, all but the last item is settled. P12: the
 * context, too. */
static void settles(void) {
	uint8_t twice[41], page[80], next[80];
	memcpy(twice, p8, 21);
	memcpy(twice + 21, p8 + 1, 20);
	bellrope_capture capture = bellrope_capture_of(twice, sizeof twice, 328, BELLROPE_DOWNLINK);
	for (size_t length = 9; length <= 80; length++)
		for (size_t i = 0; i < sizeof mosts / sizeof *mosts; i++) {
			bellrope_cursor cursor = bellrope_begin(), whole = bellrope_begin();
			int both = length >= 35 && mosts[i] >= 2, all = length >= 61 && mosts[i] >= 3;
			HOLD(is(bellrope_settled(capture, &cursor, mosts[i], page, length), 0, 0, both ? 2 : 1, both ? 35 : 9, both ? 168 : 8, both));
			HOLD(stands(cursor, both ? 168 : 8, both ? BELLROPE_AFTER_HR : BELLROPE_SEARCHING));
			HOLD(bellrope_next(capture, &whole, mosts[i], next, length).items == (all ? 3 : both ? 2 : 1));
			HOLD(memcmp(page, next, both ? 35 : 9) == 0);
		}
	bellrope_cursor cursor = bellrope_begin();
	capture = bellrope_capture_of(p12, sizeof p12, 320, BELLROPE_UPLINK);
	HOLD(is(bellrope_settled(capture, &cursor, 9, page, 80), 0, 0, 1, 30, 160, 2) && stands(cursor, 160, BELLROPE_AFTER_AMR));
	HOLD(is(bellrope_settled(capture, &cursor, 9, page, 80), 0, 0, 0, 0, 160, 2) && stands(cursor, 160, BELLROPE_AFTER_AMR));
}

/* Refusals leave the cursor, also one that stands at n, and the buffer. At n, where no item is, none is settled. */
static void unsettled(void) {
	uint8_t page[40], still[40];
	bellrope_cursor cursor = bellrope_begin(), beyond = {169, 0}, odd = {168, 6}, end = {168, BELLROPE_AFTER_HR};
	bellrope_capture capture = bellrope_capture_of(p8, sizeof p8, 168, BELLROPE_DOWNLINK);
	memset(page, 0x55, sizeof page);
	memset(still, 0x55, sizeof still);
	HOLD(is(bellrope_settled(bellrope_capture_of(p8, 21, 168, 2), &cursor, 9, page, 40), BELLROPE_BAD_REQUEST, 0, 0, 0, 0, 0) && stands(cursor, 0, 0));
	HOLD(is(bellrope_settled(capture, &cursor, 0, page, 40), BELLROPE_BAD_REQUEST, 0, 0, 0, 0, 0) && stands(cursor, 0, 0));
	HOLD(is(bellrope_settled(bellrope_capture_of(p8, 21, 169, 1), &cursor, 9, page, 40), BELLROPE_TOO_LONG, 0, 0, 0, 0, 0) && stands(cursor, 0, 0));
	HOLD(is(bellrope_settled(capture, &beyond, 9, page, 40), BELLROPE_BAD_CURSOR, 0, 0, 0, 169, 0) && stands(beyond, 169, 0));
	HOLD(is(bellrope_settled(capture, &odd, 9, page, 40), BELLROPE_BAD_CURSOR, 0, 0, 0, 168, 6) && stands(odd, 168, 6));
	HOLD(is(bellrope_settled(capture, &end, 0, page, 40), BELLROPE_BAD_REQUEST, 0, 0, 0, 168, 1) && stands(end, 168, 1));
	HOLD(is(bellrope_settled(capture, &cursor, 9, page, 8), BELLROPE_NO_ROOM, 0, 0, 0, 0, 0) && stands(cursor, 0, 0));
	HOLD(is(bellrope_settled(capture, &cursor, 9, NULL, 0), BELLROPE_NO_ROOM, 0, 0, 0, 0, 0) && stands(cursor, 0, 0));
	HOLD(is(bellrope_settled(capture, &end, 9, NULL, 0), BELLROPE_TAKEN, 0, 0, 0, 168, 1) && stands(end, 168, 1));
	end.position = 0;
	HOLD(is(bellrope_settled(bellrope_capture_of(NULL, 0, 0, 1), &end, 1, NULL, 0), BELLROPE_TAKEN, 0, 0, 0, 0, 1) && stands(end, 0, 1));
	HOLD(is(bellrope_settled(bellrope_capture_of(p8, 21, 0, 1), &end, 1, page, 40), BELLROPE_TAKEN, 0, 0, 0, 0, 1) && stands(end, 0, 1));
	HOLD(memcmp(page, still, sizeof still) == 0);
}

/* A session with this cursor, between two of other keys, asked for what is settled of a capture: answer, cursor and buffer are those of bellrope_settled,
 * and nothing else of the list changes. */
static int settles_alike(bellrope_capture capture, bellrope_cursor cursor, uint64_t most, size_t length) {
	const uint64_t key = 7;
	bellrope_session list[3] = {{1, 6, 1, 2, 3, 1}, {1, key, 0, 0, 4, 0}, {1, 8, 5, 6, 7, 0}}, due[3];
	uint8_t ours[41], theirs[41];
	list[1].position = cursor.position;
	list[1].context = cursor.context;
	list[1].direction = capture.direction;
	memcpy(due, list, sizeof due);
	memset(ours, 0x55, sizeof ours);
	memset(theirs, 0x55, sizeof theirs);
	bellrope_answer a = bellrope_settled(capture, &cursor, most, theirs, length);
	bellrope_answer b = bellrope_session_settled(list, 3, 1, key, capture.bytes, capture.length, capture.n, capture.profile, most, ours, length);
	due[1].position = cursor.position;
	due[1].context = cursor.context;
	return is(b, a.number, a.index, a.items, a.bytes, a.position, a.context) && memcmp(list, due, sizeof due) == 0 && memcmp(ours, theirs, sizeof ours) == 0;
}

/* P8 as it grows, up to a bit too many, by each cursor and direction. Refusals are among these: 1, 2, 3 and 4. */
static void sessions_settle(void) {
	static const bellrope_cursor cursors[] = {{0, 0}, {8, 0}, {168, 1}, {169, 0}, {168, 6}};
	static const size_t lengths[] = {0, 8, 9, 25, 26, 34, 35, 40};
	for (uint64_t n = 0; n <= 169; n += n < 8 || n >= 164 ? 1 : 12)
		for (size_t c = 0; c < sizeof cursors / sizeof *cursors; c++)
			for (uint64_t direction = 0; direction <= 2; direction++)
				for (size_t l = 0; l < sizeof lengths / sizeof *lengths; l++) {
					bellrope_capture capture = bellrope_capture_of(p8, sizeof p8, n, direction);
					unsigned wrong = !settles_alike(capture, cursors[c], 0, lengths[l]);
					for (size_t i = 0; i < sizeof mosts / sizeof *mosts; i++) wrong += !settles_alike(capture, cursors[c], mosts[i], lengths[l]);
					HOLD(wrong == 0);
				}
	/* By the profile, class 4 is checked, and this one is no frame. */
	const uint8_t silence[20] = {0x00, 0x80, 0xc2, 0x40, 0x80, 0x80, 0x80, 0x80, 0x80, 0xa0, 0x80, 0x80, 0x80, 0x80, 0x80, 0x80, 0x80, 0x80, 0x80, 0x83};
	uint8_t twice[40];
	memcpy(twice, silence, 20);
	memcpy(twice + 20, silence, 20);
	bellrope_capture capture = bellrope_capture_of(twice, sizeof twice, 320, BELLROPE_DOWNLINK);
	HOLD(settles_alike(capture, bellrope_begin(), 9, 40));
	capture.profile = 16;
	HOLD(settles_alike(capture, bellrope_begin(), 9, 40));
}

/* A session of P8 as it grows, from opening to closing: what is settled, then the rest, are the reading. */
static void session_kept(void) {
	static const uint64_t key = UINT64_MAX;
	bellrope_session list[2] = {{0, 0, 0, 0, 0, 0}, {0, 0, 0, 0, 0, 0}};
	uint8_t page[40], whole[40];
	bellrope_cursor cursor = bellrope_begin();
	HOLD(bellrope_open(list, 2, 5, 1, BELLROPE_UPLINK).place == 0 && bellrope_open(list, 2, key, 2, BELLROPE_DOWNLINK).place == 1);
	for (uint64_t n = 0; n <= 165; n++) {
		HOLD(is(bellrope_session_settled(list, 2, 1, key, p8, sizeof p8, n, 0, 9, page, 40), 0, 0, 0, 0, 0, 0));
		HOLD(list[1].position == 0 && list[1].context == 0);
	}
	HOLD(is(bellrope_session_settled(list, 2, 1, key, p8, sizeof p8, 166, 0, 9, page, 40), 0, 0, 1, 9, 8, 0) && list[1].position == 8);
	for (uint64_t n = 166; n <= 168; n++) {
		HOLD(is(bellrope_session_settled(list, 2, 1, key, p8, sizeof p8, n, 0, 9, page + 9, 31), 0, 0, 0, 0, 8, 0));
		HOLD(list[1].position == 8 && list[1].context == 0);
	}
	HOLD(is(bellrope_session_page(list, 2, 1, key, p8, sizeof p8, 168, 0, 9, page + 9, 31), 0, 0, 1, 26, 168, 1));
	HOLD(list[1].position == 168 && list[1].context == BELLROPE_AFTER_HR);
	HOLD(bellrope_next(bellrope_capture_of(p8, sizeof p8, 168, 1), &cursor, 9, whole, 40).bytes == 35 && memcmp(page, whole, 35) == 0);
	HOLD(bellrope_close(list, 2, 1, key) == BELLROPE_TAKEN && list[1].used == 0 && list[0].used != 0);
}

/* Refusals for the list and the place, whatever else is asked, leave the list and the buffer. NULL where a length is 0. */
static void sessions_unsettled(void) {
	static bellrope_session list[33], still[33];
	uint8_t page[40], as_was[40];
	memset(list, 0, sizeof list);
	memset(page, 0x55, sizeof page);
	memset(as_was, 0x55, sizeof as_was);
	HOLD(bellrope_open(list, 32, 7, 0, BELLROPE_DOWNLINK).place == 0 && bellrope_open(list, 32, 8, 0, BELLROPE_DOWNLINK).place == 1);
	memcpy(still, list, sizeof list);
	for (uint64_t most = 0; most <= 9; most += 9) {
		HOLD(is(bellrope_session_settled(list, 33, 0, 7, p8, 21, 168, 0, most, page, 40), BELLROPE_TOO_LONG, 0, 0, 0, 0, 0));
		HOLD(is(bellrope_session_settled(list, 33, 40, 7, p8, 21, 169, 0, most, page, 40), BELLROPE_TOO_LONG, 0, 0, 0, 0, 0));
		HOLD(is(bellrope_session_settled(list, 32, 32, 7, p8, 21, 168, 0, most, page, 40), BELLROPE_NO_SESSION, 0, 0, 0, 0, 0));
		HOLD(is(bellrope_session_settled(list, 32, UINT64_MAX, 7, p8, 21, 168, 0, most, page, 40), BELLROPE_NO_SESSION, 0, 0, 0, 0, 0));
		HOLD(is(bellrope_session_settled(list, 32, 1, 7, p8, 21, 169, 0, most, page, 40), BELLROPE_NO_SESSION, 0, 0, 0, 0, 0));
		HOLD(is(bellrope_session_settled(list, 32, 2, 0, p8, 21, 168, 0, most, page, 0), BELLROPE_NO_SESSION, 0, 0, 0, 0, 0));
		HOLD(is(bellrope_session_settled(NULL, 0, 0, 7, p8, 21, 168, 0, most, page, 40), BELLROPE_NO_SESSION, 0, 0, 0, 0, 0));
	}
	HOLD(is(bellrope_session_settled(list, 32, 0, 7, p8, 21, 168, 0, 9, NULL, 0), BELLROPE_NO_ROOM, 0, 0, 0, 0, 0));
	HOLD(is(bellrope_session_settled(list, 32, 0, 7, NULL, 0, 0, 0, 9, NULL, 0), BELLROPE_TAKEN, 0, 0, 0, 0, 0));
	HOLD(memcmp(list, still, sizeof list) == 0 && memcmp(page, as_was, sizeof page) == 0);
}

/* The records of P8 and P12, field by field. */
static void fields(void) {
	uint8_t page[70];
	bellrope_record r;
	bellrope_cursor cursor = bellrope_begin();
	size_t at = 0;
	memset(&r, 0, sizeof r);
	HOLD(bellrope_next(bellrope_capture_of(p8, sizeof p8, 168, BELLROPE_DOWNLINK), &cursor, UINT64_MAX, page, sizeof page).bytes == 35);
	HOLD(bellrope_walk(page, 35, &at, &r) && at == 9 && r.bytes == page);
	HOLD(r.kind == BELLROPE_GAP && r.start == 0 && r.length == 8 && r.tail == 0 && r.control == 0 && r.extended == 0 && r.verdict == 0);
	HOLD(bellrope_d(&r, 1) == -1);
	HOLD(bellrope_walk(page, 35, &at, &r) && at == 35 && r.bytes == page + 9);
	HOLD(r.kind == BELLROPE_SPEECH && r.start == 8 && r.length == 160 && r.tail == 2);
	HOLD(r.control == 0x1f && r.extended == 0x07 && r.verdict == 0);
	HOLD(!bellrope_walk(page, 35, &at, &r) && at == 35 && r.start == 8);
	cursor = bellrope_begin();
	at = 0;
	HOLD(bellrope_next(bellrope_capture_of(p12, sizeof p12, 320, BELLROPE_UPLINK), &cursor, UINT64_MAX, page, sizeof page).bytes == 61);
	HOLD(bellrope_walk(page, 61, &at, &r) && r.kind == BELLROPE_AMR_670 && r.start == 0 && r.tail == 0 && r.length == 160 && r.verdict == 0);
	/* C1..C3 are 001; of octet 10, 60, D55..D62 are 01100000. */
	HOLD(r.control == 0x20 && bellrope_d(&r, 55) == 0 && bellrope_d(&r, 56) == 1 && bellrope_d(&r, 57) == 1 && bellrope_d(&r, 58) == 0);
	HOLD(bellrope_walk(page, 61, &at, &r) && r.kind == BELLROPE_AMR_740 && r.start == 160 && r.tail == 0 && r.verdict == 1 && at == 61);
	HOLD(!bellrope_walk(page, 61, &at, &r) && !bellrope_walk(NULL, 0, &at, &r));
}

/* D bits stand from the top bit down, the first behind the verdict; a record of each kind with one of them set. */
static void d_bits(void) {
	for (unsigned kind = 0; kind <= 8; kind++)
		for (unsigned set = 1; set <= due[kind].d_bits; set++) {
			uint8_t bytes[31] = {0};
			bellrope_record r;
			size_t at = 0;
			unsigned wrong = 0;
			memset(&r, 0, sizeof r);
			bytes[0] = (uint8_t)kind;
			bytes[12 + (set - 1) / 8] = (uint8_t)(128 >> (set - 1) % 8);
			HOLD(bellrope_walk(bytes, due[kind].bytes, &at, &r));
			for (unsigned i = 1; i <= due[kind].d_bits; i++) wrong += bellrope_d(&r, i) != (i == set);
			HOLD(wrong == 0);
			HOLD(bellrope_d(&r, 0) == -1 && bellrope_d(&r, due[kind].d_bits + 1) == -1 && bellrope_d(&r, UINT64_MAX) == -1);
		}
}

/* A walk takes whole records of known kinds only, and numbers of four bytes whole. */
static void walks(void) {
	uint8_t bytes[62];
	bellrope_record r;
	for (unsigned kind = 0; kind <= 10; kind++) {
		unsigned whole = kind <= 8 ? due[kind].bytes : 0;
		for (size_t length = 0; length <= 31; length++) {
			size_t at = 31;
			memset(bytes, 0xff, sizeof bytes);
			bytes[31] = (uint8_t)kind;
			int taken = bellrope_walk(bytes, 31 + length, &at, &r);
			HOLD(taken == (whole != 0 && length >= whole) && at == 31 + (taken ? whole : 0));
		}
	}
	size_t at = 0;
	memset(bytes, 0xff, sizeof bytes);
	bytes[0] = BELLROPE_LOWER;
	HOLD(bellrope_walk(bytes, 28, &at, &r) && r.start == 0xffffffff && r.tail == 0xffffffff && r.length == 0xffffffff + (uint64_t)159);
	at = SIZE_MAX;
	HOLD(!bellrope_walk(bytes, 28, &at, &r) && at == SIZE_MAX);
}

/* The frame of P8 written back, and refusals, where neither bits nor cursor change. */
static void writing(void) {
	uint8_t page[40], bits[21], still[21];
	bellrope_cursor cursor = bellrope_begin();
	bellrope_buffer buffer = bellrope_buffer_of(bits, sizeof bits, BELLROPE_DOWNLINK);
	memset(bits, 0x55, sizeof bits);
	memset(still, 0x55, sizeof still);
	HOLD(bellrope_next(bellrope_capture_of(p8, sizeof p8, 168, BELLROPE_DOWNLINK), &cursor, UINT64_MAX, page, sizeof page).items == 2);
	cursor = bellrope_begin();
	HOLD(is(bellrope_put(buffer, &cursor, page, 9), BELLROPE_UNSOUND, 0, 0, 0, 0, 0) && stands(cursor, 0, 0));
	HOLD(is(bellrope_put(buffer, &cursor, page + 9, 26), BELLROPE_NOT_DUE, 0, 0, 0, 0, 0) && stands(cursor, 0, 0));
	cursor.position = 8;
	HOLD(is(bellrope_put(bellrope_buffer_of(bits, 21, 2), &cursor, page + 9, 26), BELLROPE_BAD_REQUEST, 0, 0, 0, 8, 0) && stands(cursor, 8, 0));
	HOLD(is(bellrope_put(bellrope_buffer_of(bits, 20, 1), &cursor, page + 9, 26), BELLROPE_NO_ROOM, 0, 0, 0, 8, 0) && stands(cursor, 8, 0));
	HOLD(memcmp(bits, still, 21) == 0);
	HOLD(is(bellrope_put(buffer, &cursor, page + 9, 26), BELLROPE_TAKEN, 0, 1, 0, 168, 1) && stands(cursor, 168, BELLROPE_AFTER_HR));
	HOLD(bits[0] == 0x55 && memcmp(bits + 1, p8 + 1, 20) == 0);
	/* NULL where the length is 0. */
	HOLD(is(bellrope_put(buffer, &cursor, NULL, 0), BELLROPE_TAKEN, 0, 0, 0, 168, 1) && stands(cursor, 168, 1));
	HOLD(is(bellrope_put(bellrope_buffer_of(NULL, 0, 1), &cursor, NULL, 0), BELLROPE_BAD_CURSOR, 0, 0, 0, 168, 1) && stands(cursor, 168, 1));
	cursor = bellrope_begin();
	page[9 + BELLROPE_AT_START + 3] = 0;
	HOLD(is(bellrope_put(bellrope_buffer_of(NULL, 0, 1), &cursor, page + 9, 26), BELLROPE_NO_ROOM, 0, 0, 0, 0, 0) && stands(cursor, 0, 0));
}

/* A silence frame of class 4 whose CRC is wrong: unchecked by profile 0, and by any that leaves class 4 out; else in context 0 no frame at all. What was
 * paged by a profile is written by that profile alone. */
static void profiles(void) {
	uint8_t wrong[20] = {0x00, 0x80, 0xc2, 0x40, 0x80, 0x80, 0x80, 0x80, 0x80, 0xa0, 0x80, 0x80, 0x80, 0x80, 0x80, 0x80, 0x80, 0x80, 0x80, 0x83};
	uint8_t page[40], bits[20];
	for (unsigned profile = 0; profile < 256; profile++) {
		bellrope_capture capture = bellrope_capture_of(wrong, sizeof wrong, 160, BELLROPE_DOWNLINK);
		bellrope_buffer buffer = bellrope_buffer_of(bits, sizeof bits, BELLROPE_DOWNLINK);
		bellrope_cursor cursor = bellrope_begin(), run = {0, BELLROPE_AFTER_AMR};
		int checked = profile >> 4 & 1;
		HOLD(capture.profile == 0 && buffer.profile == 0);
		capture.profile = (uint8_t)profile;
		HOLD(is(bellrope_next(capture, &cursor, 1, page, 40), BELLROPE_TAKEN, 0, 1, checked ? 9 : 28, 160, checked ? 0 : 2));
		HOLD(page[0] == (checked ? BELLROPE_GAP : BELLROPE_NO_SPEECH));
		HOLD(bellrope_next(capture, &run, 1, page, 40).bytes == 28 && page[BELLROPE_AT_VERDICT] == (checked ? 1 : BELLROPE_UNCHECKED));
		for (unsigned other = 0; other < 256; other++) {
			bellrope_cursor back = {0, BELLROPE_AFTER_AMR};
			buffer.profile = (uint8_t)other;
			HOLD(bellrope_put(buffer, &back, page, 28).number == ((other >> 4 & 1) == (unsigned)checked ? BELLROPE_TAKEN : BELLROPE_NOT_DUE));
		}
	}
}

/* P8 put into each channel of a timeslot whose other bits are ones, and P9, which is two octets less, taken out and harvested as the header says. */
static void channels(void) {
	for (uint64_t k = 1; k <= 8; k++) {
		uint8_t octets[168], bytes[BELLROPE_CHANNEL_MOST], page[40];
		bellrope_cursor cursor = bellrope_begin();
		memset(octets, 0xff, sizeof octets);
		memset(bytes, 0xff, sizeof bytes);
		HOLD(bellrope_put_channel(octets, sizeof octets, k, p8, sizeof p8) == BELLROPE_TAKEN);
		HOLD(bellrope_take_channel(octets, 166, k, bytes, sizeof bytes) == BELLROPE_TAKEN);
		HOLD(is(bellrope_next(bellrope_capture_of(bytes, sizeof bytes, 166, BELLROPE_DOWNLINK), &cursor, 9, page, 40), BELLROPE_TAKEN, 0, 2, 35, 166, 1));
		HOLD(page[0] == BELLROPE_GAP && page[9] == BELLROPE_SPEECH && page[9 + BELLROPE_AT_VERDICT] == 0);
		HOLD(memcmp(bytes, p8, 20) == 0 && bytes[20] == (p8[20] & 0xfc) && bytes[21] == 0xff);
	}
}

int main(void) {
	kinds();
	numbers();
	pages();
	grows();
	kept();
	settles();
	unsettled();
	sessions_settle();
	session_kept();
	sessions_unsettled();
	fields();
	d_bits();
	walks();
	writing();
	profiles();
	channels();
	return failures != 0;
}
