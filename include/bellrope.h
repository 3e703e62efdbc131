/* bellrope.h: the frames of one 8 kbit/s channel (3GPP TS 48.061), from bits to records and back.
 * For C99 and later, and C++; x86-64, -lbellrope, or -lbellrope-handheld where flash is short: the
 * same calls with the same promises, smaller, and slower at small pages.
 *
 * A capture is bytes and a bit count n. Position 0 is the first bit sent, the top bit of the first
 * byte; bits from n on are never looked at. A capture has, with its direction and its profile, one
 * reading: a list of items, frames and gaps, that lie end to end. Paging hands it out as records,
 * writing puts records back as bits. A cursor is a position and a context. It goes in and comes
 * back; nothing is kept between calls but what the caller lends, so any number of threads may call
 * at once.
 *
 * To harvest a capture completely, go on from page to page until the position is n. The pages
 * joined are the reading, none of it lost or repeated, whatever the counts and the buffers:
 *
 *   bellrope_capture capture = bellrope_capture_of(bytes, length, 8 * length, BELLROPE_UPLINK);
 *   bellrope_cursor cursor = bellrope_begin();
 *   do {
 *       uint8_t page[4096];
 *       bellrope_record record;
 *       bellrope_answer answer = bellrope_next(capture, &cursor, UINT64_MAX, page, sizeof page);
 *       if (answer.number != BELLROPE_TAKEN) return answer.number;
 *       for (size_t at = 0; bellrope_walk(page, answer.bytes, &at, &record);) use(&record);
 *   } while (cursor.position != capture.n);
 *
 * A capture may be harvested while it is recorded: bellrope_settled pages what more bits can no
 * longer change, and leaves a cursor that stays good as the capture grows.
 *
 * Where a whole timeslot of 64 kbit/s was recorded, bellrope_take_channel takes one of its eight
 * channels out as such a capture, and bellrope_put_channel puts it back among the other seven.
 *
 * Where harvesters lose their cursors, a server keeps them: bellrope_open, bellrope_session_page
 * and bellrope_close work on a list of sessions that it lends.
 *
 * This header has the names first, then the seven calls of the library, and at the end the forms of
 * paging and writing used here. Those stay as they are when a field is added to what is read, to a
 * cursor or to a record; paging and writing then take one number more.
 *
 * What is lent: what is const is only read, a buffer, timeslot or list of sessions changes only as
 * said at its call, and a refused call changes no lent byte. The slices of a call must not overlap,
 * and no other thread may use those that it changes. */
#ifndef BELLROPE_H
#define BELLROPE_H

#include <stddef.h>
#include <stdint.h>

#define BELLROPE_VERSION "0.7"

#ifdef __cplusplus
extern "C" {
#endif

enum {
	BELLROPE_BYTES_MOST = 65536,  /* of a capture, of records to be written and of a buffer to
	                                 write to; a page buffer may have any length */
	BELLROPE_RECORD_MOST = 31,    /* bytes of the longest record */
	BELLROPE_OCTETS_MOST = 65536, /* of a timeslot */
	BELLROPE_CHANNEL_MOST = 8192, /* bytes of a channel taken out of one */
	BELLROPE_SESSIONS_MOST = 32   /* of a list */
};

enum bellrope_direction { BELLROPE_UPLINK = 0, BELLROPE_DOWNLINK = 1 };

/* The number of an answer. One above 0 is given exactly when what it says holds; if several hold,
 * the lowest, but for 4 to 6 see writing, 2 for a list of sessions comes before all others, then 7
 * and 10 do, and 9 comes before 8. */
enum bellrope_number {
	BELLROPE_TAKEN = 0,       /* not refused */
	BELLROPE_BAD_REQUEST = 1, /* direction above 1, most 0, or too many bytes of records */
	BELLROPE_TOO_LONG = 2,    /* too many bytes of capture or of buffer to write to, n above 8
	                             times the capture's bytes, too many octets of timeslot, or too
	                             many sessions */
	BELLROPE_BAD_CURSOR = 3,  /* position beyond n (writing: beyond 8 times the buffer's bytes),
	                             or context above 5 */
	BELLROPE_NO_ROOM = 4,     /* paging: an item is left and the first does not fit the buffer,
	                             so ask again with a bigger one; writing: a frame would end past
	                             the buffer; a channel: fewer bytes than its bits need */
	BELLROPE_UNSOUND = 5,     /* writing: unknown kind, gap, cut short, a bit set that must be
	                             zero, tail below the least, or control or extended no coding of
	                             that kind in that direction */
	BELLROPE_NOT_DUE = 6,     /* writing: sound, but its start is not the position then, or its
	                             verdict or its kind is not due in that context */
	BELLROPE_NO_CHANNEL = 7,  /* channel outside 1 to 8 */
	BELLROPE_FULL = 8,        /* opening: no place of the list is free */
	BELLROPE_KEY_PRESENT = 9, /* opening: the key already holds a place */
	BELLROPE_NO_SESSION = 10  /* the place is outside the list, free, or another key's */
};

/* The context of a cursor is what was read last. It decides which frames may come next, and how
 * lower speech that names no mode is checked. */
enum bellrope_context {
	BELLROPE_SEARCHING = 0, /* nothing yet, or a gap; only a run may start now: no 7,40, no
	                           wrong CRC, no unchecked kind 6 */
	BELLROPE_AFTER_HR = 1,  /* kinds 1 to 4; no 7,40 may follow */
	BELLROPE_AFTER_AMR = 2, /* kinds 5 to 8 otherwise */
	BELLROPE_AFTER_475 = 3, /* lower speech that itself named 4,75 */
	BELLROPE_AFTER_515 = 4, /* the same, 5,15 */
	BELLROPE_AFTER_590 = 5  /* the same, 5,90 */
};

enum bellrope_kind {
	BELLROPE_GAP, BELLROPE_SPEECH, BELLROPE_DATA, BELLROPE_OM, BELLROPE_CONFIGURATION,
	BELLROPE_NO_SPEECH, BELLROPE_LOWER, BELLROPE_AMR_670, BELLROPE_AMR_740
};

/* Where the parts of a record begin: a byte of kind, start and length of a gap or start and tail of
 * a frame (4 bytes each, the high byte first, counting bits); a frame has the rest too. Control,
 * extended and the D bits are filled from the top bit down, the rest is zero.
 *   control    C1..C4 and C6..C9 (kind 1), C1..C4 (2 to 4), C1..C5 (5, 6), C1..C3 (7, 8)
 *   extended   XC1..XC5 and CRC2..CRC0 (kind 1), XC1..XC5, always 248 (kind 3), else 0
 * C5 (kinds 1 to 4) and XC6 are not recorded: they make a number of ones odd. CRC bits of kinds 5
 * to 8 are D bits. */
enum bellrope_offset {
	BELLROPE_AT_KIND = 0, BELLROPE_AT_START = 1, BELLROPE_AT_LENGTH = 5, BELLROPE_AT_TAIL = 5,
	BELLROPE_AT_CONTROL = 9, BELLROPE_AT_EXTENDED = 10, BELLROPE_AT_VERDICT = 11,
	BELLROPE_AT_D = 12
};

/* The bits of a verdict. 0: each CRC is right, or the kind has none (2 to 4). Kinds 1, 5, 7, 8 and
 * mode 5,90 have CRC1 alone, kind 5 where its class carries it by the profile. Unchecked is not
 * right: a flipped class bit can turn a checked frame into an unchecked one. */
enum bellrope_verdict {
	BELLROPE_WRONG = 0x0f, /* bits 3..0 are set where CRC4..CRC1 is wrong */
	BELLROPE_MODE = 0x30,  /* the mode that a kind 6 was checked by, its own or the context's;
	                          other kinds have none of these */
	BELLROPE_MODE_475 = 0x10, BELLROPE_MODE_515 = 0x20, BELLROPE_MODE_590 = 0x30,
	BELLROPE_UNCHECKED = 0x80 /* kind 5 of a class that carries no CRC, and kind 6 without a
	                             mode; then no other bit is set */
};

typedef struct {
	uint64_t number;   /* 0, or why the call is refused (enum bellrope_number) */
	uint64_t index;    /* which record is refused, from 0, for 4 to 6 in writing; else 0 */
	uint64_t items;    /* paged or written; 0 on a refusal */
	uint64_t bytes;    /* of records in the page; 0 on a refusal, and always in writing */
	uint64_t position; /* the cursor behind the last item, or as given on a refusal */
	uint64_t context;  /* of that cursor (enum bellrope_context) */
} bellrope_answer;

/* Paging: puts the records of the next items at the front of the buffer, as many as `most` allows
 * and the buffer holds; the rest of it stands.
 *   capture, n, direction   what is read: bytes, how many bits of them (at most 8 * capture_len),
 *                           and which way they were sent
 *   profile                 which classes of No_Speech carry CRC1 in D52..D54: bit k (0 is the
 *                           lowest) for class k, which is D8..D10 as a number, D8 on top (TS 48.060
 *                           says which do); 0: none. Keep it the same throughout a harvest
 *   position, context       the cursor to go on from
 *   most                    how many items at most, at least 1; UINT64_MAX for all that fit
 *   buffer                  where the records go
 * Before n a page that is not refused has at least one item; at n it has none. Should the capture
 * grow, a page that ends before n would be the same again; for one that ends at n see
 * bellrope_settled. In all seven calls pointers must be valid even where the length is 0. */
bellrope_answer bellrope_page(const uint8_t *capture, size_t capture_len, uint64_t n,
                              uint64_t direction, uint8_t profile, uint64_t position,
                              uint64_t context, uint64_t most, uint8_t *buffer,
                              size_t buffer_len);

/* Writing: puts body and tail of each frame into the buffer, the first from the cursor's position
 * on, each next behind the last; other bits stand.
 *   records                 records of frames as paging gives them, end to end. A gap is refused:
 *                           write what stands between gaps, call by call
 *   direction, profile      which way the frames are sent, and by which profile their verdicts are
 *   position, context       the cursor that the first record was paged from; behind a gap that is
 *                           its start, and context 0
 *   buffer                  where the bits go
 * After 1, 2 and 3 each record in turn is judged by 5, 6 and 4, all before the first bit is put;
 * the first that fails decides. */
bellrope_answer bellrope_write(const uint8_t *records, size_t records_len, uint64_t direction,
                               uint8_t profile, uint64_t position, uint64_t context,
                               uint8_t *buffer, size_t buffer_len);

/* One channel of a timeslot, taken out and put back. Bit k of each octet belongs to channel k, k
 * from 1 to 8, top bit first: channel 1 has the top bits. A channel has a bit for each octet of the
 * timeslot, from the top bit of its first byte down, in (timeslot_len + 7) / 8 bytes. Both calls
 * answer a number alone: 0, or 7, 2 or 4.
 *
 * Taking out puts them at the front of the buffer; a last byte partly filled has zeros below, and
 * the rest of the buffer stands. What was taken out is a capture with n = timeslot_len:
 *
 *   uint8_t bytes[BELLROPE_CHANNEL_MOST];
 *   uint64_t number = bellrope_take_channel(octets, length, 1, bytes, sizeof bytes);
 *   if (number != BELLROPE_TAKEN) return number;
 *   bellrope_capture capture = bellrope_capture_of(bytes, sizeof bytes, length, BELLROPE_UPLINK);
 *
 * A longer recording goes by timeslots of a multiple of eight octets each, but the last: the bytes
 * taken out of them, joined, are the channel's. Putting back changes the channel's bits and no
 * others; what bytes have behind them is not looked at. */
uint64_t bellrope_take_channel(const uint8_t *timeslot, size_t timeslot_len, uint64_t channel,
                               uint8_t *buffer, size_t buffer_len);
uint64_t bellrope_put_channel(uint8_t *timeslot, size_t timeslot_len, uint64_t channel,
                              const uint8_t *bytes, size_t bytes_len);

/* Sessions: a list of at most 32 places that the server keeps and lends to each of these calls. A
 * place is free, or holds a key with its cursor, capture and direction; zeros are a list of free
 * ones. Whatever other keys do in between, the pages of a session are those of a harvest alone. */
typedef struct {
	uint64_t used;      /* 0: free, and then the rest means nothing; any other: taken */
	uint64_t key;       /* whose it is: any number, 0 too */
	uint64_t position;  /* its cursor */
	uint64_t context;
	uint64_t capture;   /* the number of its capture: the server's own, only kept here */
	uint64_t direction; /* of that capture */
} bellrope_session;

typedef struct {
	uint64_t number; /* 0, or why it is refused: 2, 1, 9 or 8 */
	uint64_t place;  /* the place taken, from 0; 0 on a refusal */
} bellrope_opened;

/* Opening takes the lowest free place, also one that was closed before, with the cursor at bit 0,
 * context 0. */
bellrope_opened bellrope_open(bellrope_session *sessions, size_t sessions_len, uint64_t key,
                              uint64_t capture, uint64_t direction);

/* A page of the session that the key holds at the place: as bellrope_page, with its direction and
 * its cursor, and the session keeps the cursor that is answered. Bring the bytes and n of its
 * capture, whose number stands at the place, if that is below sessions_len and taken; else the call
 * is refused whatever is brought. Number 2 for the list and 10 come first, and answer a cursor of
 * zeros; then those of paging. If the capture may still grow, use bellrope_session_settled: a
 * cursor at n would not stay good. */
bellrope_answer bellrope_session_page(bellrope_session *sessions, size_t sessions_len,
                                      uint64_t place, uint64_t key, const uint8_t *capture,
                                      size_t capture_len, uint64_t n, uint8_t profile,
                                      uint64_t most, uint8_t *buffer, size_t buffer_len);

/* Closing frees the place of the key, all of it 0. It answers a number: 0, or 2 or 10. */
uint64_t bellrope_close(bellrope_session *sessions, size_t sessions_len, uint64_t place,
                        uint64_t key);

/* From here on: paging and writing over structs, and readers of what they answer. All is inline.
 * Where a length is 0, the pointer may be NULL. */

/* What is read. Make it by bellrope_capture_of: fields added later then are 0. */
typedef struct {
	const uint8_t *bytes; /* what was recorded */
	size_t length;        /* of them */
	uint64_t n;           /* how many bits of them are read, at most 8 * length */
	uint64_t direction;   /* which way they were sent (enum bellrope_direction) */
	uint8_t profile;      /* which classes of No_Speech carry a CRC, see paging; 0: none */
} bellrope_capture;

/* What is written to. Make it by bellrope_buffer_of. */
typedef struct {
	uint8_t *bytes;     /* where the bits go */
	size_t length;      /* of them */
	uint64_t direction; /* which way the frames are sent */
	uint8_t profile;    /* by which their verdicts are */
} bellrope_buffer;

/* Where to go on. bellrope_begin is the first of a capture; each later one is what a call left. */
typedef struct {
	uint64_t position; /* of the next bit */
	uint64_t context;  /* what was read last (enum bellrope_context) */
} bellrope_cursor;

static inline bellrope_capture bellrope_capture_of(const uint8_t *bytes, size_t length, uint64_t n,
                                                   uint64_t direction) {
	bellrope_capture capture;
	capture.bytes = bytes;
	capture.length = length;
	capture.n = n;
	capture.direction = direction;
	capture.profile = 0;
	return capture;
}

static inline bellrope_buffer bellrope_buffer_of(uint8_t *bytes, size_t length,
                                                 uint64_t direction) {
	bellrope_buffer buffer;
	buffer.bytes = bytes;
	buffer.length = length;
	buffer.direction = direction;
	buffer.profile = 0;
	return buffer;
}

static inline bellrope_cursor bellrope_begin(void) {
	bellrope_cursor cursor;
	cursor.position = 0;
	cursor.context = BELLROPE_SEARCHING;
	return cursor;
}

/* The answer; the cursor follows it unless it is a refusal. */
static inline bellrope_answer bellrope_moved(bellrope_answer answer, bellrope_cursor *cursor) {
	if (answer.number == BELLROPE_TAKEN) {
		cursor->position = answer.position;
		cursor->context = answer.context;
	}
	return answer;
}

/* Paging from the cursor, which moves on to the next page unless the call is refused. */
static inline bellrope_answer bellrope_next(bellrope_capture capture, bellrope_cursor *cursor,
                                            uint64_t most, uint8_t *buffer, size_t length) {
	uint8_t none = 0;
	return bellrope_moved(bellrope_page(capture.length ? capture.bytes : &none, capture.length,
	                                    capture.n, capture.direction, capture.profile,
	                                    cursor->position, cursor->context, most,
	                                    length ? buffer : &none, length),
	                      cursor);
}

/* Paging of a capture that may still grow: as bellrope_next, but without the item that ends at n,
 * since more bits may change it (its tail or the gap goes on, or a frame turns out to stand in the
 * gap). What it answers, and the cursor, hold for each longer capture with the same bits before n,
 * the same direction and the same profile. 0 items and number 0: nothing more is settled yet; ask
 * again when there are more bits. When the recording has ended, bellrope_next gives the rest.
 * Behind the bytes answered the buffer may hold the record left out. By bellrope_page itself: where
 * a page ends at n, ask the same cursor again with `most` one less than the items answered, or with
 * one item keep the cursor as it was. */
static inline bellrope_answer bellrope_settled(bellrope_capture capture, bellrope_cursor *cursor,
                                               uint64_t most, uint8_t *buffer, size_t length) {
	bellrope_cursor ahead = *cursor;
	bellrope_answer answer = bellrope_next(capture, &ahead, most, buffer, length);
	if (answer.number != BELLROPE_TAKEN || answer.position != capture.n)
		return bellrope_moved(answer, cursor);
	if (answer.items > 1)
		return bellrope_next(capture, cursor, answer.items - 1, buffer, length);
	answer.items = answer.bytes = 0;
	answer.position = cursor->position;
	answer.context = cursor->context;
	return answer;
}

/* The same of a session: it keeps a cursor that stays good. */
static inline bellrope_answer bellrope_session_settled(
	bellrope_session *sessions, size_t sessions_len, uint64_t place, uint64_t key,
	const uint8_t *capture, size_t capture_len, uint64_t n, uint8_t profile, uint64_t most,
	uint8_t *buffer, size_t buffer_len) {
	uint8_t none = 0;
	bellrope_session ahead;
	if (sessions_len == 0) sessions = &ahead;
	if (capture_len == 0) capture = &none;
	if (buffer_len == 0) buffer = &none;
	if (sessions_len <= BELLROPE_SESSIONS_MOST && place < sessions_len) {
		bellrope_answer answer;
		ahead = sessions[place];
		answer = bellrope_session_page(&ahead, 1, 0, key, capture, capture_len, n, profile,
		                               most, buffer, buffer_len);
		if (answer.number != BELLROPE_TAKEN) return answer;
		if (answer.position != n) {
			sessions[place] = ahead;
			return answer;
		}
		if (answer.items <= 1) {
			answer.items = answer.bytes = 0;
			answer.position = sessions[place].position;
			answer.context = sessions[place].context;
			return answer;
		}
		most = answer.items - 1;
	}
	return bellrope_session_page(sessions, sessions_len, place, key, capture, capture_len, n,
	                             profile, most, buffer, buffer_len);
}

/* Writing at the cursor, which moves behind the last frame unless the call is refused. */
static inline bellrope_answer bellrope_put(bellrope_buffer buffer, bellrope_cursor *cursor,
                                           const uint8_t *records, size_t length) {
	uint8_t none = 0;
	return bellrope_moved(bellrope_write(length ? records : &none, length, buffer.direction,
	                                     buffer.profile, cursor->position, cursor->context,
	                                     buffer.length ? buffer.bytes : &none, buffer.length),
	                      cursor);
}

/* A kind. The body is a frame's first bits. The tail is every one behind it, up to the next zero
 * or n: T bits and timing fill together, so tail less usual tail is a timing slip. */
typedef struct {
	const char *name;      /* as text */
	uint8_t bytes;         /* of a record; 0 for a kind that there is not */
	uint8_t d_bits;        /* D1, D2, .. of a frame; here and below 0 for a gap */
	uint8_t body;          /* bits */
	uint8_t least_tail[2]; /* bits; uplink, downlink */
	uint8_t usual_tail;    /* bits */
	uint8_t has_check;     /* 1 where a verdict says right, wrong or unchecked, else 0 */
} bellrope_about;

/* What is said of a kind; of one that there is not, "unknown kind" and zeros. */
static inline const bellrope_about *bellrope_about_kind(uint64_t kind) {
	static const bellrope_about about[] = {
		/*               bytes  D bits body least tail usual check */
		{"gap",             9,    0,   0,   {0, 0},    0,    0},
		{"HR speech",      26,  112, 158,   {1, 0},    2,    1},
		{"data",           28,  126, 159,   {1, 1},    1,    0},
		{"O&M",            27,  120, 159,   {1, 1},    1,    0},
		{"configuration",  28,  125, 158,   {2, 2},    2,    0},
		{"No_Speech",      28,  125, 158,   {1, 0},    2,    1},
		{"lower speech",   28,  126, 159,   {0, 0},    1,    1},
		{"6,70",           30,  137, 160,   {0, 0},    0,    1},
		{"7,40",           31,  151, 160,   {0, 0},    0,    1},
		{"unknown kind",    0,    0,   0,   {0, 0},    0,    0},
	};
	return &about[kind <= BELLROPE_AMR_740 ? kind : BELLROPE_AMR_740 + 1];
}

/* A number of an answer as text. */
static inline const char *bellrope_number_name(uint64_t number) {
	static const char *const names[] = {
		"taken", "bad request", "too long", "bad cursor", "no room", "unsound record",
		"record not due", "no such channel", "list of sessions full", "key already present",
		"no such session", "unknown number"
	};
	return names[number <= BELLROPE_NO_SESSION ? number : BELLROPE_NO_SESSION + 1];
}

/* The bytes of a record of this kind; 0 for an unknown kind. */
static inline size_t bellrope_record_bytes(uint64_t kind) {
	return bellrope_about_kind(kind)->bytes;
}

/* The number in four bytes of a record: a start, tail or length. */
static inline uint32_t bellrope_number_at(const uint8_t *bytes) {
	return (uint32_t)bytes[0] << 24 | (uint32_t)bytes[1] << 16 | (uint32_t)bytes[2] << 8 |
	       bytes[3];
}

/* The fields of a record. A gap has only kind, start and length; its others are 0. */
typedef struct {
	const uint8_t *bytes; /* the record itself: bellrope_record_bytes(kind) of them */
	uint64_t kind;        /* enum bellrope_kind */
	uint64_t start;       /* position of its first bit */
	uint64_t length;      /* of a gap, or body and tail: the next item starts so far on */
	uint64_t tail;        /* ones behind the body */
	uint8_t control;      /* C bits, see enum bellrope_offset */
	uint8_t extended;     /* XC bits and CRC, see there */
	uint8_t verdict;      /* enum bellrope_verdict */
} bellrope_record;

/* Walks over records: takes the fields of the one at `*at`, moves `*at` behind it and answers 1. At
 * the end, or where no whole record of a known kind begins, it answers 0 and changes nothing. */
static inline int bellrope_walk(const uint8_t *records, size_t length, size_t *at,
                                bellrope_record *record) {
	const bellrope_about *about;
	const uint8_t *bytes;
	if (*at >= length) return 0;
	bytes = records + *at;
	about = bellrope_about_kind(bytes[BELLROPE_AT_KIND]);
	if (about->bytes == 0 || about->bytes > length - *at) return 0;
	record->bytes = bytes;
	record->kind = bytes[BELLROPE_AT_KIND];
	record->start = bellrope_number_at(bytes + BELLROPE_AT_START);
	record->length = bellrope_number_at(bytes + BELLROPE_AT_LENGTH);
	record->tail = 0;
	record->control = record->extended = record->verdict = 0;
	if (record->kind != BELLROPE_GAP) {
		record->tail = record->length;
		record->length += about->body;
		record->control = bytes[BELLROPE_AT_CONTROL];
		record->extended = bytes[BELLROPE_AT_EXTENDED];
		record->verdict = bytes[BELLROPE_AT_VERDICT];
	}
	*at += about->bytes;
	return 1;
}

/* Bit D`i` of a record, `i` from 1: 0 or 1, or -1 if its kind has none such. */
static inline int bellrope_d(const bellrope_record *record, uint64_t i) {
	if (i < 1 || i > bellrope_about_kind(record->kind)->d_bits) return -1;
	return record->bytes[BELLROPE_AT_D + (i - 1) / 8] >> (7 - (i - 1) % 8) & 1;
}

#ifdef __cplusplus
}
#endif

#endif
