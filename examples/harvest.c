/* harvest [up|down] FILE [PAGE_BYTES] [--timeslot K] [--profile N] [--follow SECONDS] [--csv]: reads a capture to its end, page by page, and prints what
 * is in it.
 *
 * FILE is a capture file: one byte of direction, 0 for uplink or 1 for downlink, and then the channel's bits, the first bit sent being the top bit of the
 * first byte. Behind the word up or down, FILE holds the bits alone. n is eight times their bytes. PAGE_BYTES is the size of a page, 4096 if none is given.
 * It does not change what is printed, but a page must fit its first record: 31 bytes fit any.
 *
 * The summary counts the items and their bits, and for each kind of frame:
 *   frames              all of them
 *   right, wrong        those with every CRC right, and those with one wrong or more; kinds 2 to 4 have no CRC and stand in none of these columns
 *   unchecked           those whose CRCs cannot be checked: No_Speech of a class that carries none, and lower speech of which no mode is known
 *   slipped             those whose tail is not the usual one of the kind
 *   dropped, added      the bits that these tails are short of the usual, and those they have beyond it, each summed over the frames
 * The capture's last tail ends at n, even if more of it was sent.
 *
 * --timeslot K, from 1 to 8, harvests channel K of a 64 kbit/s timeslot: in the place of the channel's bytes FILE holds octets, one for each bit. Bit K of
 * an octet is the channel's, bit 1 being the top one. n is the number of octets, at most 524,288. All else is as with a FILE of that channel alone.
 *
 * --profile N, from 0 to 255, says which classes of No_Speech carry a CRC: bit k of N, 0 the lowest, for class k. Without it none does.
 *
 * With --csv it prints instead a heading and one line for each record, in decimal but for the D bits: those are in hexadecimal, as they stand in the
 * record. A gap is kind 0; it has its length for a tail, and the rest is empty.
 *
 * --follow SECONDS, a whole number, harvests a FILE that still grows, as tail -f reads one. It takes each record once it is settled, when more bits can
 * no longer change it, and prints its line at once. When FILE has not grown for SECONDS, or at SIGINT or SIGTERM, it looks a last time and takes the
 * rest. By then it has printed what a harvest of FILE prints, in whatever steps it grew; the summary comes at the end. 0 seconds are as without --follow.
 *
 * Exit status: 0 the capture was read to its end; 1 a page was refused, and standard error says why (lines of earlier pages stand, also where FILE grows
 * too long while it is followed); 2 bad usage, FILE cannot be read, no memory for a page, or the output cannot be written. */
#define _POSIX_C_SOURCE 200809L /* for sigaction and nanosleep */

#include "bellrope.h"

#include <errno.h>
#include <inttypes.h>
#include <signal.h>
#include <stdio.h>
#include <stdlib.h>
#include <string.h>
#include <time.h>

enum {
	KINDS = BELLROPE_AMR_740 + 1,
	STEPS = 50,                              /* of waiting, in a second */
	RECORDING_MOST = 8 * BELLROPE_BYTES_MOST /* octets of a recorded timeslot: the bits of the longest capture */
};

/* The counts of one kind; of gaps, only the items. */
typedef struct {
	uint64_t items, right, wrong, unchecked, slipped, dropped, added;
} counts;

typedef struct {
	counts of[KINDS];
	uint64_t gap_bits;
} summary;

static void count(summary *s, const bellrope_record *record) {
	const bellrope_about *about = bellrope_about_kind(record->kind);
	counts *c = &s->of[record->kind];
	c->items++;
	if (record->kind == BELLROPE_GAP) {
		s->gap_bits += record->length;
		return;
	}
	if (record->verdict & BELLROPE_UNCHECKED) c->unchecked++;
	else if (record->verdict & BELLROPE_WRONG) c->wrong++;
	else if (about->has_check) c->right++;
	if (record->tail != about->usual_tail) c->slipped++;
	if (record->tail < about->usual_tail) c->dropped += about->usual_tail - record->tail;
	if (record->tail > about->usual_tail) c->added += record->tail - about->usual_tail;
}

static void print_counts(int has_check, const counts *c) {
	printf("%8" PRIu64, c->items);
	if (has_check) printf("%8" PRIu64 "%8" PRIu64 "%11" PRIu64, c->right, c->wrong, c->unchecked);
	else printf("%8s%8s%11s", "-", "-", "-");
	printf("%9" PRIu64 "%9" PRIu64 "%7" PRIu64 "\n", c->slipped, c->dropped, c->added);
}

static void print_summary(const summary *s, bellrope_capture capture) {
	counts all = {0};
	for (int k = 1; k < KINDS; k++) {
		all.items += s->of[k].items;
		all.right += s->of[k].right;
		all.wrong += s->of[k].wrong;
		all.unchecked += s->of[k].unchecked;
		all.slipped += s->of[k].slipped;
		all.dropped += s->of[k].dropped;
		all.added += s->of[k].added;
	}
	printf("%s, %" PRIu64 " bits\n", capture.direction == BELLROPE_UPLINK ? "uplink" : "downlink", capture.n);
	printf("frames: %" PRIu64 " in %" PRIu64 " bits\n", all.items, capture.n - s->gap_bits);
	printf("gaps: %" PRIu64 " in %" PRIu64 " bits\n\n", s->of[BELLROPE_GAP].items, s->gap_bits);
	printf("kind              frames   right   wrong  unchecked  slipped  dropped  added\n");
	for (int k = 1; k < KINDS; k++) {
		printf("%d %-14s", k, bellrope_about_kind(k)->name);
		print_counts(bellrope_about_kind(k)->has_check, &s->of[k]);
	}
	printf("%-16s", "all");
	print_counts(1, &all);
}

static void print_heading(void) { printf("kind,start,tail,control,extended,verdict,D\n"); }

static void print_record(const bellrope_record *record) {
	int gap = record->kind == BELLROPE_GAP;
	printf("%" PRIu64 ",%" PRIu64 ",%" PRIu64 ",", record->kind, record->start, gap ? record->length : record->tail);
	if (gap) printf(",,,");
	else printf("%u,%u,%u,", record->control, record->extended, record->verdict);
	for (size_t at = BELLROPE_AT_D; at < bellrope_record_bytes(record->kind); at++) printf("%02x", record->bytes[at]);
	printf("\n");
}

/* Reads a size in decimal; answers 0 if the word is none. */
static int read_size(const char *word, size_t *size) {
	char *end;
	errno = 0;
	*size = strtoull(word, &end, 10);
	return word[0] >= '0' && word[0] <= '9' && *end == '\0' && errno == 0;
}

/* What the command line asks. */
typedef struct {
	const char *words[3]; /* up or down, FILE, PAGE_BYTES, as far as they are given */
	int count;            /* of them */
	int up, down, csv;
	size_t page_bytes, profile, seconds;
	size_t channel; /* which one of a timeslot; 0 where FILE holds the bytes of one channel */
} request;

/* Takes up or down from the words, and the size of a page. Answers 0 if there is no FILE or a word too many. */
static int read_places(request *r) {
	r->up = r->count > 0 && strcmp(r->words[0], "up") == 0;
	r->down = r->count > 0 && strcmp(r->words[0], "down") == 0;
	if (r->up || r->down) {
		r->count--;
		memmove(r->words, r->words + 1, sizeof r->words - sizeof r->words[0]);
	}
	return r->count == 1 || (r->count == 2 && read_size(r->words[1], &r->page_bytes));
}

/* Reads the command line; answers 0 if it is none. */
static int read_words(int argc, char **argv, request *r) {
	int profiled = 0, followed = 0;
	*r = (request){.page_bytes = 4096};
	for (int i = 1; i < argc; i++) {
		const char *next = i + 1 < argc ? argv[i + 1] : "";
		if (strcmp(argv[i], "--csv") == 0 && !r->csv) r->csv = 1;
		else if (strcmp(argv[i], "--timeslot") == 0 && !r->channel && read_size(next, &r->channel) && r->channel >= 1 && r->channel <= 8) i++;
		else if (strcmp(argv[i], "--profile") == 0 && !profiled && read_size(next, &r->profile) && r->profile <= UINT8_MAX) profiled = 1, i++;
		else if (strcmp(argv[i], "--follow") == 0 && !followed && read_size(next, &r->seconds)) followed = 1, i++;
		else if (strncmp(argv[i], "--", 2) != 0 && r->count < 3) r->words[r->count++] = argv[i];
		else return 0;
	}
	return read_places(r);
}

static int usage(void) {
	fprintf(stderr, "usage: harvest [up|down] FILE [PAGE_BYTES] [--timeslot K] [--profile N] [--follow SECONDS] [--csv], "
	                "K from 1 to 8, N from 0 to 255\n");
	return 2;
}

/* Says why a page was refused, and what to do. */
static void explain(uint64_t number, const request *r) {
	const char *file = r->words[0];
	fprintf(stderr, "harvest: refused with number %" PRIu64 " (%s): ", number, bellrope_number_name(number));
	if (number == BELLROPE_BAD_REQUEST)
		fprintf(stderr, "%s does not begin with a byte of direction, 0 (uplink) or 1 (downlink). If it has none, put up or down before it.\n", file);
	else if (number == BELLROPE_TOO_LONG && r->channel)
		fprintf(stderr, "%s has more than %d octets of a timeslot. Give a shorter recording.\n", file, RECORDING_MOST);
	else if (number == BELLROPE_TOO_LONG) fprintf(stderr, "%s has more than %d bytes of bits. Give a shorter capture.\n", file, BELLROPE_BYTES_MOST);
	else if (number == BELLROPE_NO_ROOM)
		fprintf(stderr, "the next record does not fit a page of %zu bytes. Give at least %d.\n", r->page_bytes, BELLROPE_RECORD_MOST);
	else fprintf(stderr, "bellrope.h says what that means. It should not happen here.\n");
}

/* A harvest under way. */
typedef struct {
	request r;
	FILE *file;
	uint8_t bytes[RECORDING_MOST + 2];      /* of FILE: direction, and one more than a capture may have: the library then refuses it */
	size_t len;                             /* of them, so far */
	uint8_t taken[BELLROPE_BYTES_MOST + 1]; /* the channel's bytes, taken out of them where they are octets of a timeslot */
	size_t taken_bits;                      /* of it, so far: one for each octet */
	uint8_t *page;
	bellrope_cursor cursor;
	int headed;      /* whether the heading is printed */
	sigset_t enders; /* the signals that end the following; none without it */
	summary s;
} harvest;

/* The bytes of direction before the bits or octets: one, unless the command line has it or nothing was read yet. */
static size_t front(const harvest *h) { return h->r.up || h->r.down || h->len == 0 ? 0 : 1; }

/* Takes the channel out of the octets that FILE has more by now. A byte of which some bits were missing is taken anew. What the library takes at most is
 * a multiple of eight octets, so each timeslot begins a byte, and their bytes are joined as they stand. Answers the number of a refusal, or 0. */
static uint64_t take_out(harvest *h) {
	const uint8_t *octets = h->bytes + front(h);
	size_t len = h->len - front(h), some;
	for (size_t at = h->taken_bits / 8 * 8; at < len; at += some) {
		some = len - at < BELLROPE_OCTETS_MOST ? len - at : BELLROPE_OCTETS_MOST;
		uint64_t number = bellrope_take_channel(octets + at, some, h->r.channel, h->taken + at / 8, sizeof h->taken - at / 8);
		if (number != BELLROPE_TAKEN) return number;
	}
	h->taken_bits = len;
	return BELLROPE_TAKEN;
}

/* What was read of FILE as a capture, or what was taken out of it. One without a byte of direction gets none that the library takes. */
static bellrope_capture capture_of(const harvest *h) {
	const uint8_t *bytes = h->r.channel ? h->taken : h->bytes + front(h);
	uint64_t n = h->r.channel ? h->taken_bits : 8 * (uint64_t)(h->len - front(h));
	uint64_t direction = h->len == 0 ? UINT64_MAX : h->bytes[0];
	if (h->r.up) direction = BELLROPE_UPLINK;
	if (h->r.down) direction = BELLROPE_DOWNLINK;
	bellrope_capture capture = bellrope_capture_of(bytes, (size_t)(n + 7) / 8, n, direction);
	capture.profile = (uint8_t)h->r.profile;
	return capture;
}

/* Pages from the cursor until a page has no item: all to n, or what is settled. Answers the number of the refusal, or 0. */
static uint64_t take(harvest *h, bellrope_capture capture, int all) {
	bellrope_answer answer;
	bellrope_record record;
	do {
		answer = (all ? bellrope_next : bellrope_settled)(capture, &h->cursor, UINT64_MAX, h->page, h->r.page_bytes);
		if (answer.number != BELLROPE_TAKEN) return answer.number;
		if (h->r.csv && !h->headed) print_heading();
		h->headed = 1;
		for (size_t at = 0; bellrope_walk(h->page, answer.bytes, &at, &record);) {
			if (h->r.csv) print_record(&record);
			else count(&h->s, &record);
		}
	} while (answer.items != 0);
	return BELLROPE_TAKEN;
}

/* One look at what was read: takes what is settled, or all, and hands out what is to be printed. Answers the exit status that this gives. */
static int look(harvest *h, int all) {
	uint64_t number = h->r.channel ? take_out(h) : BELLROPE_TAKEN;
	bellrope_capture capture = capture_of(h);
	int directed = h->r.up || h->r.down || h->len != 0; /* else the byte of direction may still come */
	sigprocmask(SIG_BLOCK, &h->enders, NULL);           /* or one would cut the output short where that waits for its reader */
	if (number == BELLROPE_TAKEN && (directed || all)) number = take(h, capture, all);
	if (number == BELLROPE_TAKEN && all && !h->r.csv) print_summary(&h->s, capture);
	int unwritten = fflush(stdout) || ferror(stdout);
	sigprocmask(SIG_UNBLOCK, &h->enders, NULL);
	if (unwritten) {
		fprintf(stderr, "harvest: the output cannot be written: %s\n", strerror(errno));
		return 2;
	}
	if (number != BELLROPE_TAKEN) explain(number, &h->r);
	return number == BELLROPE_TAKEN ? 0 : 1;
}

/* Reads what FILE has more by now. Answers 0 if it cannot be read. A signal that cuts this short is no failure: the last look reads on. */
static int read_more(harvest *h) {
	size_t most = (h->r.channel ? RECORDING_MOST : BELLROPE_BYTES_MOST) + 2;
	h->len += fread(h->bytes + h->len, 1, most - h->len, h->file);
	int bad = ferror(h->file) && errno != EINTR;
	clearerr(h->file); /* the end of FILE is not its end for good */
	return !bad;
}

static int unreadable(const char *file) {
	fprintf(stderr, "harvest: %s cannot be read: %s\n", file, strerror(errno));
	return 2;
}

static volatile sig_atomic_t ended;

static void end(int number) {
	(void)number;
	ended = 1;
}

/* Lets SIGINT and SIGTERM end the following, even where they are ignored, as in what a shell starts in the background. */
static void catch_signals(sigset_t *enders) {
	struct sigaction action = {.sa_handler = end};
	sigemptyset(&action.sa_mask);
	sigaddset(enders, SIGINT);
	sigaddset(enders, SIGTERM);
	sigaction(SIGINT, &action, NULL);
	sigaction(SIGTERM, &action, NULL);
}

/* The harvest: looks while FILE grows, until it has not for the seconds asked or a signal comes, and then the last look, which takes the rest. Without
 * --follow the last is the only one. Answers the exit status. */
static int run(harvest *h) {
	const struct timespec step = {.tv_nsec = 1000000000 / STEPS};
	for (uint64_t quiet = 0; !ended && quiet / STEPS < h->r.seconds; quiet++) {
		size_t had = h->len;
		if (!read_more(h)) return unreadable(h->r.words[0]);
		if (h->len > had) quiet = 0;
		int status = quiet == 0 ? look(h, 0) : 0;
		if (status != 0) return status;
		nanosleep(&step, NULL);
	}
	return read_more(h) ? look(h, 1) : unreadable(h->r.words[0]);
}

int main(int argc, char **argv) {
	static harvest h;
	if (!read_words(argc, argv, &h.r)) return usage();
	sigemptyset(&h.enders);
	if (h.r.seconds != 0) catch_signals(&h.enders);
	h.cursor = bellrope_begin();
	h.file = fopen(h.r.words[0], "rb");
	if (!h.file) return unreadable(h.r.words[0]);
	h.page = malloc(h.r.page_bytes);
	if (!h.page && h.r.page_bytes) {
		fprintf(stderr, "harvest: there is no memory for a page of %zu bytes. Give fewer.\n", h.r.page_bytes);
		return 2;
	}
	int status = run(&h);
	free(h.page);
	fclose(h.file);
	return status;
}
