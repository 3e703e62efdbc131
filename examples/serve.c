/* serve [--places N] [--harvesters N] [--seed S] [--grow] FILE..: the core of a server that keeps the cursors of its clients, and the clients, all in one
 * process. They harvest the captures over one table of sessions, in an order that S decides, and each must get what a harvest alone gets.
 *
 * Each FILE is a capture file: one byte of direction, 0 for uplink or 1 for downlink, and then the channel's bits, the first bit sent being the top bit of
 * the first byte. n is eight times their bytes. The captures are numbered from 0 in the order of the words; a FILE may be given more than once.
 *
 * --places N       how many places the table has, 4 if none is given, at most 32
 * --harvesters N   how many clients there are, 10 if none is given. Their keys are 100, 101, .., and they harvest captures 0, 1, .. and again from 0.
 *                  One that finds the table full waits until a place is freed
 * --seed S         of the order in which they ask, of their page sizes, and of who gives up and begins anew, at most twice
 * --grow           the captures are still recorded: they start without a bit and get more now and then
 *
 * It prints a line for each client: its key, the number of its capture, the place of its last session, how often it began and how often it waited; then
 * the pages, items and bytes of the harvest that it ended, and whether that is the same as alone.
 *
 * Exit status: 0 each was the same as alone; 1 one was not, or a call was refused, and standard error says why; 2 bad usage, a FILE cannot be read, no
 * memory, or the output cannot be written. */
#include "bellrope.h"

#include <errno.h>
#include <inttypes.h>
#include <stdio.h>
#include <stdlib.h>
#include <string.h>

enum {
	FIRST_KEY = 100,
	BEGINS_MOST = 3,      /* how often a client begins */
	PAGE_MOST = 4096,     /* bytes of a client's page */
	RECORDS_MOST = 131072 /* bytes: no capture gives more; 39 in 161 bits, a gap of one bit and 6,70, are the most */
};

/* A capture of the server. */
typedef struct {
	uint64_t direction;
	uint8_t bytes[BELLROPE_BYTES_MOST + 1]; /* one more than a capture may have: the library then refuses it */
	uint64_t all;                           /* how many bits there will be */
	uint64_t n;                             /* how many there are by now */
	uint8_t alone[RECORDS_MOST];            /* what a harvest alone gives of them all */
	bellrope_answer answer;                 /* to that harvest */
} recording;

/* A client. It has no cursor. */
typedef struct {
	uint64_t key, capture;
	uint64_t place;         /* the last that it was told; at first one that no table has */
	int holds, waits, done; /* whether it has a session, whether it found the table full, whether it has ended */
	int same;               /* whether all was as it should be so far */
	uint64_t begun, waited, pages, items, bytes;
} harvester;

typedef struct {
	recording *captures;
	harvester *harvesters;
	bellrope_session *table; /* what is lent to the calls on sessions */
	size_t capture_count, harvester_count, places;
	uint64_t state; /* of the generator */
} server;

/* A number below `below`, by splitmix64. */
static uint64_t draw(server *s, uint64_t below) {
	uint64_t z = s->state += 0x9e3779b97f4a7c15;
	z = (z ^ z >> 30) * 0xbf58476d1ce4e5b9;
	z = (z ^ z >> 27) * 0x94d049bb133111eb;
	return (z ^ z >> 31) % below;
}

/* The server's part. Keys and places come from clients and may be anything; here a capture's number is always one that there is. */

static bellrope_opened serve_open(server *s, uint64_t key, uint64_t capture) {
	return bellrope_open(s->table, s->places, key, capture, s->captures[capture].direction);
}

/* The place tells which capture to bring. Where it is outside the table or free it tells none, and any will do: the call is refused whatever is brought, as
 * it is for another key's. While a capture is recorded, only what is settled is handed out: a cursor behind the rest would not stay good. The profile is 0
 * throughout. */
static bellrope_answer serve_page(server *s, uint64_t place, uint64_t key, uint64_t most, uint8_t *page, size_t length) {
	int taken = place < s->places && s->table[place].used;
	const recording *r = &s->captures[taken ? s->table[place].capture : 0];
	size_t bytes = (size_t)(r->n + 7) / 8;
	if (r->n < r->all) return bellrope_session_settled(s->table, s->places, place, key, r->bytes, bytes, r->n, 0, most, page, length);
	return bellrope_session_page(s->table, s->places, place, key, r->bytes, bytes, r->n, 0, most, page, length);
}

/* A place freed is news for those that wait. */
static uint64_t serve_close(server *s, uint64_t place, uint64_t key) {
	uint64_t number = bellrope_close(s->table, s->places, place, key);
	for (size_t i = 0; i < s->harvester_count; i++) s->harvesters[i].waits = 0;
	return number;
}

/* The clients' part. Each of these answers the number of a refusal that should not be, or 0. */

/* Opens a session, or waits. Before that it asks for a page by the place that it had last: that one is free or another's by now, or at first outside the
 * table, so it must get none. */
static uint64_t begin(server *s, harvester *h) {
	uint8_t page[BELLROPE_RECORD_MOST];
	if (serve_page(s, h->place, h->key, 1, page, sizeof page).number != BELLROPE_NO_SESSION) h->same = 0;
	bellrope_opened opened = serve_open(s, h->key, h->capture);
	if (opened.number == BELLROPE_FULL) {
		h->waits = 1;
		h->waited++;
		return BELLROPE_TAKEN;
	}
	if (opened.number != BELLROPE_TAKEN) return opened.number;
	h->holds = 1;
	h->place = opened.place;
	h->begun++;
	h->pages = h->items = h->bytes = 0;
	return BELLROPE_TAKEN;
}

static uint64_t leave(server *s, harvester *h) {
	h->holds = 0;
	return serve_close(s, h->place, h->key);
}

/* Takes a page, by some count and some room. It goes on where the last one ended, and at the end of the capture the harvest is whole. */
static uint64_t take(server *s, harvester *h) {
	uint8_t page[PAGE_MOST];
	const recording *r = &s->captures[h->capture];
	uint64_t most = draw(s, 2) ? UINT64_MAX : 1 + draw(s, 4);
	size_t length = BELLROPE_RECORD_MOST + (size_t)draw(s, draw(s, 4) ? 100 : sizeof page - BELLROPE_RECORD_MOST + 1);
	bellrope_answer answer = serve_page(s, h->place, h->key, most, page, length);
	if (answer.number != BELLROPE_TAKEN) return answer.number;
	if (answer.bytes > r->answer.bytes - h->bytes || memcmp(page, r->alone + h->bytes, (size_t)answer.bytes) != 0) h->same = 0;
	if (answer.items != 0) h->pages++;
	h->items += answer.items;
	h->bytes += answer.bytes;
	if (h->same && answer.position != r->all) return BELLROPE_TAKEN;
	if (h->items != r->answer.items || h->bytes != r->answer.bytes) h->same = 0;
	h->done = 1;
	return leave(s, h);
}

/* What the client does next: opens a session, gives one up, or takes a page. */
static uint64_t turn(server *s, harvester *h) {
	if (!h->holds) return begin(s, h);
	if (h->begun < BEGINS_MOST && draw(s, 10) == 0) return leave(s, h);
	return take(s, h);
}

/* Some capture gets more bits, if it is not whole yet. */
static void record(server *s) {
	recording *r = &s->captures[draw(s, s->capture_count)];
	uint64_t more = 1 + draw(s, 1 + r->all / 8);
	r->n += more < r->all - r->n ? more : r->all - r->n;
}

/* Lets the clients take turns until all are done. There always is one to go on: who waits waits for one that holds a place. */
static uint64_t serve(server *s) {
	for (size_t left = s->harvester_count; left > 0;) {
		size_t i = (size_t)draw(s, s->harvester_count);
		while (s->harvesters[i].done || s->harvesters[i].waits) i = (i + 1) % s->harvester_count;
		uint64_t number = turn(s, &s->harvesters[i]);
		if (number != BELLROPE_TAKEN) return number;
		if (s->harvesters[i].done) left--;
		record(s);
	}
	return BELLROPE_TAKEN;
}

/* Prints a line for each client; answers whether all were the same as alone. */
static int print(const server *s) {
	int same = 1;
	for (size_t i = 0; i < s->harvester_count; i++) {
		const harvester *h = &s->harvesters[i];
		printf("key %" PRIu64 ": capture %" PRIu64 ", place %" PRIu64 ", ", h->key, h->capture, h->place);
		printf("begun %" PRIu64 ", waited %" PRIu64 ": %" PRIu64 " pages, %" PRIu64 " items, ", h->begun, h->waited, h->pages, h->items);
		printf("%" PRIu64 " bytes, %s\n", h->bytes, h->same ? "same as alone" : "NOT the same as alone");
		same = same && h->same;
	}
	return same;
}

/* Reads a number in decimal; answers 0 if the word is none. */
static int read_number(const char *word, uint64_t *number) {
	char *end;
	errno = 0;
	*number = strtoull(word, &end, 10);
	return word[0] >= '0' && word[0] <= '9' && *end == '\0' && errno == 0;
}

/* What the command line asks. */
typedef struct {
	uint64_t places, harvesters, seed;
	int grow, count;
	char **files;
} request;

/* Reads the command line; answers 0 if it is none. */
static int read_words(int argc, char **argv, request *r) {
	int placed = 0, manned = 0, seeded = 0;
	*r = (request){.places = 4, .harvesters = 10, .files = argv};
	for (int i = 1; i < argc; i++) {
		const char *next = i + 1 < argc ? argv[i + 1] : "";
		if (strcmp(argv[i], "--grow") == 0 && !r->grow) r->grow = 1;
		else if (strcmp(argv[i], "--places") == 0 && !placed && read_number(next, &r->places) && r->places >= 1) placed = 1, i++;
		else if (strcmp(argv[i], "--harvesters") == 0 && !manned && read_number(next, &r->harvesters) && r->harvesters >= 1) manned = 1, i++;
		else if (strcmp(argv[i], "--seed") == 0 && !seeded && read_number(next, &r->seed)) seeded = 1, i++;
		else if (strncmp(argv[i], "--", 2) != 0) r->files[r->count++] = argv[i];
		else return 0;
	}
	return r->count > 0;
}

/* Reads a capture file and harvests it alone. Answers the exit status that this gives. */
static int load(recording *r, const char *name) {
	FILE *file = fopen(name, "rb");
	int first = file ? fgetc(file) : EOF;
	size_t length = first == EOF ? 0 : fread(r->bytes, 1, sizeof r->bytes, file);
	if (!file || ferror(file)) {
		fprintf(stderr, "serve: %s cannot be read: %s\n", name, strerror(errno));
		return 2;
	}
	fclose(file);
	bellrope_capture capture = bellrope_capture_of(r->bytes, length, 8 * (uint64_t)length, first == EOF ? UINT64_MAX : (uint64_t)first);
	bellrope_cursor cursor = bellrope_begin();
	r->direction = capture.direction;
	r->all = capture.n;
	r->answer = bellrope_next(capture, &cursor, UINT64_MAX, r->alone, sizeof r->alone);
	if (r->answer.number == BELLROPE_TAKEN) return 0;
	fprintf(stderr, "serve: refused with number %" PRIu64 " (%s): %s ", r->answer.number, bellrope_number_name(r->answer.number), name);
	if (r->answer.number == BELLROPE_TOO_LONG) fprintf(stderr, "has more than %d bytes of bits. Give a shorter capture.\n", BELLROPE_BYTES_MOST);
	else fprintf(stderr, "does not begin with a byte of direction, 0 (uplink) or 1 (downlink). Put one before its bits.\n");
	return 1;
}

/* Makes the captures, the clients and the table, whose zeros are free places. Answers the exit status that this gives. */
static int prepare(server *s, const request *r) {
	int status = 0;
	*s = (server){.capture_count = (size_t)r->count, .harvester_count = (size_t)r->harvesters, .places = (size_t)r->places, .state = r->seed};
	s->captures = calloc(s->capture_count, sizeof *s->captures);
	s->harvesters = calloc(s->harvester_count, sizeof *s->harvesters);
	s->table = calloc(s->places, sizeof *s->table);
	if (!s->captures || !s->harvesters || !s->table) {
		fprintf(stderr, "serve: there is no memory for so many captures, harvesters or places. Give fewer.\n");
		return 2;
	}
	for (size_t i = 0; i < s->capture_count && status == 0; i++) {
		status = load(&s->captures[i], r->files[i]);
		s->captures[i].n = r->grow ? 0 : s->captures[i].all;
	}
	for (size_t i = 0; i < s->harvester_count; i++)
		s->harvesters[i] = (harvester){.key = FIRST_KEY + i, .capture = i % s->capture_count, .place = UINT32_MAX, .same = 1};
	return status;
}

/* Says why a session was refused, and what to do. */
static void explain(uint64_t number) {
	fprintf(stderr, "serve: refused with number %" PRIu64 " (%s): ", number, bellrope_number_name(number));
	if (number == BELLROPE_TOO_LONG) fprintf(stderr, "a table has at most %d places. Give no more with --places.\n", BELLROPE_SESSIONS_MOST);
	else fprintf(stderr, "bellrope.h says what that means. It should not happen here.\n");
}

/* Serves, and says how it went. Answers the exit status. */
static int run(server *s) {
	uint64_t number = serve(s);
	if (number != BELLROPE_TAKEN) {
		explain(number);
		return 1;
	}
	int same = print(s);
	if (fflush(stdout) || ferror(stdout)) {
		fprintf(stderr, "serve: the output cannot be written: %s\n", strerror(errno));
		return 2;
	}
	if (!same) fprintf(stderr, "serve: the lines above that say NOT are of harvests that others changed. That should not happen.\n");
	return same ? 0 : 1;
}

int main(int argc, char **argv) {
	request r;
	server s;
	if (!read_words(argc, argv, &r)) {
		fprintf(stderr, "usage: serve [--places N] [--harvesters N] [--seed S] [--grow] FILE.., N at least 1, S at least 0\n");
		return 2;
	}
	int status = prepare(&s, &r);
	if (status == 0) status = run(&s);
	free(s.captures);
	free(s.harvesters);
	free(s.table);
	return status;
}
