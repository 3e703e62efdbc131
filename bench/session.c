/* The program whose instructions are counted for sessions: it harvests a capture by the last place of a full list of 32 sessions, by pages of 4,096 bytes or
 * of one record, and by paging alone; or it opens and closes that session. It also compares the pages of the two, and looks how deep the stack went.
 *
 *   session page session|alone FILE TIMES     harvests the capture TIMES times
 *   session record session|alone FILE TIMES   the same, asking for one item a page
 *   session open TIMES                        opens and closes the session TIMES times
 *   session same FILE                         compares the pages of the two; prints how many there are, and how many of one record
 *   session stack FILE                        prints the most bytes of stack that opening took, paging by a session and closing
 *
 * A FILE is one byte of direction and then the capture. TIMES is as in harvest.c. */
#include "bellrope.h"
#include "stack.h"
#include <stdio.h>
#include <stdlib.h>
#include <string.h>

enum { PAGE = 4096, LAST = BELLROPE_SESSIONS_MOST - 1, KEY = 1000 };

static uint8_t capture[BELLROPE_BYTES_MOST], buffer[PAGE];
static size_t bytes;
static uint64_t direction, most = UINT64_MAX;
static bellrope_session list[BELLROPE_SESSIONS_MOST];

static void fail(const char *what) {
	fprintf(stderr, "session: %s\n", what);
	exit(1);
}

static void load(const char *path) {
	FILE *file = fopen(path, "rb");
	int first = file ? getc(file) : EOF;
	if (first == EOF) fail("the capture cannot be read. Give a file of one byte of direction and then the capture.");
	direction = (uint64_t)first;
	bytes = fread(capture, 1, sizeof capture, file);
	fclose(file);
}

/* A page from the cursor of the last answer. */
static bellrope_answer page_alone(bellrope_answer last) {
	return bellrope_page(capture, bytes, 8 * bytes, direction, 0, last.position, last.context, most, buffer, PAGE);
}

/* A page from the cursor that the session keeps. */
static bellrope_answer page_session(bellrope_answer last) {
	(void)last;
	return bellrope_session_page(list, BELLROPE_SESSIONS_MOST, LAST, KEY, capture, bytes, 8 * bytes, 0, most, buffer, PAGE);
}

static void open_last(void) {
	bellrope_opened opened = bellrope_open(list, BELLROPE_SESSIONS_MOST, KEY, 0, direction);
	if (opened.number || opened.place != LAST) fail("the last place is not taken. Give a capture with a direction of 0 or 1.");
}

static void close_last(void) {
	if (bellrope_close(list, BELLROPE_SESSIONS_MOST, LAST, KEY)) fail("closing is refused. The session is not open.");
}

static void harvest(bellrope_answer (*page)(bellrope_answer)) {
	list[LAST].position = list[LAST].context = 0;
	for (bellrope_answer a = {0}; a.position < 8 * bytes;) {
		a = page(a);
		if (a.number) fail("a page is refused. Give a capture with a direction of 0 or 1.");
	}
}

/* Compares the pages of the two, answers and buffers whole, and answers how many there are. */
static unsigned same(void) {
	static uint8_t alone[PAGE];
	unsigned pages = 0;
	list[LAST].position = list[LAST].context = 0;
	for (bellrope_answer a = {0}; a.position < 8 * bytes; pages++) {
		a = page_alone(a);
		memcpy(alone, buffer, PAGE);
		bellrope_answer b = page_session(a);
		if (a.number || memcmp(&a, &b, sizeof a) || memcmp(alone, buffer, PAGE)) fail("the pages of the session are not those of paging alone.");
	}
	return pages;
}

enum { OPENING, PAGING, CLOSING }; /* the stacks of these calls */
static void harvest_session(void) { harvest(page_session); }

/* Fills the list, but for the last place. */
static void fill(void) {
	for (uint64_t key = 0; key < LAST; key++) bellrope_open(list, LAST, key, 0, 0);
}

int main(int argc, char **argv) {
	const char *what = argc > 1 ? argv[1] : "";
	fill();
	if (!strcmp(what, "open") && argc == 3) {
		for (int times = atoi(argv[2]); times > 0; times--) {
			open_last();
			close_last();
		}
		return 0;
	}
	if ((!strcmp(what, "page") || !strcmp(what, "record")) && argc == 5) {
		load(argv[3]);
		open_last();
		if (strcmp(what, "page")) most = 1;
		for (int times = atoi(argv[4]); times > 0; times--) harvest(strcmp(argv[2], "alone") ? page_session : page_alone);
		return 0;
	}
	if (!strcmp(what, "same") && argc == 3) {
		load(argv[2]);
		open_last();
		printf("pages %u\n", same());
		most = 1;
		printf("records %u\n", same());
		return 0;
	}
	if (!strcmp(what, "stack") && argc == 3) {
		load(argv[2]);
		paint_stacks();
		on_stack(OPENING, open_last);
		on_stack(PAGING, harvest_session);
		most = 1;
		on_stack(PAGING, harvest_session);
		on_stack(CLOSING, close_last);
		printf("opening %zu\nsession %zu\nclosing %zu\n", depth(OPENING), depth(PAGING), depth(CLOSING));
		return 0;
	}
	fprintf(stderr, "usage: session page|record session|alone FILE TIMES | open TIMES | same FILE | stack FILE\n");
	return 2;
}
