/* The program whose instructions are counted: it harvests a capture by pages of 4,096 bytes or of one record, or writes one back. It also compares two
 * readers, and looks how deep the stack went.
 *
 *   harvest page library|plain FILE BYTES TIMES     harvests the first BYTES of the capture TIMES times
 *   harvest record library|plain FILE BYTES TIMES   the same, asking for one item a page
 *   harvest write FILE BYTES TIMES                  harvests them once, and writes the records back TIMES times, page by page
 *   harvest same FILE..                             compares the plain reader's pages with the library's; prints frames and gaps of each file
 *   harvest stack FILE..                            prints the most bytes of stack that paging took, and writing
 *   harvest compiler                                prints what compiled this
 *
 * A FILE is one byte of direction and then the capture. What a run with TIMES 2 counts more than one with TIMES 1 is the cost of one time: all that the
 * program does besides is the same in both. */
#include "frames.h"
#include "plain.h"
#include "stack.h"
#include <stdio.h>
#include <stdlib.h>
#include <string.h>

#define PAGE 4096
#define PAGES 64

typedef bellrope_answer paging(const uint8_t *, size_t, uint64_t, uint64_t, uint8_t, uint64_t, uint64_t, uint64_t, uint8_t *, size_t);

static const char *name; /* of the file in hand */
static uint8_t capture[BELLROPE_BYTES_MOST];
static size_t bytes;
static uint64_t direction;
static uint8_t written[BELLROPE_BYTES_MOST];

static void fail(const char *what) {
	fprintf(stderr, "harvest: %s: %s\n", name, what);
	exit(1);
}

static void load(const char *path, size_t most) {
	FILE *file = fopen(path, "rb");
	int first = file ? getc(file) : EOF;
	name = path;
	if (first == EOF) fail("cannot be read. A capture file is one byte of direction and then the capture.");
	direction = (uint64_t)first;
	bytes = fread(capture, 1, most < sizeof capture ? most : sizeof capture, file);
	fclose(file);
}

/* A page of at most so many items from the cursor of the last answer. */
static bellrope_answer page(paging *call, bellrope_answer last, uint64_t most, uint8_t *buffer) {
	bellrope_answer a = call(capture, bytes, 8 * bytes, direction, 0, last.position, last.context, most, buffer, PAGE);
	if (a.number) fail("a page is refused. Give a capture with a direction of 0 or 1.");
	return a;
}

static void harvest(paging *call, uint64_t most) {
	static uint8_t buffer[PAGE];
	for (bellrope_answer a = {0}; a.position < 8 * bytes;) a = page(call, a, most, buffer);
}

/* Writes records from the cursor of the answer before them. */
static void write_records(bellrope_answer before, const uint8_t *records, size_t len) {
	bellrope_answer a = bellrope_write(records, len, direction, 0, before.position, before.context, written, bytes);
	if (a.number) fail("its records are refused. Give a capture without a gap, and so many bytes that they end with a frame.");
}

static void write_back(int times) {
	static uint8_t records[PAGES][PAGE];
	bellrope_answer answers[PAGES + 1] = {{0}};
	unsigned n = 0;
	for (; answers[n].position < 8 * bytes; n++) {
		if (n == PAGES) fail("it has more pages than there is room for.");
		answers[n + 1] = page(bellrope_page, answers[n], UINT64_MAX, records[n]);
	}
	while (times-- > 0)
		for (unsigned i = 0; i < n; i++) write_records(answers[i], records[i], answers[i + 1].bytes);
	if (memcmp(written, capture, bytes)) fail("what was written is not the capture.");
}

/* Compares the pages of the two readers, answers and buffers whole, and prints how many frames and gaps there are. */
static void same(void) {
	static uint8_t ours[PAGE], plain[PAGE];
	unsigned frames = 0, gaps = 0;
	for (bellrope_answer a = {0}; a.position < 8 * bytes;) {
		bellrope_answer last = a;
		a = page(bellrope_page, last, UINT64_MAX, ours);
		bellrope_answer b = page(plain_page, last, UINT64_MAX, plain);
		if (memcmp(&a, &b, sizeof a) || memcmp(ours, plain, PAGE)) {
			fprintf(stderr, "harvest: from bit %llu on the plain reader's page differs from the library's.\n", (unsigned long long)last.position);
			fail("two readers differ. One of them is wrong; tests/compare says whether it is the library.");
		}
		for (uint8_t *r = ours; r < ours + a.bytes; r += bellrope_record_bytes(*r)) *r ? frames++ : gaps++;
	}
	printf("frames %u\ngaps %u\n", frames, gaps);
}

enum { PAGING, WRITING }; /* the stacks of these calls */
static bellrope_answer before, answer;
static uint8_t record[PAGE];
static void all_pages(void) { harvest(bellrope_page, UINT64_MAX); }
static void one_item(void) { answer = page(bellrope_page, before, 1, record); }
static void one_record(void) { write_records(before, record, answer.bytes); }

/* Harvests the capture by whole pages, then item by item, and writes each frame where it stood. */
static void use_stacks(void) {
	on_stack(PAGING, all_pages);
	for (before = (bellrope_answer){0}; before.position < 8 * bytes; before = answer) {
		on_stack(PAGING, one_item);
		if (record[0]) on_stack(WRITING, one_record);
	}
}

int main(int argc, char **argv) {
	const char *what = argc > 1 ? argv[1] : "";
	prepare_frames();
	if ((!strcmp(what, "page") || !strcmp(what, "record")) && argc == 6) {
		paging *call = strcmp(argv[2], "plain") ? bellrope_page : plain_page;
		uint64_t most = strcmp(what, "record") ? UINT64_MAX : 1;
		load(argv[3], strtoul(argv[4], NULL, 10));
		for (int times = atoi(argv[5]); times > 0; times--) harvest(call, most);
		return 0;
	}
	if (!strcmp(what, "write") && argc == 5) {
		load(argv[2], strtoul(argv[3], NULL, 10));
		write_back(atoi(argv[4]));
		return 0;
	}
	if (!strcmp(what, "same")) {
		for (int i = 2; i < argc; i++) {
			load(argv[i], BELLROPE_BYTES_MOST);
			same();
		}
		return 0;
	}
	if (!strcmp(what, "stack")) {
		paint_stacks();
		for (int i = 2; i < argc; i++) {
			load(argv[i], BELLROPE_BYTES_MOST);
			use_stacks();
		}
		printf("paging %zu\nwriting %zu\n", depth(PAGING), depth(WRITING));
		return 0;
	}
	if (!strcmp(what, "compiler")) {
		printf("compiler gcc-%s\n", __VERSION__);
		return 0;
	}
	fprintf(stderr, "usage: harvest page|record library|plain FILE BYTES TIMES | write FILE BYTES TIMES | same FILE.. | stack FILE.. | compiler\n");
	return 2;
}
