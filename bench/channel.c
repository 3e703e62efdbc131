/* The program whose instructions are counted for the channels of a timeslot: it takes one out, or puts one back. It also compares the calls of the peer that
 * it is linked with (plain_channel.c, osmo_channel.c) with the library's, and looks how deep the stack went.
 *
 *   channel take library|peer FILE OCTETS CHANNEL TIMES   takes the channel out of the first OCTETS of the timeslot TIMES times
 *   channel put library|peer FILE OCTETS CHANNEL TIMES    puts bytes back as the channel of a timeslot of OCTETS TIMES times
 *   channel same FILE                                     compares what the peer's calls leave with what the library's do
 *   channel stack FILE                                    prints the most bytes of stack that taking out took, and putting back
 *
 * The first 65,536 bytes of FILE are the timeslot, and the first 8,192 of them are also the bytes put back: any file of that length will do. TIMES is as
 * in harvest.c. */
#include "peer.h"
#include "stack.h"
#include <stdio.h>
#include <stdlib.h>
#include <string.h>

/* The two calls, the buffer that the one fills, and the timeslot that the other changes. */
typedef struct {
	uint64_t (*take)(const uint8_t *, size_t, uint64_t, uint8_t *, size_t);
	uint64_t (*put)(uint8_t *, size_t, uint64_t, const uint8_t *, size_t);
	uint8_t buffer[BELLROPE_CHANNEL_MOST], timeslot[BELLROPE_OCTETS_MOST];
} calls;

static calls library = {.take = bellrope_take_channel, .put = bellrope_put_channel};
static calls peer = {.take = peer_take_channel, .put = peer_put_channel};
static uint8_t file[BELLROPE_OCTETS_MOST];
static size_t octets;
static uint64_t channel;

static void fail(const char *what) {
	fprintf(stderr, "channel: channel %llu of %zu octets: %s\n", (unsigned long long)channel, octets, what);
	exit(1);
}

static void load(const char *path) {
	FILE *from = fopen(path, "rb");
	if (!from || fread(file, 1, sizeof file, from) != sizeof file) {
		fprintf(stderr, "channel: %s: no timeslot can be read. Give a file of at least 65,536 bytes.\n", path);
		exit(1);
	}
	fclose(from);
}

static void take(calls *by) {
	if (by->take(file, octets, channel, by->buffer, sizeof by->buffer))
		fail("taking out is refused. Give a channel from 1 to 8, and at most 65,536 octets.");
}

static void put(calls *by) {
	if (by->put(by->timeslot, octets, channel, file, BELLROPE_CHANNEL_MOST))
		fail("putting back is refused. Give a channel from 1 to 8, and at most 65,536 octets.");
}

/* Takes a channel out and puts one back, both over bytes of the file, so that what has to stand shows if it does not. */
static void take_and_put(calls *by) {
	memcpy(by->buffer, file, sizeof by->buffer);
	memcpy(by->timeslot, file, sizeof by->timeslot);
	take(by);
	put(by);
}

/* Compares the buffers and the timeslots that the calls leave, whole. */
static void same(void) {
	take_and_put(&library);
	take_and_put(&peer);
	if (memcmp(library.buffer, peer.buffer, sizeof peer.buffer) || memcmp(library.timeslot, peer.timeslot, sizeof peer.timeslot))
		fail("the peer's calls and the library's differ. One of them is wrong; tests/compare says whether it is the library's.");
}

enum { TAKING, PUTTING }; /* the stacks of these calls */
static void library_takes(void) { take(&library); }
static void library_puts(void) { put(&library); }
static void use_stacks(void) {
	on_stack(TAKING, library_takes);
	on_stack(PUTTING, library_puts);
}

/* Does a job for each channel, with each number of bits in the last byte, and once with a byte fewer. */
static void for_each(void (*job)(void)) {
	for (channel = 1; channel <= 8; channel++)
		for (octets = BELLROPE_OCTETS_MOST - 8; octets <= BELLROPE_OCTETS_MOST; octets++) job();
}

int main(int argc, char **argv) {
	const char *what = argc > 1 ? argv[1] : "";
	if ((!strcmp(what, "take") || !strcmp(what, "put")) && argc == 7) {
		void (*job)(calls *) = strcmp(what, "put") ? take : put;
		calls *by = strcmp(argv[2], "peer") ? &library : &peer;
		load(argv[3]);
		octets = strtoul(argv[4], NULL, 10);
		channel = strtoul(argv[5], NULL, 10);
		for (int times = atoi(argv[6]); times > 0; times--) job(by);
		return 0;
	}
	if (!strcmp(what, "same") && argc == 3) {
		load(argv[2]);
		for_each(same);
		return 0;
	}
	if (!strcmp(what, "stack") && argc == 3) {
		load(argv[2]);
		paint_stacks();
		for_each(use_stacks);
		printf("taking %zu\nputting %zu\n", depth(TAKING), depth(PUTTING));
		return 0;
	}
	fprintf(stderr, "usage: channel take|put library|peer FILE OCTETS CHANNEL TIMES | same FILE | stack FILE\n");
	return 2;
}
