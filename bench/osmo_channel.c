/* A channel of a timeslot taken out and put back by libosmogsm, the field's C library, which knows it as a sub-channel of ITU-T I.460. Its demultiplexer
 * takes one out. Its multiplexer makes whole timeslots and changes none, so one is put back by taking all eight apart and making the timeslot anew. */
#include "peer.h"
#include <osmocom/core/bits.h>
#include <osmocom/core/msgb.h>
#include <osmocom/gsm/i460_mux.h>
#include <string.h>

enum { CHANNELS = 8, BLOCK = 256 }; /* a block: the bits that go in or out at once */

/* The bytes of a channel, from the next one on. */
typedef struct {
	uint8_t *next;
	size_t left;
} bytes_of;

/* Takes a block that the demultiplexer has; of the last, what there is room for. */
static void take_block(struct osmo_i460_subchan *channel, void *data, const uint8_t *block, unsigned int count) {
	bytes_of *to = data;
	(void)channel;
	if (count > to->left) count = to->left;
	memcpy(to->next, block, count);
	to->next += count;
	to->left -= count;
}

/* Gives the multiplexer the next block, a byte for each bit. */
static void give_block(struct osmo_i460_subchan *channel, void *data) {
	bytes_of *from = data;
	struct msgb *block = msgb_alloc(BLOCK, "block");
	osmo_pbit2ubit(msgb_put(block, BLOCK), from->next, BLOCK);
	from->next += BLOCK / 8;
	osmo_i460_mux_enqueue(channel, block);
}

static void add_channel(struct osmo_i460_timeslot *slot, uint64_t channel, bytes_of *bytes) {
	const struct osmo_i460_schan_desc about = {
		.rate = OSMO_I460_RATE_8k,
		.bit_offset = (uint8_t)(channel - 1),
		.demux = {.num_bits = BLOCK, .out_cb_bytes = take_block, .user_data = bytes},
		.mux = {.in_cb_queue_empty = give_block, .user_data = bytes},
	};
	osmo_i460_subchan_add(NULL, slot, &about);
}

/* The last block is filled up with zeros, or it would not be handed out. */
static void take_apart(struct osmo_i460_timeslot *slot, const uint8_t *timeslot, size_t len) {
	static const uint8_t zeros[BLOCK];
	osmo_i460_demux_in(slot, timeslot, len);
	osmo_i460_demux_in(slot, zeros, (BLOCK - len % BLOCK) % BLOCK);
}

static void end(struct osmo_i460_timeslot *slot) {
	for (int i = 0; i < CHANNELS; i++) osmo_i460_subchan_del(&slot->schan[i]);
}

uint64_t peer_take_channel(const uint8_t *timeslot, size_t timeslot_len, uint64_t channel, uint8_t *buffer, size_t buffer_len) {
	struct osmo_i460_timeslot slot;
	bytes_of to = {buffer, (timeslot_len + 7) / 8};
	(void)buffer_len;
	osmo_i460_ts_init(&slot);
	add_channel(&slot, channel, &to);
	take_apart(&slot, timeslot, timeslot_len);
	end(&slot);
	return 0;
}

uint64_t peer_put_channel(uint8_t *timeslot, size_t timeslot_len, uint64_t channel, const uint8_t *bytes, size_t bytes_len) {
	static uint8_t all[CHANNELS][BELLROPE_CHANNEL_MOST + BLOCK / 8];
	struct osmo_i460_timeslot slot;
	bytes_of of[CHANNELS];
	(void)bytes_len;
	osmo_i460_ts_init(&slot);
	for (int i = 0; i < CHANNELS; i++) {
		of[i] = (bytes_of){all[i], (timeslot_len + 7) / 8};
		add_channel(&slot, (uint64_t)i + 1, &of[i]);
	}
	take_apart(&slot, timeslot, timeslot_len);
	memcpy(all[channel - 1], bytes, (timeslot_len + 7) / 8);
	for (int i = 0; i < CHANNELS; i++) of[i].next = all[i];
	osmo_i460_mux_out(&slot, timeslot, timeslot_len);
	end(&slot);
	return 0;
}
