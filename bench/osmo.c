/* The same captures given to libosmotrau, the field's C library: its synchroniser finds frames, and its decoder takes each apart.
 *
 *   osmo hr|low FILE BYTES TIMES   looks for frames in the first BYTES of the capture TIMES times
 *   osmo hr|low FILE               prints how many frames it hands out, how many of these have the pattern's fixed bits, and how many its decoder takes
 *
 * It is told the pattern, HR or Low, and looks for that alone. It checks no CRC, knows no tail and writes no record. */
#include <osmocom/core/application.h>
#include <osmocom/core/bits.h>
#include <osmocom/core/fsm.h>
#include <osmocom/core/logging.h>
#include <osmocom/core/utils.h>
#include <osmocom/trau/trau_frame.h>
#include <osmocom/trau/trau_sync.h>
#include <stdio.h>
#include <stdlib.h>
#include <string.h>

#define LARGEST 65536

static int low, judging;
static unsigned long handed, whole, decoded;

/* Whether the fixed bits of the pattern hold. */
static int holds(const ubit_t *bits) {
	unsigned zero = low ? 24 : 16; /* where bit 1 of an octet is zero and the next one */
	for (unsigned p = 0; p < 8; p++)
		if (bits[p]) return 0;
	for (unsigned p = 8; p < 160; p += 8)
		if (bits[p] != (p != zero)) return 0;
	return bits[zero + 1];
}

static void take(void *data, const ubit_t *bits, unsigned int count) {
	struct osmo_trau_frame frame;
	(void)data;
	if (!bits || count != 160) return;
	int refused = osmo_trau_frame_decode_8k(&frame, bits, OSMO_TRAU_DIR_DL);
	if (!judging) return;
	handed++;
	whole += holds(bits);
	decoded += !refused;
}

int main(int argc, char **argv) {
	static const struct log_info nothing = {0};
	static uint8_t capture[LARGEST];
	static ubit_t bits[8 * LARGEST];
	FILE *file = argc == 3 || argc == 5 ? fopen(argv[2], "rb") : NULL;
	if (!file || getc(file) == EOF) {
		fprintf(stderr, "usage: osmo hr|low FILE [BYTES TIMES], FILE being a capture file\n");
		return 2;
	}
	judging = argc == 3;
	low = !strcmp(argv[1], "low");
	/* It takes a byte for each bit. Turning the capture into that is done once, so it is not counted. */
	size_t n = 8 * fread(capture, 1, judging ? LARGEST : strtoul(argv[3], NULL, 10), file);
	osmo_pbit2ubit(bits, capture, n);
	osmo_init_logging2(NULL, &nothing);
	for (int times = judging ? 1 : atoi(argv[4]); times > 0; times--) {
		struct osmo_fsm_inst *sync = osmo_trau_sync_alloc(NULL, "bench", take, low ? OSMO_TRAU_SYNCP_8_AMR_LOW : OSMO_TRAU_SYNCP_8_HR, NULL);
		osmo_trau_sync_rx_ubits(sync, bits, n);
		osmo_fsm_inst_term(sync, OSMO_FSM_TERM_REGULAR, NULL);
	}
	if (judging) printf("handed %lu\nwhole %lu\ndecoded %lu\n", handed, whole, decoded);
	return 0;
}
