/* A channel of a timeslot taken out and put back, as a C programmer would write it from the specification: octet by octet, one bit of each. */
#include "bits.h"
#include "peer.h"
#include <string.h>

uint64_t peer_take_channel(const uint8_t *timeslot, size_t timeslot_len, uint64_t channel, uint8_t *buffer, size_t buffer_len) {
	(void)buffer_len;
	memset(buffer, 0, (timeslot_len + 7) / 8);
	for (size_t i = 0; i < timeslot_len; i++) buffer[i / 8] |= bit(&timeslot[i], channel - 1) << (7 - i % 8);
	return 0;
}

uint64_t peer_put_channel(uint8_t *timeslot, size_t timeslot_len, uint64_t channel, const uint8_t *bytes, size_t bytes_len) {
	(void)bytes_len;
	for (size_t i = 0; i < timeslot_len; i++) put_bit(&timeslot[i], channel - 1, bit(bytes, i));
	return 0;
}
