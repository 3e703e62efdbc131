/* interleave OCTETS FILE..: prints so many octets of a 64 kbit/s timeslot, of eight files. Bit k of each octet, k from 1 to 8 and the top bit first, is the
 * next bit of the k-th file, from the top bit of its first byte down. Behind the end of a file come ones. It does not use the library, which is held
 * against it. */
#include <stdio.h>
#include <stdlib.h>

enum { CHANNELS = 8 };

/* The next byte of a file, ones behind its end. */
static int next_byte(FILE *file) {
	int byte = fgetc(file);
	return byte == EOF ? 0xff : byte;
}

int main(int argc, char **argv) {
	FILE *files[CHANNELS];
	int bytes[CHANNELS]; /* of each file, the one whose bits come now */
	if (argc != 2 + CHANNELS) {
		fprintf(stderr, "usage: interleave OCTETS FILE.., eight files\n");
		return 2;
	}
	for (int k = 0; k < CHANNELS; k++) {
		files[k] = fopen(argv[2 + k], "rb");
		if (!files[k]) {
			perror(argv[2 + k]);
			return 2;
		}
	}
	for (unsigned long i = 0, octets = strtoul(argv[1], NULL, 10); i < octets; i++) {
		int octet = 0;
		for (int k = 0; k < CHANNELS; k++) {
			if (i % 8 == 0) bytes[k] = next_byte(files[k]);
			if (bytes[k] & 128 >> i % 8) octet |= 128 >> k;
		}
		putchar(octet);
	}
	return fflush(stdout) ? 2 : 0;
}
