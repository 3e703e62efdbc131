/* The stacks of stack.h. */
#include "stack.h"
#include <stdint.h>
#include <string.h>
#include <ucontext.h>

#define PAINT 0xa5
static uint8_t stacks[STACKS][1 << 18];

void paint_stacks(void) { memset(stacks, PAINT, sizeof stacks); }

void on_stack(unsigned which, void (*job)(void)) {
	static ucontext_t here, there;
	getcontext(&there);
	there.uc_stack.ss_sp = stacks[which];
	there.uc_stack.ss_size = sizeof stacks[which];
	there.uc_link = &here;
	makecontext(&there, job, 0);
	swapcontext(&here, &there);
}

size_t depth(unsigned which) {
	size_t untouched = 0;
	while (stacks[which][untouched] == PAINT) untouched++;
	return sizeof stacks[which] - untouched;
}
