/* What the checks of the header share: a fact that must hold, and the answer that a call must give. */
#ifndef HOLD_H
#define HOLD_H

#include "bellrope.h"

#include <stdio.h>

static int failures;

static void hold(int so, const char *file, int line, const char *what) {
	if (so) return;
	failures++;
	printf("%s:%d: not so: %s\n", file, line, what);
}
#define HOLD(what) hold(what, __FILE__, __LINE__, #what)

/* The answer has these numbers. It is looked at through pointers, with which a narrower field does not compile. */
static int is(bellrope_answer a, uint64_t number, uint64_t index, uint64_t items, uint64_t bytes, uint64_t position, uint64_t context) {
	const uint64_t *got[6] = {&a.number, &a.index, &a.items, &a.bytes, &a.position, &a.context};
	const uint64_t due[6] = {number, index, items, bytes, position, context};
	for (int i = 0; i < 6; i++)
		if (*got[i] != due[i]) return 0;
	return 1;
}

#endif
