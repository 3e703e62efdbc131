/* Stacks of their own for the calls whose depth is looked at. They are painted once; where the paint is gone in the end, some call has been. */
#ifndef BENCH_STACK_H
#define BENCH_STACK_H

#include <stddef.h>

#define STACKS 3

/* To be called once, before anything else. */
void paint_stacks(void);

/* Does a job on one of the stacks, which count from 0. */
void on_stack(unsigned which, void (*job)(void));

/* The most bytes of it that a job took. */
size_t depth(unsigned which);

#endif
