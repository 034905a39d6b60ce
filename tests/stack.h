/* stack.h: how much stack a call uses, measured on a stack of its own that is painted first. */
#ifndef STACK_H
#define STACK_H

#include <stddef.h>

/* Bytes of stack that `job` uses, less those of an empty job. The first of two runs, which may bind C's own functions,
 * is not measured. */
size_t stack_of(void (*job)(void));

#endif
