/* stack.c: a painted stack; see stack.h. */
#define _XOPEN_SOURCE 700
#include "stack.h"

#include <stdint.h>
#include <string.h>
#include <ucontext.h>

enum { STACK = 1 << 16, PAINT = 0xA5 };

static uint8_t stack[STACK];
static ucontext_t home, away;
static void (*chosen)(void);

static void nothing(void) {}

static void start(void) { chosen(); }

/* Bytes of the stack that are no longer as they were painted: it grows downwards. */
static size_t run(void (*job)(void)) {
    size_t left = 0;
    memset(stack, PAINT, STACK);
    chosen = job;
    if (getcontext(&away) != 0) {
        return STACK;
    }
    away.uc_stack.ss_sp = stack;
    away.uc_stack.ss_size = STACK;
    away.uc_link = &home;
    makecontext(&away, start, 0);
    if (swapcontext(&home, &away) != 0) {
        return STACK;
    }
    while (left < STACK && stack[left] == PAINT) {
        left++;
    }
    return STACK - left;
}

size_t stack_of(void (*job)(void)) {
    run(nothing);
    size_t empty = run(nothing);
    run(job);
    return run(job) - empty;
}
