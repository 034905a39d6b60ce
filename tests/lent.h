/* lent.h: lent buffers for the C tests: painted, with room on both sides that must stay as it was painted. */
#ifndef LENT_H
#define LENT_H

#include <stddef.h>
#include <stdint.h>

enum { GUARD = 64, ROOM = 2048 };

struct lent {
    uint8_t all[GUARD + ROOM + GUARD];
    size_t length;
};

/* Paints a buffer and gives its start, for `length` bytes, at most ROOM. */
uint8_t *lend(struct lent *lent, size_t length);

/* Whether nothing but the first `used` bytes was written. */
int kept(const struct lent *lent, size_t used);

/* A length and its two neighbours; below 0 it stays 0. */
size_t near(size_t length, int step);

#endif
