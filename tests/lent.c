/* lent.c: lent buffers for the C tests; see lent.h. */
#include "lent.h"

static uint8_t paint_at(size_t i) { return (uint8_t)(i * 37 + 11); }

uint8_t *lend(struct lent *lent, size_t length) {
    for (size_t i = 0; i < sizeof lent->all; i++) {
        lent->all[i] = paint_at(i);
    }
    lent->length = length;
    return lent->all + GUARD;
}

int kept(const struct lent *lent, size_t used) {
    for (size_t i = 0; i < sizeof lent->all; i++) {
        if ((i < GUARD || i >= GUARD + used) && lent->all[i] != paint_at(i)) {
            return 0;
        }
    }
    return 1;
}

size_t near(size_t length, int step) { return length == 0 && step < 0 ? 0 : length + (size_t)step; }
