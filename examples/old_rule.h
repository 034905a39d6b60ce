/* The reader of former years, for comparison: it judges a reply as a whole, by a share of its groups. */
#ifndef OLD_RULE_H
#define OLD_RULE_H

#include "rig.h"

struct old_counts {
    uint32_t kept;          /* groups kept, right or wrong */
    uint32_t wrong_kept;    /* of them wrong */
    uint32_t right_dropped; /* right groups dropped with their reply */
    uint32_t alarms;        /* cells above the limit */
    uint16_t highest;       /* the highest count reported */
};

/* One reply of n devices to a read of three cells: where more than nine in ten of its groups are
   right all are kept, else none. */
void old_rule_take(uint32_t n, const uint8_t *reply, uint16_t limit, struct old_counts *counts);

#endif
