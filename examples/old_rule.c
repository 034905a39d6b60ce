/* The reader of former years, for comparison: it judges a reply as a whole, by a share of its groups. */
#include "old_rule.h"

static int is_right(const uint8_t *group)
{
    return rig_pec(group, 6) == (uint16_t)(group[6] << 8 | group[7]);
}

static void keep(const uint8_t *group, uint16_t limit, struct old_counts *counts)
{
    counts->kept++;
    if (!is_right(group))
        counts->wrong_kept++;
    for (int c = 0; c < 3; c++) {
        uint16_t count = (uint16_t)(group[2 * c] | group[2 * c + 1] << 8);
        if (count > limit)
            counts->alarms++;
        if (count > counts->highest)
            counts->highest = count;
    }
}

void old_rule_take(uint32_t n, const uint8_t *reply, uint16_t limit, struct old_counts *counts)
{
    uint32_t right = 0;

    for (uint32_t k = 0; k < n; k++)
        right += (uint32_t)is_right(reply + 4 + 8 * k);
    for (uint32_t k = 0; k < n; k++) {
        const uint8_t *group = reply + 4 + 8 * k;
        if (10 * right > 9 * n)
            keep(group, limit, &counts[k]);
        else if (is_right(group))
            counts[k].right_dropped++;
    }
}
