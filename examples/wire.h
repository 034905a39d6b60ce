/* A simulated wire between the controller and a chain, with noise that grows towards the far end. */
#ifndef WIRE_H
#define WIRE_H

#include "rig.h"

enum noise {
    NOISE_NONE,
    NOISE_BURST, /* what the promise allows: on one way of a frame, in any group within 15 neighbouring bits */
    NOISE_WILD   /* beyond it: on both ways, anywhere in a group */
};

struct wire {
    enum noise noise;
    uint32_t devices;
    uint64_t random;
};

/* What one frame came to. In `hit`, bit 0 is set where the command group was hit on the way out, and bit k where the group that
   device k took (on a write) or sent (on a read) was hit. A real controller sees neither `hit` nor the chain's own answer. */
struct trip {
    struct rig_heard heard;
    uint32_t hit;
};

enum way { WAY_WRITE, WAY_READ, WAY_COMMAND }; /* the last: a command group alone, a clear or a conversion */

void wire_start(struct wire *wire, enum noise noise, uint32_t devices, uint32_t seed);

/* A number below `limit`, from the wire's own seeded row. */
uint32_t wire_random(struct wire *wire, uint32_t limit);

/* The frame goes out, the chain serves it on `state`, and `reply` comes back: 4 + 8N bytes either way, or 4 of a command group
   alone. The frame is left as the chain heard it. */
struct trip wire_carry(struct wire *wire, enum way way, uint8_t *frame, uint8_t *state, uint8_t *reply);

#endif
