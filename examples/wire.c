/* A simulated wire between the controller and a chain, with noise that grows towards the far end. */
#include "wire.h"

/* On a disturbed way, of a million groups of the last device FAR_END are hit, of those of device k of N (k / N)^8 times as many, and
   of a million command groups COMMAND. */
enum { MILLION = 1000000, FAR_END = 250000, COMMAND = 20000 };

void wire_start(struct wire *wire, enum noise noise, uint32_t devices, uint32_t seed)
{
    wire->noise = noise;
    wire->devices = devices;
    wire->random = seed;
}

/* The row splitmix64: the same seed gives the same run on any machine. */
uint32_t wire_random(struct wire *wire, uint32_t limit)
{
    uint64_t x;

    wire->random += UINT64_C(0x9e3779b97f4a7c15);
    x = wire->random;
    x = (x ^ (x >> 30)) * UINT64_C(0xbf58476d1ce4e5b9);
    x = (x ^ (x >> 27)) * UINT64_C(0x94d049bb133111eb);
    x ^= x >> 31;
    return (uint32_t)(((x >> 32) * limit) >> 32);
}

static void flip(uint8_t *group, uint32_t bit)
{
    group[bit / 8] ^= (uint8_t)(0x80 >> bit % 8);
}

/* A burst: 1 to 15 neighbouring bits of the group, of which the first, the last, and any between are flipped. */
static int hit_burst(struct wire *wire, uint8_t *group, uint32_t bits)
{
    uint32_t width = 1 + wire_random(wire, 15);
    uint32_t first = wire_random(wire, bits - width + 1);

    for (uint32_t i = 0; i < width; i++)
        if (i == 0 || i == width - 1 || wire_random(wire, 2))
            flip(group, first + i);
    return 1;
}

/* Beyond the promise: one bit in eight of the whole group. */
static int hit_wild(struct wire *wire, uint8_t *group, uint32_t bits)
{
    int any = 0;

    for (uint32_t i = 0; i < bits; i++)
        if (wire_random(wire, 8) == 0) {
            flip(group, i);
            any = 1;
        }
    return any;
}

static int may_hit(struct wire *wire, uint32_t per_million, uint8_t *group, uint32_t bits)
{
    if (wire_random(wire, MILLION) >= per_million)
        return 0;
    return wire->noise == NOISE_WILD ? hit_wild(wire, group, bits) : hit_burst(wire, group, bits);
}

static uint32_t odds_at(const struct wire *wire, uint32_t device)
{
    double part = (double)device / wire->devices, part4 = part * part * part * part;

    return (uint32_t)(FAR_END * part4 * part4);
}

/* Noise on one way, on the command group and `groups` others. In a write the first of them is device N's, in all else device 1's. */
static uint32_t disturb(struct wire *wire, uint8_t *bytes, uint32_t groups, int far_first)
{
    uint32_t hit = may_hit(wire, COMMAND, bytes, 32) ? 1 : 0;

    for (uint32_t k = 1; k <= groups; k++) {
        uint8_t *group = bytes + 4 + 8 * (far_first ? groups - k : k - 1);
        if (may_hit(wire, odds_at(wire, k), group, 64))
            hit |= (uint32_t)1 << k;
    }
    return hit;
}

struct trip wire_carry(struct wire *wire, enum way way, uint8_t *frame, uint8_t *state, uint8_t *reply)
{
    uint32_t n = wire->devices, groups = way == WAY_COMMAND ? 0 : n, out = 0, back = 0;
    size_t length = RIG_FRAME_BYTES(groups);
    int outward = wire_random(wire, 4) == 0;
    int noisy = wire->noise != NOISE_NONE, both = wire->noise == NOISE_WILD;
    struct trip trip;

    if (noisy && (outward || both))
        out = disturb(wire, frame, groups, way == WAY_WRITE);
    trip.heard = rig_chain(n, frame, length, state, RIG_STATE_BYTES(n), reply, length);
    if (noisy && (!outward || both))
        back = disturb(wire, reply, groups, 0);
    /* The clock bytes of a read on the way out, and on the way back all but the groups of a read, are looked at by nobody. */
    trip.hit = way == WAY_WRITE ? out : (out & 1) | (back & ~(uint32_t)1);
    return trip;
}
