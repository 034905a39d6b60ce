/* The rig's entries in plain C, written the obvious way: a table of 256 remainders, a search in the tables of commands, memcpy and
   memset. It is what the benchmark holds the archive against, and no part of it. */
#include "makers.h"

#include <string.h>

/* Entry i is i times x^15, reduced by the polynomial. */
static const uint16_t table[256] = {
    0x0000, 0x4599, 0x4eab, 0x0b32, 0x58cf, 0x1d56, 0x1664, 0x53fd,
    0x7407, 0x319e, 0x3aac, 0x7f35, 0x2cc8, 0x6951, 0x6263, 0x27fa,
    0x2d97, 0x680e, 0x633c, 0x26a5, 0x7558, 0x30c1, 0x3bf3, 0x7e6a,
    0x5990, 0x1c09, 0x173b, 0x52a2, 0x015f, 0x44c6, 0x4ff4, 0x0a6d,
    0x5b2e, 0x1eb7, 0x1585, 0x501c, 0x03e1, 0x4678, 0x4d4a, 0x08d3,
    0x2f29, 0x6ab0, 0x6182, 0x241b, 0x77e6, 0x327f, 0x394d, 0x7cd4,
    0x76b9, 0x3320, 0x3812, 0x7d8b, 0x2e76, 0x6bef, 0x60dd, 0x2544,
    0x02be, 0x4727, 0x4c15, 0x098c, 0x5a71, 0x1fe8, 0x14da, 0x5143,
    0x73c5, 0x365c, 0x3d6e, 0x78f7, 0x2b0a, 0x6e93, 0x65a1, 0x2038,
    0x07c2, 0x425b, 0x4969, 0x0cf0, 0x5f0d, 0x1a94, 0x11a6, 0x543f,
    0x5e52, 0x1bcb, 0x10f9, 0x5560, 0x069d, 0x4304, 0x4836, 0x0daf,
    0x2a55, 0x6fcc, 0x64fe, 0x2167, 0x729a, 0x3703, 0x3c31, 0x79a8,
    0x28eb, 0x6d72, 0x6640, 0x23d9, 0x7024, 0x35bd, 0x3e8f, 0x7b16,
    0x5cec, 0x1975, 0x1247, 0x57de, 0x0423, 0x41ba, 0x4a88, 0x0f11,
    0x057c, 0x40e5, 0x4bd7, 0x0e4e, 0x5db3, 0x182a, 0x1318, 0x5681,
    0x717b, 0x34e2, 0x3fd0, 0x7a49, 0x29b4, 0x6c2d, 0x671f, 0x2286,
    0x2213, 0x678a, 0x6cb8, 0x2921, 0x7adc, 0x3f45, 0x3477, 0x71ee,
    0x5614, 0x138d, 0x18bf, 0x5d26, 0x0edb, 0x4b42, 0x4070, 0x05e9,
    0x0f84, 0x4a1d, 0x412f, 0x04b6, 0x574b, 0x12d2, 0x19e0, 0x5c79,
    0x7b83, 0x3e1a, 0x3528, 0x70b1, 0x234c, 0x66d5, 0x6de7, 0x287e,
    0x793d, 0x3ca4, 0x3796, 0x720f, 0x21f2, 0x646b, 0x6f59, 0x2ac0,
    0x0d3a, 0x48a3, 0x4391, 0x0608, 0x55f5, 0x106c, 0x1b5e, 0x5ec7,
    0x54aa, 0x1133, 0x1a01, 0x5f98, 0x0c65, 0x49fc, 0x42ce, 0x0757,
    0x20ad, 0x6534, 0x6e06, 0x2b9f, 0x7862, 0x3dfb, 0x36c9, 0x7350,
    0x51d6, 0x144f, 0x1f7d, 0x5ae4, 0x0919, 0x4c80, 0x47b2, 0x022b,
    0x25d1, 0x6048, 0x6b7a, 0x2ee3, 0x7d1e, 0x3887, 0x33b5, 0x762c,
    0x7c41, 0x39d8, 0x32ea, 0x7773, 0x248e, 0x6117, 0x6a25, 0x2fbc,
    0x0846, 0x4ddf, 0x46ed, 0x0374, 0x5089, 0x1510, 0x1e22, 0x5bbb,
    0x0af8, 0x4f61, 0x4453, 0x01ca, 0x5237, 0x17ae, 0x1c9c, 0x5905,
    0x7eff, 0x3b66, 0x3054, 0x75cd, 0x2630, 0x63a9, 0x689b, 0x2d02,
    0x276f, 0x62f6, 0x69c4, 0x2c5d, 0x7fa0, 0x3a39, 0x310b, 0x7492,
    0x5368, 0x16f1, 0x1dc3, 0x585a, 0x0ba7, 0x4e3e, 0x450c, 0x0095,
};

enum kind { UNKNOWN, WRITE, READ, CLEAR, CONVERT };

struct command {
    uint16_t code;
    uint8_t kind;
    uint8_t group;
};

static const struct command commands[26] = {
    {0x001, WRITE, 0},  {0x002, READ, 0},   {0x024, WRITE, 1},  {0x026, READ, 1},   {0x004, READ, 2},   {0x006, READ, 3},
    {0x008, READ, 4},   {0x00A, READ, 5},   {0x009, READ, 6},   {0x00B, READ, 7},   {0x00C, READ, 8},   {0x00E, READ, 9},
    {0x00D, READ, 10},  {0x00F, READ, 11},  {0x010, READ, 12},  {0x012, READ, 13},  {0x721, WRITE, 14}, {0x722, READ, 14},
    {0x014, WRITE, 15}, {0x016, READ, 15},  {0x020, WRITE, 16}, {0x022, READ, 16},  {0x01C, WRITE, 17}, {0x01E, READ, 17},
    {0x711, CLEAR, 2},  {0x712, CLEAR, 8},
};

/* A conversion command: its code with every field 0, the highest discharge and pull-up, the bits of its choice, and its ends. */
static const struct conversion {
    uint16_t base;
    uint8_t discharge, pull_up, choice, shift, least, most;
} conversions[13] = {
    {0x260, 1, 0, 0x07, 0, 0, 6}, {0x228, 1, 1, 0x07, 0, 0, 6}, {0x207, 0, 0, 0x60, 5, 1, 2}, {0x201, 1, 0, 0x00, 0, 0, 0},
    {0x460, 0, 0, 0x07, 0, 0, 6}, {0x400, 0, 0, 0x07, 0, 0, 6}, {0x410, 0, 1, 0x07, 0, 0, 6}, {0x407, 0, 0, 0x60, 5, 1, 2},
    {0x468, 0, 0, 0x07, 0, 0, 4}, {0x408, 0, 0, 0x07, 0, 0, 4}, {0x40F, 0, 0, 0x60, 5, 1, 2}, {0x46F, 1, 0, 0x00, 0, 0, 0},
    {0x467, 1, 0, 0x00, 0, 0, 0},
};

struct rig_code plain_conversion_code(uint32_t command, uint32_t mode, uint32_t discharge, uint32_t pull_up, uint32_t choice)
{
    struct rig_code code = {9, 0};

    if (command > 12 || mode > 3)
        return code;
    const struct conversion *c = &conversions[command];
    if (discharge > c->discharge || pull_up > c->pull_up || choice < c->least || choice > c->most)
        return code;
    code.number = 0;
    code.code = (uint16_t)(c->base + (mode << 7) + (discharge << 4) + (pull_up << 6) + (choice << c->shift));
    return code;
}

struct rig_conversion plain_conversion_of(uint32_t code)
{
    struct rig_conversion taken = {2, 0, 0, 0, 0, 0};

    for (uint32_t i = 0; i < 13; i++) {
        const struct conversion *c = &conversions[i];
        uint32_t fields = 0x180u | (uint32_t)c->discharge << 4 | (uint32_t)c->pull_up << 6 | c->choice;
        uint32_t choice = (code & c->choice) >> c->shift;
        if ((code & ~fields) == c->base && choice >= c->least && choice <= c->most) {
            taken.number = 0;
            taken.command = i;
            taken.mode = code >> 7 & 3;
            taken.discharge = code >> 4 & c->discharge;
            taken.pull_up = code >> 6 & c->pull_up;
            taken.choice = choice;
            break;
        }
    }
    return taken;
}

static struct command find(uint32_t code)
{
    struct command found = {0, UNKNOWN, 0};

    for (size_t i = 0; i < 26; i++)
        if (commands[i].code == code)
            return commands[i];
    if (plain_conversion_of(code).number == 0)
        found.kind = CONVERT;
    return found;
}

uint16_t plain_pec(const uint8_t *bytes, size_t bytes_len)
{
    uint16_t r = 16;

    for (size_t i = 0; i < bytes_len; i++)
        r = (uint16_t)(((r << 8) & 0x7fff) ^ table[((r >> 7) ^ bytes[i]) & 0xff]);
    return (uint16_t)(r << 1);
}

static void put_word(uint8_t *out, uint16_t word)
{
    out[0] = (uint8_t)(word >> 8);
    out[1] = (uint8_t)word;
}

static void put_group(uint8_t *out, const uint8_t *bytes, size_t count)
{
    uint16_t word = plain_pec(bytes, count);

    memcpy(out, bytes, count);
    put_word(out + count, word);
}

static int is_right(const uint8_t *group, size_t count)
{
    uint16_t sent = (uint16_t)(group[count] << 8 | group[count + 1]);

    return sent == plain_pec(group, count);
}

static size_t frame_length(uint32_t n, uint8_t kind)
{
    return kind == CLEAR || kind == CONVERT ? 4 : 4 + 8 * (size_t)n;
}

static struct rig_written written(uint8_t number, size_t length)
{
    struct rig_written w = {number, length};

    return w;
}

struct rig_written plain_write(uint32_t n, uint32_t code, const uint8_t *data, size_t data_len, uint8_t *out, size_t out_len)
{
    if (n < 1 || n > 16)
        return written(1, 0);
    struct command command = find(code);
    if (command.kind == UNKNOWN)
        return written(2, 0);
    if (data_len != (command.kind == WRITE ? 6 * (size_t)n : 0))
        return written(3, 0);
    size_t length = frame_length(n, command.kind);
    if (out_len < length)
        return written(5, 0);

    uint8_t bytes[2] = {(uint8_t)(code >> 8), (uint8_t)code};
    put_group(out, bytes, 2);
    if (command.kind == WRITE)
        for (uint32_t k = 0; k < n; k++)
            put_group(out + 4 + 8 * (n - 1 - k), data + 6 * k, 6);
    else if (command.kind == READ)
        memset(out + 4, 0xff, 8 * (size_t)n);
    return written(0, length);
}

static struct rig_heard heard(uint8_t number, uint16_t word)
{
    struct rig_heard h = {number, word};

    return h;
}

/* A device's state: 18 groups, then its pin, which a read of CFGA shows in the bit DTEN of the first byte. */
enum { DEVICE = 109, PIN = 108, CFGA = 0, DTEN = 0x02 };

static int any_pin_above_1(uint32_t n, const uint8_t *state)
{
    uint8_t all = 0;

    for (uint32_t k = 0; k < n; k++)
        all |= state[DEVICE * k + PIN];
    return all > 1;
}

static uint16_t store(uint32_t n, uint8_t group, const uint8_t *frame, uint8_t *state)
{
    uint16_t word = 0;

    for (uint32_t k = 0; k < n; k++) {
        const uint8_t *sent = frame + 4 + 8 * (n - 1 - k);
        uint8_t *held = state + DEVICE * k + 6 * group;
        if (is_right(sent, 6)) {
            uint8_t stays = held[0] & DTEN;
            memcpy(held, sent, 6);
            if (group == CFGA)
                held[0] = (uint8_t)((sent[0] & ~DTEN) | stays);
            word |= (uint16_t)(1u << k);
        }
    }
    return word;
}

static void answer(uint32_t n, uint8_t group, const uint8_t *state, uint8_t *reply)
{
    for (uint32_t k = 0; k < n; k++) {
        const uint8_t *device = state + DEVICE * k;
        uint8_t *shown = reply + 4 + 8 * k;
        memcpy(shown, device + 6 * group, 6);
        if (group == CFGA)
            shown[0] = (uint8_t)((shown[0] & ~DTEN) | device[PIN] << 1);
        put_word(shown + 6, plain_pec(shown, 6));
    }
}

static void clear(uint32_t n, uint8_t group, uint8_t *state)
{
    size_t count = group == 2 ? 6 : 4;

    for (uint32_t k = 0; k < n; k++)
        memset(state + DEVICE * k + 6 * group, 0xff, 6 * count);
}

struct rig_heard plain_chain(uint32_t n, const uint8_t *frame, size_t frame_len, uint8_t *state, size_t state_len,
                             uint8_t *reply, size_t reply_len)
{
    if (n < 1 || n > 16)
        return heard(1, 0);
    if (state_len != DEVICE * (size_t)n || any_pin_above_1(n, state))
        return heard(3, 0);
    if (reply_len < frame_len)
        return heard(5, 0);
    memset(reply, 0xff, frame_len);
    if (frame_len < 4)
        return heard(6, 0);
    if (!is_right(frame, 2))
        return heard(4, 0);
    struct command command = find((uint32_t)(frame[0] << 8 | frame[1]));
    if (command.kind == UNKNOWN)
        return heard(2, 0);
    if (frame_len != frame_length(n, command.kind))
        return heard(6, 0);

    if (command.kind == WRITE)
        return heard(0, store(n, command.group, frame, state));
    if (command.kind == READ) {
        answer(n, command.group, state, reply);
        return heard(0, 0);
    }
    if (command.kind == CLEAR)
        clear(n, command.group, state);
    return heard(0, (uint16_t)((1u << n) - 1));
}

static int is_silent(const uint8_t *group)
{
    static const uint8_t silence[8] = {0xff, 0xff, 0xff, 0xff, 0xff, 0xff, 0xff, 0xff};

    return memcmp(group, silence, sizeof silence) == 0;
}

uint8_t plain_read(uint32_t n, uint32_t code, const uint8_t *reply, size_t reply_len, uint8_t *data, size_t data_len,
                   uint8_t *marks, size_t marks_len)
{
    if (n < 1 || n > 16)
        return 1;
    struct command command = find(code);
    if (command.kind == UNKNOWN)
        return 2;
    if (command.kind != READ)
        return 7;
    if (reply_len != 4 + 8 * (size_t)n)
        return 3;
    if (data_len < 6 * (size_t)n || marks_len < n)
        return 5;

    for (uint32_t k = 0; k < n; k++) {
        const uint8_t *group = reply + 4 + 8 * k;
        marks[k] = is_silent(group) ? 2 : is_right(group, 6) ? 0 : 1;
        if (marks[k] == 0)
            memcpy(data + 6 * k, group, 6);
        else
            memset(data + 6 * k, 0, 6);
    }
    return 0;
}

static int any_above(const uint8_t *marks, size_t count)
{
    for (size_t i = 0; i < count; i++)
        if (marks[i] > 2)
            return 1;
    return 0;
}

struct rig_readings plain_cells(const uint8_t *groups, size_t groups_len, const uint8_t *marks, size_t marks_len)
{
    struct rig_readings r = {0, {0}, 0, 0};

    if (groups_len != 36 || marks_len != 6 || any_above(marks, marks_len)) {
        r.number = 3;
        return r;
    }
    for (size_t c = 0; c < 18; c++) {
        uint16_t count = (uint16_t)(groups[2 * c] | groups[2 * c + 1] << 8);
        if (marks[c / 3] != 0)
            continue;
        if (count == 0xffff) {
            r.unmeasured |= (uint32_t)1 << c;
        } else {
            r.counts[c] = count;
            r.valid |= (uint32_t)1 << c;
        }
    }
    return r;
}

static int passes(uint32_t count, uint32_t more)
{
    return UINT32_MAX - count < more;
}

uint8_t plain_tally_add(struct rig_tally *tally, const uint8_t *marks, size_t marks_len)
{
    uint32_t sorts[3] = {0, 0, 0};

    if (marks_len < 1 || marks_len > 16)
        return 1;
    for (size_t i = 0; i < marks_len; i++) {
        if (marks[i] > 2)
            return 3;
        sorts[marks[i]]++;
    }
    if (passes(tally->replies, 1) || passes(tally->read, sorts[0]) || passes(tally->wrong, sorts[1]) ||
        passes(tally->silent, sorts[2]))
        return 8;
    tally->replies += 1;
    tally->read += sorts[0];
    tally->wrong += sorts[1];
    tally->silent += sorts[2];
    return 0;
}

static const size_t longest[5] = {0, 1, 132, 132, 200};

/* Whether a body is within the limits of its kind, 1 to 4. */
static int within(uint32_t kind, const uint8_t *body, size_t body_len)
{
    return body_len <= longest[kind] && (kind != 1 || (body_len == 1 && body[0] >= 1 && body[0] <= 16));
}

struct rig_written plain_log_put(uint32_t kind, const uint8_t *body, size_t body_len, uint8_t *out, size_t out_len)
{
    struct rig_written w = {11, 0};

    if (kind < 1 || kind > 4 || !within(kind, body, body_len))
        return w;
    if (out_len < 4 + body_len) {
        w.number = 5;
        return w;
    }
    out[0] = (uint8_t)(2 + body_len);
    out[1] = (uint8_t)((2 + body_len) >> 8);
    out[2] = (uint8_t)kind;
    out[3] = 0;
    if (body_len > 0)
        memcpy(out + 4, body, body_len);
    w.number = 0;
    w.length = 4 + body_len;
    return w;
}

struct rig_record plain_log_at(const uint8_t *log, size_t log_len, size_t place)
{
    struct rig_record r = {0, 0, 0, 0, 0, 0}, refused = {10, 0, 0, 0, 0, 0};

    if (place == log_len) {
        r.end = 1;
        return r;
    }
    if (place > log_len || log_len - place < 4)
        return refused;
    size_t length = (size_t)(log[place] | log[place + 1] << 8);
    if (length < 2 || log_len - place - 2 < length)
        return refused;
    r.kind = (uint32_t)(log[place + 2] | log[place + 3] << 8);
    r.next = place + 2 + length;
    if (r.kind >= 1 && r.kind <= 4) {
        r.body = place + 4;
        r.body_len = length - 2;
        refused.number = 11;
        if (!within(r.kind, log + r.body, r.body_len))
            return refused;
    }
    return r;
}

struct rig_walk plain_log_walk(const uint8_t *log, size_t log_len)
{
    struct rig_walk w = {0, 0, 0, 0, 0, 0, 0};

    for (;;) {
        struct rig_record r = plain_log_at(log, log_len, w.at);
        w.number = r.number;
        if (r.number != 0 || r.end)
            return w;
        switch (r.kind) {
        case 1: w.sizes++; break;
        case 2: w.frames++; break;
        case 3: w.replies++; break;
        case 4: w.notes++; break;
        default: w.unknown++;
        }
        w.at = r.next;
    }
}
