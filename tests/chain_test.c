/* chain_test.c: rig_chain, called from C and held to the plain chain: lengths off by one both ways, wrong commands, and each group wrong
 * alone; and the DTEN pin: its values, CFGA written and read through it, and that nothing else depends on it or changes it. */
#include "chain_test.h"

#include "lent.h"
#include "plain.h"

#include <string.h>

enum { ADCV = 0x360, COMMANDS = 27, PATTERNS = 4 };

static const uint32_t chains[3] = {1, 2, 16};

/* Pins, or stored bits: bit k - 1 is device k's. */
static const uint32_t patterns[PATTERNS] = {0x00000, 0x1FFFF, 0x15555, 0x06666};

/* The commands of the table, and a conversion. */
static const struct command *command_at(size_t i) { return i < 26 ? &commands[i] : command_of(ADCV); }

/* ---- one call ---- */

/* One frame on a copy of a state: number, word, state and reply are the plain chain's. The number. */
static uint8_t hold_chain(uint32_t n, const uint8_t *frame, size_t length, const uint8_t *held, size_t state_len, size_t reply_len) {
    struct lent state, reply, state_then, reply_then;
    uint8_t *lent_state = lend(&state, state_len), *lent_reply = lend(&reply, reply_len);
    uint8_t *then_state = lend(&state_then, state_len), *then_reply = lend(&reply_then, reply_len);
    uint8_t number = plain_chain_number(n, frame, length, held, state_len, reply_len);
    uint16_t word = 0;
    memcpy(lent_state, held, state_len);
    memcpy(then_state, held, state_len);
    if (number == RIG_DONE || number == RIG_FRAME_LENGTH || number == RIG_COMMAND_PEC || number == RIG_UNKNOWN_COMMAND) {
        memset(then_reply, 0xFF, length);
    }
    if (number == RIG_DONE) {
        word = plain_obey(n, command_of((uint32_t)frame[0] << 8 | frame[1]), frame, then_state, then_reply);
    }
    struct rig_heard got = rig_chain(n, frame, length, lent_state, state_len, lent_reply, reply_len);
    EXPECT(got.number == number, "chain's number", n, number);
    EXPECT(got.word == word, "chain's word", n, word);
    EXPECT(memcmp(state.all, state_then.all, sizeof state.all) == 0, "chain's state", n, number);
    EXPECT(memcmp(reply.all, reply_then.all, sizeof reply.all) == 0, "chain's reply", n, number);
    return got.number;
}

static uint8_t bit_of(uint32_t pattern, uint32_t k) { return (uint8_t)(pattern >> (k - 1) & 1); }

/* The pins of a state of any length. */
static void set_pins(uint8_t *state, size_t state_len, uint32_t pins) {
    for (uint32_t k = 1; RIG_PIN_PLACE(k) < state_len; k++) {
        state[RIG_PIN_PLACE(k)] = bit_of(pins, k);
    }
}

void one_chain(uint32_t n, const uint8_t *frame, size_t length, size_t state_len, size_t reply_len) {
    struct lent painted;
    uint8_t *state = lend(&painted, state_len);
    set_pins(state, state_len, 0x15A36);
    hold_chain(n, frame, length, state, state_len, reply_len);
    set_pins(state, state_len, 0x1FFFF ^ 0x15A36);
    hold_chain(n, frame, length, state, state_len, reply_len);
}

/* ---- frames ---- */

/* Frames of the wrong length, with a wrong command, and with each group wrong alone. */
static void chain_frames(uint32_t n, const struct command *command, const uint8_t *data) {
    uint8_t frame[RIG_FRAME_BYTES(17) + 1];
    size_t length, state = RIG_STATE_BYTES(n);
    memset(frame, 0xFF, sizeof frame);
    length = plain_frame(n, command, data, frame);
    for (int step = 0; step < 9; step++) {
        one_chain(n, frame, near(length, step / 3 - 1), near(state, step % 3 - 1), length);
        one_chain(n, frame, near(length, step / 3 - 1), state, near(near(length, step / 3 - 1), step % 3 - 1));
    }
    for (size_t cut = 0; cut < 5; cut++) {
        one_chain(n, frame, cut, state, length);
    }
    for (size_t i = 0; i < length; i++) {
        frame[i] ^= 1;
        one_chain(n, frame, length, state, length + 1);
        frame[i] ^= 1;
    }
}

void test_chain(void) {
    static const uint8_t closing[4] = {0x00, 0x01, 0x3D, 0x6F}, unknown[4] = {0x00, 0x00, 0xB6, 0x5C};
    uint8_t data[RIG_DATA_BYTES(17)], top[4], code[2] = {0xF8, 0x01};
    for (size_t i = 0; i < sizeof data; i++) {
        data[i] = (uint8_t)(i * 101 + 7);
    }
    one_chain(1, closing, 4, 109, 4);
    one_chain(1, unknown, 4, 109, 4);
    one_chain(1, NULL, 0, 109, 0);
    plain_group(code, 2, top);
    one_chain(1, top, 4, 109, 4);
    for (uint32_t n = 0; n <= 17; n++) {
        for (size_t i = 0; i < COMMANDS; i++) {
            chain_frames(n, command_at(i), data);
        }
    }
}

/* ---- places in the state ---- */

/* The header's places are the paper's, and a state without pins is refused. */
void test_places(void) {
    uint8_t state[RIG_STATE_BYTES(16)] = {0}, frame[RIG_COMMAND_BYTES], reply[RIG_COMMAND_BYTES];
    plain_frame(1, command_of(ADCV), NULL, frame);
    EXPECT(RIG_DTEN == 2, "DTEN is bit 1", RIG_DTEN, 0);
    for (uint32_t k = 1; k <= 16; k++) {
        EXPECT(RIG_STATE_BYTES(k) == 109 * k, "the state's length", k, RIG_STATE_BYTES(k));
        EXPECT(RIG_PIN_PLACE(k) == 109 * (k - 1) + 108, "the pin's place", k, RIG_PIN_PLACE(k));
        for (uint32_t g = 0; g < RIG_GROUPS; g++) {
            EXPECT(RIG_GROUP_PLACE(k, g) == 109 * (k - 1) + 6 * g, "a group's place", k, g);
        }
        EXPECT(rig_chain(k, frame, 4, state, 109 * k, reply, 4).number == 0, "109 bytes a device", k, 0);
        EXPECT(rig_chain(k, frame, 4, state, 108 * k, reply, 4).number == 3, "108 bytes a device", k, 0);
    }
}

/* ---- pins ---- */

/* Any registers; the stored bit of each device's CFGA, and its pin. */
static void make_state(uint8_t *state, uint32_t n, uint32_t pins, uint32_t stored) {
    for (size_t i = 0; i < RIG_STATE_BYTES(n); i++) {
        state[i] = (uint8_t)(i * 59 + 13);
    }
    set_pins(state, RIG_STATE_BYTES(n), pins);
    for (uint32_t k = 1; k <= n; k++) {
        uint8_t *first = state + RIG_GROUP_PLACE(k, RIG_GROUP_CFGA);
        *first = (uint8_t)((*first & ~RIG_DTEN) | (bit_of(stored, k) ? RIG_DTEN : 0));
    }
}

static void make_data(uint8_t *data, uint32_t n, uint8_t first) {
    for (size_t i = 0; i < RIG_DATA_BYTES(n); i++) {
        data[i] = (uint8_t)(i * 43 + first);
    }
}

/* A pin above 1 is refused with 3, and nothing is changed, whatever else is wrong of a call but its n. */
static void one_pin_value(const struct command *command, uint32_t n, uint32_t k, uint8_t value) {
    static const uint8_t unknown[4] = {0x00, 0x00, 0xB6, 0x5C};
    uint8_t state[RIG_STATE_BYTES(16)], frame[RIG_FRAME_BYTES(16)], data[RIG_DATA_BYTES(16)];
    size_t bytes = RIG_STATE_BYTES(n), length;
    int bad = value > 1;
    make_state(state, n, 0x06A35, 0x03C56);
    make_data(data, n, value);
    state[RIG_PIN_PLACE(k)] = value;
    length = plain_frame(n, command, data, frame);
    EXPECT(hold_chain(n, frame, length, state, bytes, length) == (bad ? 3 : 0), "a pin of any value", k, value);
    EXPECT(hold_chain(n, frame, length, state, bytes, length - 1) == (bad ? 3 : 5), "a pin comes before 5", k, value);
    EXPECT(hold_chain(n, frame, 3, state, bytes, 3) == (bad ? 3 : 6), "a pin comes before 6, under 4 bytes", k, value);
    EXPECT(hold_chain(n, frame, length - 1, state, bytes, length) == (bad ? 3 : 6), "a pin comes before 6", k, value);
    EXPECT(hold_chain(n, unknown, 4, state, bytes, 4) == (bad ? 3 : 2), "a pin comes before 2", k, value);
    frame[3] ^= 1;
    EXPECT(hold_chain(n, frame, length, state, bytes, length) == (bad ? 3 : 4), "a pin comes before 4", k, value);
}

/* Every value at every device, and for every command the two values next to the limit. */
void test_pin_values(void) {
    uint8_t state[RIG_STATE_BYTES(17)];
    memset(state, 0xFF, sizeof state);
    EXPECT(hold_chain(0, NULL, 0, state, 0, 0) == 1, "n comes before the pins", 0, 0);
    EXPECT(hold_chain(17, NULL, 0, state, sizeof state, 0) == 1, "n comes before the pins", 17, 0);
    for (size_t c = 0; c < 3; c++) {
        for (uint32_t k = 1; k <= chains[c]; k++) {
            for (unsigned value = 0; value <= 0xFF; value++) {
                one_pin_value(command_of(RIG_RDCFGA), chains[c], k, (uint8_t)value);
                one_pin_value(command_of(RIG_WRCFGA), chains[c], k, (uint8_t)value);
            }
            for (size_t i = 0; i < COMMANDS; i++) {
                one_pin_value(command_at(i), chains[c], k, 1);
                one_pin_value(command_at(i), chains[c], k, 2);
            }
        }
    }
}

static uint32_t read_of(const struct command *write) {
    for (size_t i = 0; i < 26; i++) {
        if (commands[i].kind == READS && commands[i].group == write->group) {
            return commands[i].code;
        }
    }
    return 0;
}

/* One frame from rig_write, obeyed by rig_chain and, of a read, read by rig_read into `data`. */
static void pass(uint32_t n, uint32_t code, uint8_t *data, uint8_t *state) {
    uint8_t frame[RIG_FRAME_BYTES(16)], reply[RIG_FRAME_BYTES(16)], marks[16];
    int writes = command_of(code)->kind == WRITES;
    struct rig_written out = rig_write(n, code, data, writes ? RIG_DATA_BYTES(n) : 0, frame, sizeof frame);
    struct rig_heard heard = rig_chain(n, frame, out.length, state, RIG_STATE_BYTES(n), reply, sizeof reply);
    EXPECT(heard.number == RIG_DONE && heard.word == (writes ? (1u << n) - 1 : 0), "all devices hear", n, code);
    if (!writes) {
        EXPECT(rig_read(n, code, reply, out.length, data, RIG_DATA_BYTES(n), marks, n) == RIG_DONE, "the reply is read", n, code);
        for (uint32_t k = 0; k < n; k++) {
            EXPECT(marks[k] == RIG_MARK_READ, "each group is right", n, k);
        }
    }
}

/* A group written and read back comes as it was written, but that CFGA shows the pin in bit 1 of its first byte. In the state just that
 * group is other than before, and of CFGA bit 1 is not. */
static void one_written(uint32_t n, const struct command *write, uint8_t first, uint32_t pins, uint32_t stored) {
    uint8_t state[RIG_STATE_BYTES(16)], then[RIG_STATE_BYTES(16)], data[RIG_DATA_BYTES(16)], back[RIG_DATA_BYTES(16)];
    make_state(state, n, pins, stored);
    make_state(then, n, pins, stored);
    make_data(data, n, first);
    pass(n, write->code, data, state);
    pass(n, read_of(write), back, state);
    for (uint32_t k = 1; k <= n; k++) {
        uint8_t *sent = data + 6 * (k - 1), *held = then + RIG_GROUP_PLACE(k, write->group), others = sent[0] & 0xFD;
        memcpy(held, sent, 6);
        if (write->group == RIG_GROUP_CFGA) {
            held[0] = (uint8_t)(others + 2 * bit_of(stored, k));
            sent[0] = (uint8_t)(others + 2 * bit_of(pins, k));
        }
    }
    EXPECT(memcmp(back, data, RIG_DATA_BYTES(n)) == 0, "what is read back", write->code, first);
    EXPECT(memcmp(state, then, RIG_STATE_BYTES(n)) == 0, "what is stored", write->code, first);
}

/* Every first byte, both pins and both stored bits. */
static void written_to(uint32_t n, const struct command *write) {
    for (unsigned first = 0; first <= 0xFF; first++) {
        for (size_t i = 0; i < PATTERNS * PATTERNS; i++) {
            one_written(n, write, (uint8_t)first, patterns[i / PATTERNS], patterns[i % PATTERNS]);
        }
    }
}

void test_written(void) {
    for (size_t i = 0; i < 26; i++) {
        for (size_t c = 0; commands[i].kind == WRITES && c < 3; c++) {
            written_to(chains[c], &commands[i]);
        }
    }
}

/* After a frame, good or refused, each pin and each stored bit is what it was. */
static void one_left(uint32_t n, const uint8_t *frame, size_t length, uint32_t pins, uint32_t stored) {
    uint8_t state[RIG_STATE_BYTES(16)], reply[RIG_FRAME_BYTES(16)];
    make_state(state, n, pins, stored);
    rig_chain(n, frame, length, state, RIG_STATE_BYTES(n), reply, sizeof reply);
    for (uint32_t k = 1; k <= n; k++) {
        EXPECT(state[RIG_PIN_PLACE(k)] == bit_of(pins, k), "the pin stays", n, k);
        EXPECT((state[RIG_GROUP_PLACE(k, RIG_GROUP_CFGA)] & 2) == 2 * bit_of(stored, k), "the stored bit stays", n, k);
    }
}

/* A command as it is, with each group wrong by its first bit, with a wrong check word of the command, and cut short. */
static void left_by(uint32_t n, const struct command *command, uint8_t byte, uint32_t pins, uint32_t stored) {
    uint8_t frame[RIG_FRAME_BYTES(16)], data[RIG_DATA_BYTES(16)];
    size_t length;
    memset(data, byte, sizeof data);
    length = plain_frame(n, command, data, frame);
    one_left(n, frame, length, pins, stored);
    for (size_t at = 4; at < length; at += 8) {
        frame[at] ^= 0x80;
        one_left(n, frame, length, pins, stored);
        frame[at] ^= 0x80;
    }
    for (size_t cut = 0; cut < 5; cut++) {
        one_left(n, frame, cut, pins, stored);
    }
    one_left(n, frame, length - 1, pins, stored);
    frame[2] ^= 0x80;
    one_left(n, frame, length, pins, stored);
}

static void left_on(uint32_t n, uint32_t pins, uint32_t stored) {
    static const uint8_t unknown[4] = {0x00, 0x00, 0xB6, 0x5C};
    one_left(n, unknown, 4, pins, stored);
    for (size_t i = 0; i < COMMANDS; i++) {
        left_by(n, command_at(i), 0x00, pins, stored);
        left_by(n, command_at(i), 0xFF, pins, stored);
    }
}

void test_pins_stay(void) {
    for (size_t c = 0; c < 3; c++) {
        for (size_t i = 0; i < PATTERNS * PATTERNS; i++) {
            left_on(chains[c], patterns[i / PATTERNS], patterns[i % PATTERNS]);
        }
    }
}

/* Two states that differ in one pin: after a frame they still do, and in nothing else. The replies differ where CFGA is read, in that
 * device's group alone: in bit 1 of its first byte, and in the check word, which is right of both. */
static void one_pin_change(uint32_t n, uint32_t k, const struct command *command) {
    uint8_t low[RIG_STATE_BYTES(16)], high[RIG_STATE_BYTES(16)], data[RIG_DATA_BYTES(16)], frame[RIG_FRAME_BYTES(16)];
    uint8_t low_reply[RIG_FRAME_BYTES(16)], high_reply[RIG_FRAME_BYTES(16)], *group = high_reply + 4 + 8 * (k - 1);
    make_data(data, n, (uint8_t)k);
    size_t length = plain_frame(n, command, data, frame);
    make_state(low, n, 0x15555 & ~(1u << (k - 1)), 0x06666);
    make_state(high, n, 0x15555 | 1u << (k - 1), 0x06666);
    memset(low_reply, 0xAA, sizeof low_reply);
    memset(high_reply, 0xAA, sizeof high_reply);
    struct rig_heard at_low = rig_chain(n, frame, length, low, RIG_STATE_BYTES(n), low_reply, sizeof low_reply);
    struct rig_heard at_high = rig_chain(n, frame, length, high, RIG_STATE_BYTES(n), high_reply, sizeof high_reply);
    EXPECT(at_low.number == 0 && at_high.number == 0 && at_low.word == at_high.word, "number and word", command->code, k);
    if (command->code == RIG_RDCFGA) {
        const uint8_t *low_group = low_reply + 4 + 8 * (k - 1);
        EXPECT(plain_mark(group) == RIG_MARK_READ && plain_mark(low_group) == RIG_MARK_READ, "both check words are right", n, k);
        EXPECT((low_group[0] & 2) == 0 && group[0] == (low_group[0] ^ 2), "the pin shows in its bit", n, k);
        group[0] ^= 2;
        memcpy(group + 6, low_group + 6, 2);
    }
    EXPECT(memcmp(low_reply, high_reply, sizeof low_reply) == 0, "the rest of the reply", command->code, k);
    EXPECT(low[RIG_PIN_PLACE(k)] == 0 && high[RIG_PIN_PLACE(k)] == 1, "the pin itself", command->code, k);
    high[RIG_PIN_PLACE(k)] = 0;
    EXPECT(memcmp(low, high, RIG_STATE_BYTES(n)) == 0, "the rest of the state", command->code, k);
}

void test_pin_change(void) {
    for (size_t c = 0; c < 3; c++) {
        for (uint32_t k = 1; k <= chains[c]; k++) {
            for (size_t i = 0; i < COMMANDS; i++) {
                one_pin_change(chains[c], k, command_at(i));
            }
        }
    }
}
