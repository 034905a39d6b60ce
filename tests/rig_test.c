/* rig_test.c: every entry of librig.a or of rig.c, called from C: the numbers of the paper, each refusal in its order with lengths off
 * by one both ways, guard bytes around every lent buffer, and the stack that each entry uses. The chain is in chain_test.c, the log in
 * log_test.c. */
#include "chain_test.h"
#include "lent.h"
#include "log_test.h"
#include "plain.h"
#include "stack.h"

#include <stdio.h>
#include <string.h>

enum { STACK_LIMIT = 2048 };

/* ---- the check word ---- */

static void test_pec(void) {
    static const struct { uint8_t bytes[6]; size_t length; uint16_t word; } printed[] = {
        {{0}, 0, 0x0020}, {{0x00}, 1, 0x2000}, {{0x01}, 1, 0xAB32}, {{0x20}, 1, 0x965C}, {{0x00, 0x00}, 2, 0xB65C},
        {{0x00, 0x01}, 2, 0x3D6E}, {{0x00, 0x02}, 2, 0x2B0A}, {{0x00, 0x04}, 2, 0x07C2}, {{0x07, 0x11}, 2, 0xC9C0},
        {{0}, 6, 0xC212},
    };
    struct lent lent;
    EXPECT(rig_pec(NULL, 0) == 0x0020, "word of nothing at NULL", 0, 0);
    for (size_t i = 0; i < sizeof printed / sizeof *printed; i++) {
        EXPECT(rig_pec(printed[i].bytes, printed[i].length) == printed[i].word, "word of the paper", i, printed[i].word);
    }
    for (size_t length = 0; length <= ROOM; length++) {
        uint8_t *bytes = lend(&lent, length);
        EXPECT(rig_pec(bytes, length) == plain_word(bytes, length), "word", length, 0);
        EXPECT(kept(&lent, 0), "bytes are only read", length, 0);
    }
}

/* ---- the writer ---- */

static void one_write(uint32_t n, uint32_t code, size_t data_len, size_t out_len) {
    struct lent data, out;
    uint8_t frame[RIG_FRAME_BYTES(16)];
    const struct command *command = command_of(code);
    uint8_t number = plain_writer_number(n, command, data_len, out_len);
    uint8_t *from = lend(&data, data_len), *to = lend(&out, out_len);
    struct rig_written got = rig_write(n, code, from, data_len, to, out_len);
    size_t length = number == RIG_DONE ? plain_frame(n, command, from, frame) : 0;
    EXPECT(got.number == number, "writer's number", n, code);
    EXPECT(got.length == length, "writer's length", n, code);
    EXPECT(memcmp(to, frame, length) == 0, "writer's frame", n, code);
    EXPECT(kept(&out, length) && kept(&data, 0), "writer keeps what lies past the frame", n, code);
}

static void test_write(void) {
    static const uint8_t zeros[6] = {0}, cfga[12] = {0x00, 0x01, 0x3D, 0x6E, 0, 0, 0, 0, 0, 0, 0xC2, 0x12};
    uint8_t out[RIG_FRAME_BYTES(16)], sixteen[96] = {0};
    struct rig_written got = rig_write(1, RIG_WRCFGA, zeros, 6, out, sizeof out);
    EXPECT(got.number == 0 && got.length == 12 && memcmp(out, cfga, 12) == 0, "write of CFGA, six zeros", 1, 0);
    EXPECT(rig_write(16, RIG_WRCFGA, sixteen, 96, out, 132).length == 132, "132 bytes for 16 devices", 16, 132);
    EXPECT(rig_write(16, RIG_WRCFGA, sixteen, 96, out, 131).number == 5, "an output of 131", 16, 131);
    EXPECT(rig_write(0, 0xFFFF, sixteen, 1, NULL, 0).number == 1, "1 comes first", 0, 0);
    EXPECT(rig_write(1, RIG_RDCVA, NULL, 0, out, 12).number == 0, "a read with no data at NULL", 1, 0);
    for (uint32_t n = 0; n <= 17; n++) {
        for (size_t i = 0; i < 26; i++) {
            for (int step = 0; step < 9; step++) {
                one_write(n, commands[i].code, near(plain_data_length(n, &commands[i]), step % 3 - 1),
                          near(plain_frame_length(n, &commands[i]), step / 3 - 1));
            }
            one_write(n, commands[i].code, plain_data_length(n, &commands[i]), 0);
            one_write(n + (1u << 16), commands[i].code, plain_data_length(n, &commands[i]), ROOM);
        }
        one_write(n, 0x003, 0, ROOM);
        one_write(n, 0x003, 7, 0);
    }
}

/* Every code of 16 bits, and above: the 26 and the conversions are known, and no other. */
static void test_codes(void) {
    static const unsigned groups[RIG_GROUPS] = {
        RIG_GROUP_CFGA, RIG_GROUP_CFGB, RIG_GROUP_CVA,   RIG_GROUP_CVB,   RIG_GROUP_CVC,  RIG_GROUP_CVD,
        RIG_GROUP_CVE,  RIG_GROUP_CVF,  RIG_GROUP_AUXA,  RIG_GROUP_AUXB,  RIG_GROUP_AUXC, RIG_GROUP_AUXD,
        RIG_GROUP_STATA, RIG_GROUP_STATB, RIG_GROUP_COMM, RIG_GROUP_SCTRL, RIG_GROUP_PWM, RIG_GROUP_PSB,
    };
    uint8_t out[12], six[6] = {0};
    for (uint32_t code = 0; code < 1u << 17; code++) {
        const struct command *command = command_of(code);
        size_t data = command != NULL ? plain_data_length(1, command) : 0;
        uint8_t number = rig_write(1, code, six, data, out, sizeof out).number;
        EXPECT(number == (command != NULL ? RIG_DONE : RIG_UNKNOWN_COMMAND), "known codes", code, number);
    }
    for (unsigned g = 0; g < RIG_GROUPS; g++) {
        unsigned reads = 0, writes = 0;
        EXPECT(groups[g] == g, "groups in the order of the paper", g, groups[g]);
        for (size_t i = 0; i < 26; i++) {
            reads += commands[i].group == g && commands[i].kind == READS;
            writes += commands[i].group == g && commands[i].kind == WRITES;
        }
        EXPECT(reads == 1 && writes == (g < 2 || g > 13), "each group has a read; 0, 1 and 14 to 17 a write", g, writes);
    }
}

/* ---- conversion codes ---- */

/* A command, its mode, discharge, pull-up and choice; the number. */
static uint8_t one_conversion_code(const uint32_t f[5]) {
    struct rig_code got = rig_conversion_code(f[0], f[1], f[2], f[3], f[4]);
    struct rig_code then = plain_code(f[0], f[1], f[2], f[3], f[4]);
    EXPECT(got.number == then.number, "number of a conversion's code", f[0], f[4]);
    EXPECT(got.code == then.code, "a conversion's code", f[0], f[4]);
    return got.number;
}

/* A code is taken apart as the plain answer has it, and built again from its fields; whether it is a conversion's. */
static unsigned one_conversion_of(uint32_t code) {
    struct rig_conversion got = rig_conversion_of(code);
    EXPECT(same_conversion(got, plain_conversion(code)), "a code taken apart", code, got.number);
    if (got.number != RIG_DONE) {
        return 0;
    }
    struct rig_code back = rig_conversion_code(got.command, got.mode, got.discharge, got.pull_up, got.choice);
    EXPECT(back.number == RIG_DONE && back.code == code, "a code built again", code, back.code);
    return 1;
}

/* The paper's two formulas. */
static void conversion_formulas(void) {
    for (uint32_t mode = 0; mode < 4; mode++) {
        for (uint32_t choice = 0; choice < 7; choice++) {
            for (uint32_t discharge = 0; discharge < 2; discharge++) {
                struct rig_code adcv = rig_conversion_code(RIG_CONVERT_ADCV, mode, discharge, 0, choice);
                EXPECT(adcv.code == 0x260 + 0x80 * mode + 0x10 * discharge + choice, "code of ADCV", mode, choice);
            }
            struct rig_code adax = rig_conversion_code(RIG_CONVERT_ADAX, mode, 0, 0, choice);
            EXPECT(adax.code == 0x460 + 0x80 * mode + choice, "code of ADAX", mode, choice);
        }
    }
}

/* Every command and field up to two past the highest; where they are lawful, also with a bit that would be lost if one were cut down. */
static void conversion_fields(void) {
    for (uint32_t i = 0; i < 15 * 6 * 4 * 4 * 9; i++) {
        uint32_t f[5] = {i / (6 * 4 * 4 * 9), i / (4 * 4 * 9) % 6, i / (4 * 9) % 4, i / 9 % 4, i % 9};
        if (one_conversion_code(f) != RIG_DONE) {
            continue;
        }
        for (unsigned k = 0; k < 5 * 4; k++) {
            uint32_t more = (uint32_t)1 << (8 + 7 * (k % 4));
            f[k / 4] += more;
            EXPECT(one_conversion_code(f) == RIG_OUT_OF_RANGE, "a wide field", k / 4, f[k / 4]);
            f[k / 4] -= more;
        }
    }
}

static void test_conversions(void) {
    static const uint32_t near_codes[] = {0x267, 0x407, 0x40F, 0x207, 0x22F, 0x26F, 0x46D, 0x46E, 0x417, 0x457, 0x018,
                                          0x019, 0x028, 0x029, 0x713, 0x714, 0x715, 0x723, 0x000, RIG_CLRCELL, RIG_RDCVA};
    unsigned known = 0;
    for (uint32_t code = 0; code < 1u << 17; code++) {
        known += one_conversion_of(code);
        known += one_conversion_of(4294967295u - code);
    }
    EXPECT(known == 368, "368 codes are conversions", known, 368);
    for (size_t i = 0; i < sizeof near_codes / sizeof *near_codes; i++) {
        EXPECT(rig_conversion_of(near_codes[i]).number == 2, "a code that is near a conversion's", near_codes[i], 0);
    }
    EXPECT(rig_conversion_of(0x467).command == RIG_CONVERT_ADCVSC && rig_conversion_of(0x46F).command == RIG_CONVERT_ADCVAX, "467 and 46F", 0, 0);
    conversion_formulas();
    conversion_fields();
}

/* ---- the reader ---- */

static void one_read(uint32_t n, uint32_t code, const uint8_t *reply, size_t reply_len, size_t data_len, size_t marks_len) {
    struct lent data, marks;
    uint8_t *lent_data = lend(&data, data_len), *lent_marks = lend(&marks, marks_len);
    uint8_t number = plain_reader_number(n, command_of(code), reply_len, data_len, marks_len);
    static const uint8_t zeros[6] = {0};
    EXPECT(rig_read(n, code, reply, reply_len, lent_data, data_len, lent_marks, marks_len) == number, "reader's number", n, code);
    for (uint32_t k = 0; number == RIG_DONE && k < n; k++) {
        const uint8_t *group = reply + 4 + 8 * k;
        uint8_t mark = plain_mark(group);
        EXPECT(lent_marks[k] == mark, "reader's mark", n, k);
        EXPECT(memcmp(lent_data + 6 * k, mark == RIG_MARK_READ ? group : zeros, 6) == 0, "reader's bytes", n, k);
    }
    EXPECT(kept(&data, number == RIG_DONE ? RIG_DATA_BYTES(n) : 0), "reader keeps what lies past the bytes", n, code);
    EXPECT(kept(&marks, number == RIG_DONE ? n : 0), "reader keeps what lies past the marks", n, code);
}

/* A reply whose groups are in turn right, wrong in the closing bit, silent, and silent but for one bit. */
static void make_reply(uint8_t *reply, uint32_t from) {
    memset(reply, 0xFF, RIG_FRAME_BYTES(17));
    for (uint32_t k = 0; k < 17; k++) {
        uint8_t *group = reply + 4 + 8 * k, six[6] = {(uint8_t)k, 0xFF, 0x10, 0xA4, 0x00, (uint8_t)from};
        if ((k + from) % 4 < 2) {
            plain_group(six, 6, group);
            group[7] ^= (uint8_t)((k + from) % 4);
        } else if ((k + from) % 4 == 3) {
            group[7] = 0xFE;
        }
    }
}

static void test_read(void) {
    uint8_t reply[RIG_FRAME_BYTES(17)];
    for (uint32_t n = 0; n <= 17; n++) {
        size_t length = RIG_FRAME_BYTES(n), data = RIG_DATA_BYTES(n);
        for (size_t i = 0; i < 26; i++) {
            make_reply(reply, (uint32_t)i);
            for (int step = 0; step < 27; step++) {
                one_read(n, commands[i].code, reply, near(length, step % 3 - 1) > sizeof reply ? sizeof reply : near(length, step % 3 - 1),
                         near(data, step / 3 % 3 - 1), near(n, step / 9 - 1));
            }
        }
        one_read(n, 0x003, reply, 3, 0, 0);
        one_read(n + (1u << 16), RIG_RDCVA, reply, length, data, n);
        one_read(n, RIG_RDCVA + (1u << 16), reply, length, data, n);
    }
}

/* Of three groups the middle one is silent but for one byte, which takes every value at every place: it is silent with 0xFF alone, by
   its own mark and beside plain.c. */
static void test_almost_silent(void) {
    uint8_t reply[RIG_FRAME_BYTES(3)], data[RIG_DATA_BYTES(3)], marks[3] = {0};
    for (size_t at = 0; at < 8; at++) {
        for (unsigned value = 0; value <= 0xFF; value++) {
            memset(reply, 0xFF, sizeof reply);
            reply[12 + at] = (uint8_t)value;
            one_read(3, RIG_RDCVA, reply, sizeof reply, sizeof data, sizeof marks);
            EXPECT(rig_read(3, RIG_RDCVA, reply, sizeof reply, data, sizeof data, marks, sizeof marks) == RIG_DONE, "reader's number", at, value);
            EXPECT((marks[1] == RIG_MARK_SILENT) == (value == 0xFF), "silence is eight bytes 0xFF", at, value);
        }
    }
}

/* ---- cells ---- */

static void one_cells(const uint8_t *groups, size_t groups_len, const uint8_t *marks, size_t marks_len) {
    struct rig_readings got = rig_cells(groups, groups_len, marks, marks_len), then = plain_readings(groups, groups_len, marks, marks_len);
    EXPECT(got.number == then.number, "number of the cells", groups_len, marks_len);
    EXPECT(got.valid == then.valid, "valid cells", got.valid, then.valid);
    EXPECT(got.unmeasured == then.unmeasured, "unmeasured cells", got.unmeasured, then.unmeasured);
    EXPECT((got.valid & got.unmeasured) == 0, "no cell is both", got.valid, got.unmeasured);
    EXPECT((got.valid | got.unmeasured) >> RIG_CELLS == 0, "no bit above 17", got.valid, got.unmeasured);
    for (size_t c = 0; c < RIG_CELLS; c++) {
        EXPECT(got.counts[c] == then.counts[c], "count", c, got.counts[c]);
    }
}

/* Under every row of marks 0 to 3. */
static void cells_by_marks(const uint8_t *groups) {
    for (unsigned sorts = 0; sorts < 4096; sorts++) {
        uint8_t marks[6];
        for (size_t i = 0; i < 6; i++) {
            marks[i] = (uint8_t)((sorts >> 2 * i) & 3);
        }
        one_cells(groups, 36, marks, 6);
    }
}

/* One cell with two bytes of its own, the others with one byte twice. In groups that were read 65,535 is not measured, and all else is
 * valid; then under every row of marks. */
static void one_cleared(unsigned cell, const uint8_t bytes[2], uint8_t others) {
    static const uint8_t all_read[6] = {0};
    const uint32_t bit = (uint32_t)1 << cell, rest = 0x3FFFF ^ bit;
    const uint16_t count = (uint16_t)(bytes[0] + 256 * bytes[1]);
    uint8_t groups[36];
    memset(groups, others, sizeof groups);
    memcpy(groups + 2 * cell, bytes, 2);
    struct rig_readings got = rig_cells(groups, 36, all_read, 6);
    EXPECT(got.unmeasured == ((count == 65535 ? bit : 0) | (others == 0xFF ? rest : 0)), "65,535 alone is not measured", cell, count);
    EXPECT(got.valid == (0x3FFFF ^ got.unmeasured), "all others are valid", cell, count);
    EXPECT(got.counts[cell] == (count == 65535 ? 0 : count), "count of the cell", cell, count);
    cells_by_marks(groups);
}

/* Each cell in turn at 65,535 and at counts that share one byte with it, among measured cells and among cleared ones; then every choice of
 * cells at 65,535, the others at 65,534. */
static void test_cleared(void) {
    static const uint8_t low_first[][2] = {{0xFF, 0xFF}, {0xFE, 0xFF}, {0xFF, 0xFE}, {0xFF, 0x00}, {0x00, 0xFF}, {0x0F, 0xFF}};
    static const uint8_t all_read[6] = {0}, some_read[6] = {0, 1, 0, 2, 0, 0};
    uint8_t groups[36];
    for (unsigned cell = 0; cell < RIG_CELLS; cell++) {
        for (size_t i = 0; i < sizeof low_first / sizeof *low_first; i++) {
            one_cleared(cell, low_first[i], 0x75);
            one_cleared(cell, low_first[i], 0xFF);
        }
    }
    for (uint32_t chosen = 0; chosen < (uint32_t)1 << RIG_CELLS; chosen++) {
        memset(groups, 0xFF, sizeof groups);
        for (unsigned c = 0; c < RIG_CELLS; c++) {
            groups[2 * c] = (uint8_t)(0xFE | (chosen >> c & 1));
        }
        EXPECT(rig_cells(groups, 36, all_read, 6).unmeasured == chosen, "just the cleared cells", chosen, 0);
        EXPECT(rig_cells(groups, 36, all_read, 6).valid == (chosen ^ 0x3FFFF), "all others are valid", chosen, 0);
        EXPECT(rig_cells(groups, 36, some_read, 6).unmeasured == (chosen & 0x3F1C7), "of the groups that were read", chosen, 0);
    }
}

static void test_cells(void) {
    struct lent lent;
    uint8_t *groups = lend(&lent, 37), marks[7] = {0};
    groups[0] = 0x10;
    groups[1] = 0xA4;
    groups[2] = groups[3] = 0xFF;
    EXPECT(rig_cells(groups, 36, marks, 6).counts[0] == 42000, "10 A4 is 42,000", 0, 0);
    EXPECT(rig_cells(groups, 36, marks, 6).counts[1] == 0, "65,535 is no reading", 0, 0);
    EXPECT(rig_cells(groups, 36, marks, 6).valid == 0x3FFFD, "65,535 is not valid", 0, 0);
    EXPECT(rig_cells(groups, 36, marks, 6).unmeasured == 2, "65,535 is not measured", 0, 0);
    EXPECT(rig_cells(NULL, 0, NULL, 0).number == 3, "nothing at NULL", 0, 0);
    for (int step = 0; step < 9; step++) {
        one_cells(groups, near(36, step % 3 - 1), marks, near(6, step / 3 - 1));
    }
    cells_by_marks(groups);
}

/* ---- writer, chain and reader on conversion codes ---- */

static void conversion_frames(uint32_t n, const struct command *command) {
    uint8_t frame[RIG_COMMAND_BYTES + 1] = {0}, reply[RIG_FRAME_BYTES(17)];
    memset(reply, 0xFF, sizeof reply);
    for (int step = 0; step < 9; step++) {
        one_write(n, command->code, near(0, step % 3 - 1), near(RIG_COMMAND_BYTES, step / 3 - 1));
    }
    plain_frame(n, command, NULL, frame);
    for (int step = -1; step <= 1; step++) {
        one_chain(n, frame, near(4, step), RIG_STATE_BYTES(n), 5);
        one_chain(n, frame, 4, near(RIG_STATE_BYTES(n), step), 4);
        one_chain(n, frame, 4, RIG_STATE_BYTES(n), near(4, step));
    }
    frame[3] ^= 1;
    one_chain(n, frame, 4, RIG_STATE_BYTES(n), 4);
    one_read(n, command->code, reply, RIG_FRAME_BYTES(n), RIG_DATA_BYTES(n), n);
    one_read(n, command->code, reply, RIG_COMMAND_BYTES, 0, 0);
}

static void test_conversion_frames(void) {
    static const uint8_t adcv[4] = {0x03, 0x60, 0xF4, 0x6C};
    uint8_t out[4] = {0};
    EXPECT(rig_write(16, 0x360, NULL, 0, out, 4).length == 4 && memcmp(out, adcv, 4) == 0, "ADCV, mode 2, all cells", 16, 0x360);
    for (uint32_t code = 0; code < 1u << 11; code++) {
        const struct command *command = command_of(code);
        if (command != NULL && command->kind == CONVERTS) {
            conversion_frames(0, command);
            conversion_frames(1 + code % 15, command);
            conversion_frames(16, command);
            conversion_frames(17, command);
        }
    }
}

/* ---- the tally ---- */

static int same(struct rig_tally a, struct rig_tally b) {
    return a.replies == b.replies && a.read == b.read && a.wrong == b.wrong && a.silent == b.silent;
}

/* A lent tally between two others that must stay; the marks are `length` of 0, 1, 2 in turn, the last of them `last`. */
static void one_add(struct rig_tally was, size_t length, uint8_t last, uint8_t number) {
    const struct rig_tally guard = {1, 2, 3, 4};
    struct rig_tally three[3] = {guard, was, guard}, then = was;
    uint8_t marks[17];
    for (size_t i = 0; i < 17; i++) {
        marks[i] = i + 1 == length ? last : (uint8_t)(i % 3);
        if (number == RIG_DONE && i < length) {
            *(marks[i] == 0 ? &then.read : marks[i] == 1 ? &then.wrong : &then.silent) += 1;
        }
    }
    then.replies += number == RIG_DONE;
    EXPECT(rig_tally_add(&three[1], marks, length) == number, "number of the tally", length, number);
    EXPECT(same(three[1], then), "the tally at exit", length, number);
    EXPECT(same(three[0], guard) && same(three[2], guard), "what stands beside the tally", length, number);
}

static void test_tally(void) {
    const uint32_t full = 4294967295u;
    struct rig_tally zero = {0, 0, 0, 0};
    EXPECT(rig_tally_add(&zero, NULL, 0) == 1 && zero.replies == 0, "no marks at NULL", 0, 0);
    for (size_t length = 0; length <= 17; length++) {
        uint8_t outside = length < 1 || length > 16;
        for (unsigned last = 0; last < 256; last++) {
            one_add(zero, length, (uint8_t)last, outside ? RIG_BAD_SIZE : last > 2 ? RIG_WRONG_LENGTH : RIG_DONE);
        }
    }
    for (uint32_t room = 0; room < 4; room++) {
        struct rig_tally last_reply = {full - room, 0, 0, 0}, read = {0, full - room, 0, 0};
        struct rig_tally wrong = {0, 0, full - room, 0}, silent = {0, 0, 0, full - room};
        one_add(last_reply, 6, 2, room < 1 ? RIG_TALLY_FULL : RIG_DONE);
        one_add(read, 6, 2, room < 2 ? RIG_TALLY_FULL : RIG_DONE);
        one_add(wrong, 6, 2, room < 2 ? RIG_TALLY_FULL : RIG_DONE);
        one_add(silent, 6, 2, room < 2 ? RIG_TALLY_FULL : RIG_DONE);
        one_add(read, 6, 3, RIG_WRONG_LENGTH);
    }
}

/* ---- wake ---- */

static void one_wake(uint32_t n, uint32_t last, uint32_t now, uint8_t number, uint32_t wait) {
    struct rig_wait got = rig_wake(n, last, now);
    EXPECT(got.number == number && got.wait == wait, "wake", n, now);
}

static void test_wake(void) {
    one_wake(16, 4294967000u, 4003, 0, 0);
    one_wake(16, 4294967000u, 4004, 0, 160);
    one_wake(0, 0, 5000, 1, 0);
    one_wake(17, 0, 5000, 1, 0);
    one_wake(4294967295u, 0, 5000, 1, 0);
    one_wake(65537, 0, 5000, 1, 0);
    for (uint32_t n = 1; n <= 16; n++) {
        for (uint32_t at = 0; at < 32; at++) {
            uint32_t last = at * 0x08421085u;
            one_wake(n, last, last, 0, 0);
            one_wake(n, last, last + 4299, 0, 0);
            one_wake(n, last, last + 4300, 0, 10 * n);
            one_wake(n, last, last - 1, 0, 10 * n);
        }
    }
}

/* ---- the stack that each entry uses, at its longest work ---- */

static uint8_t frame_16[RIG_FRAME_BYTES(16)], state_16[RIG_STATE_BYTES(16)], reply_16[RIG_FRAME_BYTES(16)];
static uint8_t write_cfga_16[RIG_FRAME_BYTES(16)], read_cfga_16[RIG_FRAME_BYTES(16)];
static uint8_t data_16[RIG_DATA_BYTES(16)], marks_16[16], cells_36[36], log_136[136];
static struct rig_tally tally_16;
static uint32_t sink;

static void pec_job(void) { sink += rig_pec(state_16, sizeof state_16); }
static void write_job(void) { sink += rig_write(16, RIG_WRPSB, data_16, 96, frame_16, 132).number; }
static void chain_write_job(void) { sink += rig_chain(16, frame_16, 132, state_16, sizeof state_16, reply_16, 132).word; }
static void read_frame_job(void) { sink += rig_write(16, RIG_RDPSB, NULL, 0, frame_16, 132).number; }
static void chain_read_job(void) { sink += rig_chain(16, frame_16, 132, state_16, sizeof state_16, reply_16, 132).number; }
static void read_job(void) { sink += rig_read(16, RIG_RDPSB, reply_16, 132, data_16, 96, marks_16, 16); }
static void write_cfga_job(void) { sink += rig_chain(16, write_cfga_16, 132, state_16, sizeof state_16, reply_16, 132).word; }
static void read_cfga_job(void) { sink += rig_chain(16, read_cfga_16, 132, state_16, sizeof state_16, reply_16, 132).number; }
static void cells_job(void) { sink += rig_cells(cells_36, 36, marks_16, 6).valid; }
static void tally_job(void) { sink += rig_tally_add(&tally_16, marks_16, 16); }
static void wake_job(void) { sink += rig_wake(16, 0, 4300).wait; }
static void code_job(void) { sink += rig_conversion_code(RIG_CONVERT_ADCVSC, 3, 1, 0, 0).code; }
static void conversion_job(void) { sink += rig_conversion_of(0x5F7).mode; }
static void log_put_job(void) { sink += rig_log_put(RIG_LOG_FRAME, frame_16, 132, log_136, 136).number; }
static void log_at_job(void) { sink += rig_log_at(log_136, 136, 0).kind; }
static void log_walk_job(void) { sink += rig_log_walk(log_136, 136).number; }

/* Of all codes those that may be a conversion's go deepest, and of these not the same one in every build. */
static uint32_t code_now;
static uint8_t code_frame[RIG_COMMAND_BYTES];
static void write_code_job(void) { sink += rig_write(16, code_now, NULL, 0, frame_16, 132).number; }
static void chain_code_job(void) { sink += rig_chain(16, code_frame, 4, state_16, sizeof state_16, reply_16, 132).word; }
static void read_code_job(void) { sink += rig_read(16, code_now, reply_16, 132, data_16, 96, marks_16, 16); }

static size_t most_of_codes(void (*job)(void)) {
    size_t most = 0;
    for (code_now = 0x200; code_now < 0x700; code_now += 7) {
        code_frame[0] = (uint8_t)(code_now >> 8), code_frame[1] = (uint8_t)code_now;
        uint16_t word = rig_pec(code_frame, 2);
        code_frame[2] = (uint8_t)(word >> 8), code_frame[3] = (uint8_t)word;
        size_t used = stack_of(job);
        most = used > most ? used : most;
    }
    return most;
}

static void hold_stack(const char *name, size_t used) {
    printf("   stack of %-19s %5zu bytes\n", name, used);
    EXPECT(used < STACK_LIMIT, "stack under 2 KB", used, STACK_LIMIT);
}

static void test_stack(void) {
    static const struct { const char *name; void (*job)(void); } jobs[] = {
        {"rig_pec", pec_job}, {"rig_write (write)", write_job}, {"rig_chain (write)", chain_write_job},
        {"rig_write (read)", read_frame_job}, {"rig_chain (read)", chain_read_job}, {"rig_read", read_job},
        {"rig_chain (WRCFGA)", write_cfga_job}, {"rig_chain (RDCFGA)", read_cfga_job},
        {"rig_cells", cells_job}, {"rig_tally_add", tally_job}, {"rig_wake", wake_job},
        {"rig_conversion_code", code_job}, {"rig_conversion_of", conversion_job},
        {"rig_log_put", log_put_job}, {"rig_log_at", log_at_job}, {"rig_log_walk", log_walk_job},
    };
    plain_frame(16, command_of(RIG_WRCFGA), data_16, write_cfga_16);
    plain_frame(16, command_of(RIG_RDCFGA), NULL, read_cfga_16);
    for (size_t i = 0; i < sizeof jobs / sizeof *jobs; i++) {
        hold_stack(jobs[i].name, stack_of(jobs[i].job));
    }
    hold_stack("rig_write (codes)", most_of_codes(write_code_job));
    hold_stack("rig_chain (codes)", most_of_codes(chain_code_job));
    hold_stack("rig_read (codes)", most_of_codes(read_code_job));
    EXPECT(tally_16.replies == 2 && tally_16.read == 32, "the jobs did their work", tally_16.replies, tally_16.read);
}

/* --no-stack leaves out the stack, for builds whose frames are padded by a sanitizer. */
int main(int count, char **words) {
    int no_stack = count == 2 && strcmp(words[1], "--no-stack") == 0;
    static const struct { const char *name; void (*test)(void); } tests[] = {
        {"rig_pec", test_pec}, {"rig_write", test_write}, {"the known codes", test_codes}, {"conversion codes", test_conversions},
        {"rig_chain", test_chain}, {"places in the state", test_places}, {"values of a pin", test_pin_values},
        {"groups written", test_written}, {"pins stay", test_pins_stay}, {"a pin changed", test_pin_change},
        {"rig_read", test_read}, {"almost silent", test_almost_silent}, {"conversion frames", test_conversion_frames},
        {"rig_cells", test_cells}, {"cleared cells", test_cleared}, {"rig_tally_add", test_tally}, {"rig_wake", test_wake}, {"rig_log_put", test_log_put}, {"rig_log_at", test_log_at},
        {"cuts of a log", test_log_cuts}, {"flips of a log", test_log_flips}, {"random logs", test_log_random}, {"stack", test_stack},
    };
    if (count > 1 && !no_stack) {
        fprintf(stderr, "%s: %s: the only argument that it takes is --no-stack\n", words[0], words[1]);
        return 2;
    }
    for (size_t i = 0; i < sizeof tests / sizeof *tests - (no_stack ? 1 : 0); i++) {
        unsigned long before = checks;
        tests[i].test();
        printf("   %-19s %8lu checks\n", tests[i].name, checks - before);
    }
    printf("rig_test: %lu checks, %lu failed\n", checks, failures);
    return failures > 0;
}
