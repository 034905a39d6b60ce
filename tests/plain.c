/* plain.c: plain answers for the C tests; see plain.h. */
#include "plain.h"

#include <stdio.h>
#include <string.h>

unsigned long checks, failures;

void expect(int holds, const char *what, unsigned long a, unsigned long b, const char *file, int line) {
    checks++;
    if (!holds) {
        failures++;
        fprintf(stderr, "%s:%d: %s does not hold (case %lu, %lu)\n", file, line, what, a, b);
    }
}

const struct command commands[26] = {
    {RIG_WRCFGA, WRITES, RIG_GROUP_CFGA, 0},   {RIG_RDCFGA, READS, RIG_GROUP_CFGA, 0},
    {RIG_WRCFGB, WRITES, RIG_GROUP_CFGB, 0},   {RIG_RDCFGB, READS, RIG_GROUP_CFGB, 0},
    {RIG_RDCVA, READS, RIG_GROUP_CVA, 0},      {RIG_RDCVB, READS, RIG_GROUP_CVB, 0},
    {RIG_RDCVC, READS, RIG_GROUP_CVC, 0},      {RIG_RDCVD, READS, RIG_GROUP_CVD, 0},
    {RIG_RDCVE, READS, RIG_GROUP_CVE, 0},      {RIG_RDCVF, READS, RIG_GROUP_CVF, 0},
    {RIG_RDAUXA, READS, RIG_GROUP_AUXA, 0},    {RIG_RDAUXB, READS, RIG_GROUP_AUXB, 0},
    {RIG_RDAUXC, READS, RIG_GROUP_AUXC, 0},    {RIG_RDAUXD, READS, RIG_GROUP_AUXD, 0},
    {RIG_RDSTATA, READS, RIG_GROUP_STATA, 0},  {RIG_RDSTATB, READS, RIG_GROUP_STATB, 0},
    {RIG_WRCOMM, WRITES, RIG_GROUP_COMM, 0},   {RIG_RDCOMM, READS, RIG_GROUP_COMM, 0},
    {RIG_WRSCTRL, WRITES, RIG_GROUP_SCTRL, 0}, {RIG_RDSCTRL, READS, RIG_GROUP_SCTRL, 0},
    {RIG_WRPWM, WRITES, RIG_GROUP_PWM, 0},     {RIG_RDPWM, READS, RIG_GROUP_PWM, 0},
    {RIG_WRPSB, WRITES, RIG_GROUP_PSB, 0},     {RIG_RDPSB, READS, RIG_GROUP_PSB, 0},
    {RIG_CLRCELL, CLEARS, RIG_GROUP_CVA, RIG_GROUP_CVF},
    {RIG_CLRAUX, CLEARS, RIG_GROUP_AUXA, RIG_GROUP_AUXD},
};

/* The conversion commands as 002 has them: the bits of the code that are set in all of a command's codes, those of each field,
 * and the ends of the choice. */
static const struct conversion {
    uint32_t set, mode, discharge, pull_up, choice, least, most;
} conversions[13] = {
    [RIG_CONVERT_ADCV] = {0x260, 0x180, 0x010, 0, 0x007, 0, 6},    [RIG_CONVERT_ADOW] = {0x228, 0x180, 0x010, 0x040, 0x007, 0, 6},
    [RIG_CONVERT_CVST] = {0x207, 0x180, 0, 0, 0x060, 1, 2},        [RIG_CONVERT_ADOL] = {0x201, 0x180, 0x010, 0, 0, 0, 0},
    [RIG_CONVERT_ADAX] = {0x460, 0x180, 0, 0, 0x007, 0, 6},        [RIG_CONVERT_ADAXD] = {0x400, 0x180, 0, 0, 0x007, 0, 6},
    [RIG_CONVERT_AXOW] = {0x410, 0x180, 0, 0x040, 0x007, 0, 6},    [RIG_CONVERT_AXST] = {0x407, 0x180, 0, 0, 0x060, 1, 2},
    [RIG_CONVERT_ADSTAT] = {0x468, 0x180, 0, 0, 0x007, 0, 4},      [RIG_CONVERT_ADSTATD] = {0x408, 0x180, 0, 0, 0x007, 0, 4},
    [RIG_CONVERT_STATST] = {0x40F, 0x180, 0, 0, 0x060, 1, 2},      [RIG_CONVERT_ADCVAX] = {0x46F, 0x180, 0x010, 0, 0, 0, 0},
    [RIG_CONVERT_ADCVSC] = {0x467, 0x180, 0x010, 0, 0, 0, 0},
};

/* The value of the field whose bits are `bits`; 0 where there are none. */
static uint32_t field(uint32_t code, uint32_t bits) { return bits == 0 ? 0 : (code & bits) / (bits & (0 - bits)); }

struct rig_conversion plain_conversion(uint32_t code) {
    struct rig_conversion none = {RIG_UNKNOWN_COMMAND, 0, 0, 0, 0, 0};
    for (uint32_t i = 0; i < 13; i++) {
        const struct conversion *c = &conversions[i];
        uint32_t choice = field(code, c->choice);
        if ((code & ~(c->mode | c->discharge | c->pull_up | c->choice)) == c->set && choice >= c->least && choice <= c->most) {
            struct rig_conversion found = {RIG_DONE, i, field(code, c->mode), field(code, c->discharge), field(code, c->pull_up), choice};
            return found;
        }
    }
    return none;
}

int same_conversion(struct rig_conversion a, struct rig_conversion b) {
    return a.number == b.number && a.command == b.command && a.mode == b.mode && a.discharge == b.discharge &&
           a.pull_up == b.pull_up && a.choice == b.choice;
}

/* The code that is taken apart into these fields, looked for among all conversion codes, which are found once. */
struct rig_code plain_code(uint32_t command, uint32_t mode, uint32_t discharge, uint32_t pull_up, uint32_t choice) {
    static struct rig_conversion fields[1u << 11];
    static uint16_t codes[1u << 11];
    static size_t count;
    struct rig_conversion wanted = {RIG_DONE, command, mode, discharge, pull_up, choice};
    struct rig_code found = {RIG_OUT_OF_RANGE, 0};
    if (count == 0) {
        for (uint16_t code = 0; code < 1u << 11; code++) {
            fields[count] = plain_conversion(code);
            codes[count] = code;
            count += fields[count].number == RIG_DONE;
        }
    }
    for (size_t i = 0; i < count; i++) {
        if (same_conversion(fields[i], wanted)) {
            found.number = RIG_DONE;
            found.code = codes[i];
        }
    }
    return found;
}

const struct command *command_of(uint32_t code) {
    static struct command conversion[1u << 11];
    for (size_t i = 0; i < 26; i++) {
        if (commands[i].code == code) {
            return &commands[i];
        }
    }
    if (plain_conversion(code).number != RIG_DONE) {
        return NULL;
    }
    conversion[code].code = code;
    conversion[code].kind = CONVERTS;
    return &conversion[code];
}

uint16_t plain_word(const uint8_t *bytes, size_t length) {
    unsigned remainder = 16;
    for (size_t i = 0; i < length; i++) {
        for (int place = 7; place >= 0; place--) {
            unsigned out = (remainder >> 14) ^ ((bytes[i] >> place) & 1u);
            remainder = (remainder << 1) & 0x7FFF;
            if (out) {
                remainder ^= 0x4599;
            }
        }
    }
    return (uint16_t)(remainder * 2);
}

void plain_group(const uint8_t *bytes, size_t length, uint8_t *group) {
    uint16_t word = plain_word(bytes, length);
    memcpy(group, bytes, length);
    group[length] = (uint8_t)(word >> 8);
    group[length + 1] = (uint8_t)word;
}

size_t plain_data_length(uint32_t n, const struct command *command) {
    return command->kind == WRITES ? RIG_DATA_BYTES(n) : 0;
}

size_t plain_frame_length(uint32_t n, const struct command *command) {
    return command->kind == WRITES || command->kind == READS ? RIG_FRAME_BYTES(n) : RIG_COMMAND_BYTES;
}

size_t plain_frame(uint32_t n, const struct command *command, const uint8_t *data, uint8_t *frame) {
    uint8_t code[2] = {(uint8_t)(command->code >> 8), (uint8_t)command->code};
    size_t length = plain_frame_length(n, command);
    memset(frame, 0xFF, length);
    plain_group(code, 2, frame);
    if (command->kind == WRITES) {
        for (uint32_t k = 1; k <= n; k++) {
            plain_group(data + 6 * (k - 1), 6, frame + 4 + 8 * (n - k));
        }
    }
    return length;
}

uint8_t plain_mark(const uint8_t *group) {
    static const uint8_t silence[8] = {0xFF, 0xFF, 0xFF, 0xFF, 0xFF, 0xFF, 0xFF, 0xFF};
    if (memcmp(group, silence, 8) == 0) {
        return RIG_MARK_SILENT;
    }
    return ((unsigned)group[6] << 8 | group[7]) == plain_word(group, 6) ? RIG_MARK_READ : RIG_MARK_WRONG;
}

/* A device's group as a read shows it: in CFGA, bit 1 of the first byte is the pin. */
static void plain_shown(const uint8_t *device, unsigned group, uint8_t six[6]) {
    memcpy(six, device + 6 * group, 6);
    if (group == RIG_GROUP_CFGA) {
        six[0] = (uint8_t)((six[0] & 0xFD) + 2 * device[108]);
    }
}

/* In CFGA, bit 1 of the first byte stays as it is stored. */
static void plain_store(uint8_t *device, unsigned group, const uint8_t *six) {
    uint8_t stored = device[0] & 0x02;
    memcpy(device + 6 * group, six, 6);
    if (group == RIG_GROUP_CFGA) {
        device[0] = (uint8_t)((six[0] & 0xFD) + stored);
    }
}

uint16_t plain_obey(uint32_t n, const struct command *command, const uint8_t *frame, uint8_t *state, uint8_t *reply) {
    uint16_t word = 0;
    for (uint32_t k = 0; k < n; k++) {
        uint8_t *device = state + RIG_STATE_BYTES(k);
        const uint8_t *sent = frame + 4 + 8 * (n - 1 - k);
        if (command->kind == READS) {
            uint8_t six[6];
            plain_shown(device, command->group, six);
            plain_group(six, 6, reply + 4 + 8 * k);
        } else if (command->kind == CLEARS) {
            memset(device + 6 * command->group, 0xFF, 6 * (command->last - command->group + 1));
            word |= (uint16_t)(1u << k);
        } else if (command->kind == CONVERTS) {
            word |= (uint16_t)(1u << k);
        } else if (plain_mark(sent) == RIG_MARK_READ) {
            plain_store(device, command->group, sent);
            word |= (uint16_t)(1u << k);
        }
    }
    return word;
}

struct rig_readings plain_readings(const uint8_t *groups, size_t groups_len, const uint8_t *marks, size_t marks_len) {
    struct rig_readings none = {RIG_WRONG_LENGTH, {0}, 0, 0}, all = {RIG_DONE, {0}, 0, 0};
    if (groups_len != 36 || marks_len != 6) {
        return none;
    }
    for (unsigned c = 0; c < RIG_CELLS; c++) {
        uint16_t count = (uint16_t)(groups[2 * c] + 256 * groups[2 * c + 1]);
        if (marks[c / 3] > RIG_MARK_SILENT) {
            return none;
        }
        if (marks[c / 3] == RIG_MARK_READ && count == 65535) {
            all.unmeasured += (uint32_t)1 << c;
        } else if (marks[c / 3] == RIG_MARK_READ) {
            all.valid += (uint32_t)1 << c;
            all.counts[c] = count;
        }
    }
    return all;
}

uint8_t plain_writer_number(uint32_t n, const struct command *command, size_t data, size_t out) {
    if (n < 1 || n > 16) {
        return RIG_BAD_SIZE;
    }
    if (command == NULL) {
        return RIG_UNKNOWN_COMMAND;
    }
    if (data != plain_data_length(n, command)) {
        return RIG_WRONG_LENGTH;
    }
    return out < plain_frame_length(n, command) ? RIG_OUTPUT_SHORT : RIG_DONE;
}

uint8_t plain_chain_number(uint32_t n, const uint8_t *frame, size_t length, const uint8_t *state, size_t state_len, size_t reply) {
    if (n < 1 || n > 16) {
        return RIG_BAD_SIZE;
    }
    if (state_len != RIG_STATE_BYTES(n)) {
        return RIG_WRONG_LENGTH;
    }
    for (uint32_t k = 1; k <= n; k++) {
        if (state[RIG_PIN_PLACE(k)] > 1) {
            return RIG_WRONG_LENGTH;
        }
    }
    if (reply < length) {
        return RIG_OUTPUT_SHORT;
    }
    if (length < 4) {
        return RIG_FRAME_LENGTH;
    }
    if (((unsigned)frame[2] << 8 | frame[3]) != plain_word(frame, 2)) {
        return RIG_COMMAND_PEC;
    }
    const struct command *command = command_of((uint32_t)frame[0] << 8 | frame[1]);
    if (command == NULL) {
        return RIG_UNKNOWN_COMMAND;
    }
    return length != plain_frame_length(n, command) ? RIG_FRAME_LENGTH : RIG_DONE;
}

uint8_t plain_reader_number(uint32_t n, const struct command *command, size_t reply, size_t data, size_t marks) {
    if (n < 1 || n > 16) {
        return RIG_BAD_SIZE;
    }
    if (command == NULL) {
        return RIG_UNKNOWN_COMMAND;
    }
    if (command->kind != READS) {
        return RIG_NO_READ;
    }
    if (reply != RIG_FRAME_BYTES(n)) {
        return RIG_WRONG_LENGTH;
    }
    return data < RIG_DATA_BYTES(n) || marks < n ? RIG_OUTPUT_SHORT : RIG_DONE;
}

/* ---- the log ---- */

static int plain_within(uint32_t kind, const uint8_t *body, size_t length) {
    switch (kind) {
    case 1:
        return length == 1 && body[0] >= 1 && body[0] <= 16;
    case 2:
    case 3:
        return length <= 132;
    case 4:
        return length <= 200;
    default:
        return 0;
    }
}

uint8_t plain_put_number(uint32_t kind, const uint8_t *body, size_t body_len, size_t out) {
    if (!plain_within(kind, body, body_len)) {
        return RIG_LOG_LIMITS;
    }
    return out < 4 + body_len ? RIG_OUTPUT_SHORT : RIG_DONE;
}

size_t plain_put(uint32_t kind, const uint8_t *body, size_t body_len, uint8_t *out) {
    out[0] = (uint8_t)((2 + body_len) % 256);
    out[1] = (uint8_t)((2 + body_len) / 256);
    out[2] = (uint8_t)(kind % 256);
    out[3] = (uint8_t)(kind / 256);
    for (size_t i = 0; i < body_len; i++) {
        out[4 + i] = body[i];
    }
    return 4 + body_len;
}

struct rig_record plain_record(const uint8_t *log, size_t log_len, size_t place) {
    struct rig_record end = {RIG_DONE, 1, 0, 0, 0, 0}, broken = {RIG_LOG_BROKEN, 0, 0, 0, 0, 0};
    struct rig_record outside = {RIG_LOG_LIMITS, 0, 0, 0, 0, 0}, found = {RIG_DONE, 0, 0, 0, 0, 0};
    if (place == log_len) {
        return end;
    }
    if (place > log_len || log_len - place < 4) {
        return broken;
    }
    size_t length = log[place] + (size_t)256 * log[place + 1];
    if (length < 2 || log_len - place < 2 + length) {
        return broken;
    }
    found.kind = log[place + 2] + (uint32_t)256 * log[place + 3];
    found.next = place + 2 + length;
    if (found.kind >= 1 && found.kind <= 4) {
        if (!plain_within(found.kind, log + place + 4, length - 2)) {
            return outside;
        }
        found.body = place + 4;
        found.body_len = length - 2;
    }
    return found;
}

struct rig_walk plain_walk(const uint8_t *log, size_t log_len) {
    struct rig_walk walk = {RIG_DONE, 0, 0, 0, 0, 0, 0};
    struct rig_record r = plain_record(log, log_len, 0);
    while (r.number == RIG_DONE && !r.end) {
        walk.sizes += r.kind == RIG_LOG_SIZE;
        walk.frames += r.kind == RIG_LOG_FRAME;
        walk.replies += r.kind == RIG_LOG_REPLY;
        walk.notes += r.kind == RIG_LOG_NOTE;
        walk.unknown += r.kind == 0 || r.kind > RIG_LOG_NOTE;
        walk.at = r.next;
        r = plain_record(log, log_len, walk.at);
    }
    walk.number = r.number;
    return walk;
}

int same_record(struct rig_record a, struct rig_record b) {
    return a.number == b.number && a.end == b.end && a.kind == b.kind && a.body == b.body && a.body_len == b.body_len && a.next == b.next;
}

int same_walk(struct rig_walk a, struct rig_walk b) {
    return a.number == b.number && a.at == b.at && a.sizes == b.sizes && a.frames == b.frames && a.replies == b.replies &&
           a.notes == b.notes && a.unknown == b.unknown;
}
