/* fuzz.c: a libFuzzer target over the C entries. The archive is not instrumented, so each lent buffer stands flush against
 * an inaccessible page, first at its end, then at its start: one byte read or written outside it traps. Every answer and all
 * exit contents are held to the plain ones, and those of check word, writer, chain, reader, cells, conversion codes and log to
 * second/ (with -DNO_SECOND not, for a target that Rust is not built for). The fuzzer's bytes choose the entry, sizes, lengths,
 * contents and damage.
 *
 *     make fuzz                as long as one likes
 *     make fuzz FUZZ=-runs=N   N inputs
 */
#define _DEFAULT_SOURCE
#ifndef NO_SECOND
#include "../bench/makers.h"
#endif
#include "plain.h"

#include <stdio.h>
#include <stdlib.h>
#include <string.h>
#include <sys/mman.h>
#include <unistd.h>

enum { BUFFERS = 3, ROOM = 4096 };

/* ---- lent buffers ---- */

enum side { AT_END, AT_START, SIDES };

static uint8_t *starts[BUFFERS], *ends[BUFFERS];

static void stop(const char *what) {
    fprintf(stderr, "fuzz: %s\n", what);
    abort();
}

static void hold(int holds, const char *what) {
    if (!holds) {
        stop(what);
    }
}

/* Room for each buffer between two pages that may not be touched. */
int LLVMFuzzerInitialize(int *count, char ***words);
int LLVMFuzzerInitialize(int *count, char ***words) {
    size_t page = (size_t)sysconf(_SC_PAGESIZE), room = (ROOM + page - 1) / page * page;
    (void)count;
    (void)words;
    for (size_t i = 0; i < BUFFERS; i++) {
        uint8_t *all = mmap(NULL, room + 2 * page, PROT_NONE, MAP_PRIVATE | MAP_ANONYMOUS, -1, 0);
        if (all == MAP_FAILED || mprotect(all + page, room, PROT_READ | PROT_WRITE) != 0) {
            stop("there is no memory for the lent buffers");
        }
        starts[i] = all + page;
        ends[i] = all + page + room;
    }
    return 0;
}

/* A copy of bytes in buffer i, flush against a page. */
static uint8_t *lend(size_t i, enum side side, const void *bytes, size_t length) {
    uint8_t *at = side == AT_END ? ends[i] - length : starts[i];
    if (length > 0) {
        memcpy(at, bytes, length);
    }
    return at;
}

/* Whether a lent buffer holds just these bytes. */
static int has(const uint8_t *lent, const void *bytes, size_t length) { return length == 0 || memcmp(lent, bytes, length) == 0; }

/* ---- what the fuzzer's bytes say; past their end all are 0 ---- */

struct input {
    const uint8_t *at;
    size_t left;
};

static uint8_t next(struct input *in) {
    if (in->left == 0) {
        return 0;
    }
    in->left--;
    return *in->at++;
}

static uint32_t next_word(struct input *in) {
    uint32_t word = next(in);
    for (int i = 0; i < 3; i++) {
        word = word << 8 | next(in);
    }
    return word;
}

/* Mostly a chain that there is. */
static uint32_t next_size(struct input *in) {
    uint8_t byte = next(in);
    return byte < 240 ? 1u + byte % 16 : byte < 248 ? (byte - 240u) * 17u : next_word(in);
}

/* A conversion code: the first from a place up to 0x5FF, which is the last. */
static uint32_t next_conversion(struct input *in) {
    uint32_t code = 0x200 + (next_word(in) >> 22);
    while (plain_conversion(code).number != RIG_DONE) {
        code++;
    }
    return code;
}

/* Mostly one of the 26, or a conversion. */
static uint32_t next_code(struct input *in) {
    uint8_t byte = next(in);
    return byte < 182 ? commands[byte % 26].code : byte < 234 ? next_conversion(in) : next_word(in) >> (byte % 4 * 8);
}

/* Mostly the right length, or one near it. */
static size_t next_length(struct input *in, size_t right) {
    uint8_t byte = next(in);
    size_t less = byte < 200 ? 0 : byte - 200u;
    return less < 28 ? right - (less < right ? less : right) : right + (less - 27);
}

static void next_bytes(struct input *in, uint8_t *bytes, size_t length) {
    for (size_t i = 0; i < length; i++) {
        bytes[i] = in->left > 0 ? next(in) : (uint8_t)(i * 29 + 3);
    }
}

/* Sizes above 17 lend as much as 17 would ask for. */
static size_t devices(uint32_t n) { return n < 17 ? n : 17; }

/* ---- the entries ---- */

static void fuzz_pec(struct input *in) {
    static uint8_t bytes[ROOM];
    size_t length = in->left < ROOM ? in->left : ROOM;
    next_bytes(in, bytes, length);
#ifndef NO_SECOND
    hold(second_pec(bytes, length) == plain_word(bytes, length), "second/ has another check word");
#endif
    for (enum side side = AT_END; side < SIDES; side++) {
        hold(rig_pec(lend(0, side, bytes, length), length) == plain_word(bytes, length), "the check word is another");
    }
}

static void fuzz_write(struct input *in) {
    uint8_t data[256], out[256], then[256];
    uint32_t n = next_size(in), code = next_code(in);
    const struct command *command = command_of(code);
    int writes = command != NULL && command->kind == WRITES;
    size_t data_len = next_length(in, writes ? RIG_DATA_BYTES(devices(n)) : 0);
    size_t out_len = next_length(in, RIG_FRAME_BYTES(devices(n)));
    uint8_t number = plain_writer_number(n, command, data_len, out_len);
    next_bytes(in, data, data_len);
    memset(out, next(in), sizeof out);
    memcpy(then, out, sizeof out);
    size_t length = number == RIG_DONE ? plain_frame(n, command, data, then) : 0;
#ifndef NO_SECOND
    uint8_t by_second[256];
    memcpy(by_second, out, sizeof out);
    struct rig_written second = second_write(n, code, data, data_len, by_second, out_len);
    hold(second.number == number && second.length == length && has(by_second, then, out_len), "second/ writes otherwise");
#endif
    for (enum side side = AT_END; side < SIDES; side++) {
        uint8_t *from = lend(0, side, data, data_len), *to = lend(1, side, out, out_len);
        struct rig_written got = rig_write(n, code, from, data_len, to, out_len);
        hold(got.number == number && got.length == length, "the writer's answer is another");
        hold(has(to, then, out_len), "the writer's output is another");
        hold(has(from, data, data_len), "the writer changed its data");
    }
}

/* A frame made right and then damaged, or any bytes; its length. */
static size_t next_frame(struct input *in, uint32_t n, uint8_t *frame) {
    uint8_t choice = next(in), data[RIG_DATA_BYTES(16)];
    if (choice >= 216 || n < 1 || n > 16) {
        size_t length = next(in) % 160;
        next_bytes(in, frame, length);
        return length;
    }
    const struct command *command = choice < 182 ? &commands[choice % 26] : command_of(next_conversion(in));
    size_t length, cut;
    for (size_t i = 0; i < sizeof data; i++) {
        data[i] = (uint8_t)(i * 31 + choice);
    }
    length = plain_frame(n, command, data, frame);
    for (uint8_t hits = next(in) % 4; hits > 0; hits--) {
        size_t at = next(in) % length;
        frame[at] ^= next(in);
    }
    cut = next_length(in, length);
    if (cut > length) {
        memset(frame + length, 0xFF, cut - length);
    }
    return cut;
}

/* A state, mostly with every pin 0 or 1; else one of them of any value. */
static void next_state(struct input *in, uint8_t *state, size_t length) {
    uint8_t choice = next(in), at = next(in), value = next(in);
    next_bytes(in, state, length);
    for (uint32_t k = 1; RIG_PIN_PLACE(k) < length; k++) {
        state[RIG_PIN_PLACE(k)] &= 1;
    }
    if (choice >= 224 && length >= RIG_STATE_BYTES(1)) {
        state[RIG_PIN_PLACE(1 + at % (length / RIG_STATE_BYTES(1)))] = value;
    }
}

static void fuzz_chain(struct input *in) {
    static uint8_t frame[256], state[ROOM], reply[256], state_then[ROOM], reply_then[256];
    uint32_t n = next_size(in);
    size_t frame_len = next_frame(in, n, frame);
    size_t state_len = next_length(in, RIG_STATE_BYTES(devices(n))), reply_len = next_length(in, frame_len);
    uint16_t word = 0;
    next_state(in, state, state_len);
    memset(reply, next(in), sizeof reply);
    uint8_t number = plain_chain_number(n, frame, frame_len, state, state_len, reply_len);
    memcpy(state_then, state, state_len);
    memcpy(reply_then, reply, sizeof reply);
    if (number != RIG_BAD_SIZE && number != RIG_WRONG_LENGTH && number != RIG_OUTPUT_SHORT) {
        memset(reply_then, 0xFF, frame_len);
    }
    if (number == RIG_DONE) {
        word = plain_obey(n, command_of((uint32_t)frame[0] << 8 | frame[1]), frame, state_then, reply_then);
    }
#ifndef NO_SECOND
    static uint8_t state_by_second[ROOM], reply_by_second[256];
    memcpy(state_by_second, state, state_len);
    memcpy(reply_by_second, reply, sizeof reply);
    struct rig_heard second = second_chain(n, frame, frame_len, state_by_second, state_len, reply_by_second, reply_len);
    hold(second.number == number && second.word == word, "second/ hears otherwise");
    hold(has(state_by_second, state_then, state_len) && has(reply_by_second, reply_then, reply_len), "second/ answers otherwise");
#endif
    for (enum side side = AT_END; side < SIDES; side++) {
        uint8_t *from = lend(0, side, frame, frame_len), *held = lend(1, side, state, state_len), *to = lend(2, side, reply, reply_len);
        struct rig_heard got = rig_chain(n, from, frame_len, held, state_len, to, reply_len);
        hold(got.number == number && got.word == word, "the chain's answer is another");
        hold(has(held, state_then, state_len), "the chain's state is another");
        hold(has(to, reply_then, reply_len), "the chain's reply is another");
        hold(has(from, frame, frame_len), "the chain changed the frame");
    }
}

/* A reply whose groups are each right, silent, or any eight bytes. */
static void next_reply(struct input *in, uint8_t *reply, size_t length) {
    for (size_t at = 4; at + 8 <= length; at += 8) {
        uint8_t choice = next(in), six[6];
        memset(reply + at, 0xFF, 8);
        if (choice % 4 < 2) {
            next_bytes(in, six, 6);
            plain_group(six, 6, reply + at);
        }
        if (choice % 4 > 0) {
            reply[at + (choice >> 2) % 8] ^= next(in);
        }
    }
}

static void fuzz_read(struct input *in) {
    uint8_t reply[256] = {0}, data[256], marks[128], data_then[256], marks_then[128];
    uint32_t n = next_size(in), code = next_code(in);
    size_t reply_len = next_length(in, RIG_FRAME_BYTES(devices(n)));
    size_t data_len = next_length(in, RIG_DATA_BYTES(devices(n))), marks_len = next_length(in, devices(n));
    uint8_t number = plain_reader_number(n, command_of(code), reply_len, data_len, marks_len);
    next_reply(in, reply, reply_len);
    memset(data, next(in), sizeof data);
    memset(marks, next(in), sizeof marks);
    memcpy(data_then, data, sizeof data);
    memcpy(marks_then, marks, sizeof marks);
    for (uint32_t k = 0; number == RIG_DONE && k < n; k++) {
        marks_then[k] = plain_mark(reply + 4 + 8 * k);
        memset(data_then + 6 * k, 0, 6);
        if (marks_then[k] == RIG_MARK_READ) {
            memcpy(data_then + 6 * k, reply + 4 + 8 * k, 6);
        }
    }
#ifndef NO_SECOND
    uint8_t data_by_second[256], marks_by_second[128];
    memcpy(data_by_second, data, sizeof data);
    memcpy(marks_by_second, marks, sizeof marks);
    hold(second_read(n, code, reply, reply_len, data_by_second, data_len, marks_by_second, marks_len) == number, "second/ reads otherwise");
    hold(has(data_by_second, data_then, data_len) && has(marks_by_second, marks_then, marks_len), "second/ hands out otherwise");
#endif
    for (enum side side = AT_END; side < SIDES; side++) {
        uint8_t *from = lend(0, side, reply, reply_len), *to = lend(1, side, data, data_len), *sorts = lend(2, side, marks, marks_len);
        hold(rig_read(n, code, from, reply_len, to, data_len, sorts, marks_len) == number, "the reader's number is another");
        hold(has(to, data_then, data_len), "the reader's bytes are others");
        hold(has(sorts, marks_then, marks_len), "the reader's marks are others");
        hold(has(from, reply, reply_len), "the reader changed the reply");
    }
}

static int any_above(const uint8_t *marks, size_t length) {
    for (size_t i = 0; i < length; i++) {
        if (marks[i] > RIG_MARK_SILENT) {
            return 1;
        }
    }
    return 0;
}

/* Marks, mostly lawful ones. */
static void next_marks(struct input *in, uint8_t *marks, size_t length) {
    next_bytes(in, marks, length);
    for (size_t i = 0; i < length; i++) {
        marks[i] = marks[i] < 250 ? marks[i] % 3 : marks[i];
    }
}

/* Cells, about one in four of them at 65,535 or 65,534. */
static void next_cells(struct input *in, uint8_t *groups, size_t length) {
    next_bytes(in, groups, length);
    for (size_t i = 0; i + 1 < length; i += 2) {
        uint8_t sort = next(in);
        if (sort >= 192) {
            groups[i] = sort % 4 == 0 ? 0xFE : 0xFF;
            groups[i + 1] = 0xFF;
        }
    }
}

static int same_readings(struct rig_readings a, struct rig_readings b) {
    return a.number == b.number && a.valid == b.valid && a.unmeasured == b.unmeasured && memcmp(a.counts, b.counts, sizeof a.counts) == 0;
}

static void fuzz_cells(struct input *in) {
    uint8_t groups[128], marks[128];
    size_t groups_len = next_length(in, 36), marks_len = next_length(in, 6);
    next_marks(in, marks, marks_len);
    next_cells(in, groups, groups_len);
    struct rig_readings then = plain_readings(groups, groups_len, marks, marks_len);
#ifndef NO_SECOND
    hold(same_readings(second_cells(groups, groups_len, marks, marks_len), then), "second/ has other cells");
#endif
    for (enum side side = AT_END; side < SIDES; side++) {
        uint8_t *from = lend(0, side, groups, groups_len), *sorts = lend(1, side, marks, marks_len);
        hold(same_readings(rig_cells(from, groups_len, sorts, marks_len), then), "the cells are others");
        hold(has(from, groups, groups_len) && has(sorts, marks, marks_len), "the cells changed their input");
    }
}

static void fuzz_tally(struct input *in) {
    uint8_t marks[128];
    uint64_t sums[4];
    uint32_t was[4], then[4];
    size_t length = next_length(in, 1u + next(in) % 16u);
    for (size_t i = 0; i < 4; i++) {
        uint8_t byte = next(in);
        was[i] = byte < 128 ? byte : byte < 192 ? UINT32_MAX - (byte - 128u) : next_word(in);
        sums[i] = was[i] + (uint64_t)(i == 0);
    }
    next_marks(in, marks, length);
    for (size_t i = 0; i < length; i++) {
        sums[1 + marks[i] % 3]++;
    }
    int past = sums[0] > UINT32_MAX || sums[1] > UINT32_MAX || sums[2] > UINT32_MAX || sums[3] > UINT32_MAX;
    uint8_t number = length < 1 || length > 16 ? RIG_BAD_SIZE : any_above(marks, length) ? RIG_WRONG_LENGTH : past ? RIG_TALLY_FULL : RIG_DONE;
    for (size_t i = 0; i < 4; i++) {
        then[i] = number == RIG_DONE ? (uint32_t)sums[i] : was[i];
    }
    for (enum side side = AT_END; side < SIDES; side++) {
        uint8_t *sorts = lend(0, side, marks, length);
        void *tally = lend(1, side, was, sizeof was);
        hold(rig_tally_add(tally, sorts, length) == number, "the tally's number is another");
        hold(has(tally, then, sizeof then), "the tally at exit is another");
        hold(has(sorts, marks, length), "the tally changed the marks");
    }
}

static void fuzz_wake(struct input *in) {
    uint32_t n = next_size(in), last = next_word(in), gap = next(in) % 2 ? 4300u + next(in) - 128u : next_word(in);
    struct rig_wait got = rig_wake(n, last, last + gap);
    int good = n >= 1 && n <= 16;
    hold(got.number == (good ? RIG_DONE : RIG_BAD_SIZE), "the wake's number is another");
    hold(got.wait == (good && gap >= 4300 ? 10 * n : 0), "the wait is another");
}

/* A number up to one above `most`, or now and then any. */
static uint32_t next_field(struct input *in, uint32_t most) {
    uint8_t byte = next(in);
    return byte < 250 ? byte % (most + 2) : next_word(in);
}

static void fuzz_conversion_code(struct input *in) {
    uint32_t command = next_field(in, 12), mode = next_field(in, 3), discharge = next_field(in, 1);
    uint32_t pull_up = next_field(in, 1), choice = next_field(in, 6);
    struct rig_code then = plain_code(command, mode, discharge, pull_up, choice);
    struct rig_code got = rig_conversion_code(command, mode, discharge, pull_up, choice);
    hold(got.number == then.number && got.code == then.code, "a conversion's code is another");
#ifndef NO_SECOND
    struct rig_code second = second_conversion_code(command, mode, discharge, pull_up, choice);
    hold(second.number == then.number && second.code == then.code, "second/ has another conversion's code");
#endif
}

static void fuzz_conversion_of(struct input *in) {
    uint32_t code = next_code(in);
    struct rig_conversion then = plain_conversion(code);
    hold(same_conversion(rig_conversion_of(code), then), "the conversion of a code is another");
#ifndef NO_SECOND
    hold(same_conversion(second_conversion_of(code), then), "second/ takes a code apart otherwise");
#endif
}

/* ---- the log ---- */

/* Mostly a kind that there is. */
static uint32_t next_kind(struct input *in) {
    uint8_t byte = next(in);
    return byte < 220 ? 1u + byte % 4 : byte < 240 ? byte % 8u : next_word(in) >> (byte % 4 * 8);
}

/* A body for the kind, mostly within its limits; its length. */
static size_t next_body(struct input *in, uint32_t kind, uint8_t *body) {
    size_t most = kind == RIG_LOG_SIZE ? 1 : kind == RIG_LOG_NOTE ? 200 : 132;
    size_t length = kind != RIG_LOG_SIZE && next(in) % 2 ? next(in) % (most + 1) : next_length(in, most);
    next_bytes(in, body, length);
    if (kind == RIG_LOG_SIZE && length > 0 && body[0] < 224) {
        body[0] = (uint8_t)(1 + body[0] % 16);
    }
    return length;
}

static void fuzz_log_put(struct input *in) {
    uint8_t body[256], out[320], then[320];
    uint32_t kind = next_kind(in);
    size_t body_len = next_body(in, kind, body), out_len = next_length(in, RIG_LOG_BYTES(body_len));
    uint8_t number = plain_put_number(kind, body, body_len, out_len);
    memset(out, next(in), sizeof out);
    memcpy(then, out, sizeof out);
    size_t length = number == RIG_DONE ? plain_put(kind, body, body_len, then) : 0;
#ifndef NO_SECOND
    uint8_t by_second[320];
    memcpy(by_second, out, sizeof out);
    struct rig_written second = second_log_put(kind, body, body_len, by_second, out_len);
    hold(second.number == number && second.length == length && has(by_second, then, out_len), "second/ logs otherwise");
#endif
    for (enum side side = AT_END; side < SIDES; side++) {
        uint8_t *from = lend(0, side, body, body_len), *to = lend(1, side, out, out_len);
        struct rig_written got = rig_log_put(kind, from, body_len, to, out_len);
        hold(got.number == number && got.length == length, "the log writer's answer is another");
        hold(has(to, then, out_len), "the log writer's record is another");
        hold(has(from, body, body_len), "the log writer changed the body");
    }
}

/* Records one after the other, then up to three bytes changed and some cut off; or any bytes. */
static size_t next_log(struct input *in, uint8_t *log) {
    uint8_t body[256], choice = next(in);
    size_t length = 0;
    if (choice >= 200) {
        length = in->left < ROOM ? in->left : ROOM;
        next_bytes(in, log, length);
        return length;
    }
    for (unsigned records = choice % 12; records > 0; records--) {
        uint32_t kind = next_kind(in) % 65536;
        size_t body_len = next_body(in, kind, body);
        length += plain_put(kind, body, body_len, log + length);
    }
    for (unsigned hits = length == 0 ? 0 : choice / 12 % 4; hits > 0; hits--) {
        log[next_word(in) % length] ^= next(in);
    }
    size_t cut = next(in);
    return cut < 200 ? length : length - (cut - 199 < length ? cut - 199 : length);
}

/* Places of the log and a little past it, or any. */
static size_t next_place(struct input *in, size_t length) {
    uint8_t byte = next(in);
    return byte < 232 ? next_word(in) % (length + 6) : byte < 244 ? SIZE_MAX - (byte - 232u) : next_word(in) * ((size_t)UINT32_MAX + 2);
}

/* The record at a place, alike by every reader. */
static struct rig_record hold_record(const uint8_t *lent, const uint8_t *log, size_t length, size_t place) {
    struct rig_record then = plain_record(log, length, place);
    hold(same_record(rig_log_at(lent, length, place), then), "the record at a place is another");
#ifndef NO_SECOND
    hold(same_record(second_log_at(log, length, place), then), "second/ has another record at a place");
#endif
    return then;
}

/* The record at a place, and at each place that a walk comes to. */
static void fuzz_log_at(struct input *in) {
    static uint8_t log[ROOM];
    size_t length = next_log(in, log), place = next_place(in, length);
    for (enum side side = AT_END; side < SIDES; side++) {
        uint8_t *from = lend(0, side, log, length);
        hold_record(from, log, length, place);
        struct rig_record at = hold_record(from, log, length, 0);
        while (at.number == RIG_DONE && !at.end) {
            at = hold_record(from, log, length, at.next);
        }
        hold(has(from, log, length), "the log reader changed the log");
    }
}

static void fuzz_log_walk(struct input *in) {
    static uint8_t log[ROOM];
    size_t length = next_log(in, log);
    struct rig_walk then = plain_walk(log, length);
#ifndef NO_SECOND
    hold(same_walk(second_log_walk(log, length), then), "second/ walks otherwise");
#endif
    for (enum side side = AT_END; side < SIDES; side++) {
        uint8_t *from = lend(0, side, log, length);
        hold(same_walk(rig_log_walk(from, length), then), "the walk is another");
        hold(has(from, log, length), "the walk changed the log");
    }
}

int LLVMFuzzerTestOneInput(const uint8_t *bytes, size_t length);
int LLVMFuzzerTestOneInput(const uint8_t *bytes, size_t length) {
    static void (*const entries[])(struct input *) = {fuzz_pec,   fuzz_write, fuzz_chain,           fuzz_read,          fuzz_cells,
                                                      fuzz_tally, fuzz_wake,  fuzz_conversion_code, fuzz_conversion_of, fuzz_log_put,
                                                      fuzz_log_at, fuzz_log_walk};
    struct input in = {bytes, length};
    entries[next(&in) % (sizeof entries / sizeof *entries)](&in);
    return 0;
}
