/* log_test.c: the log's entries, called from C and held to the plain ones: each kind's limits, the order of refusals, places up to the
 * largest, every cut and every changed byte of a sample log, and logs at random. */
#include "log_test.h"

#include "lent.h"
#include "plain.h"

#include <stdio.h>
#include <stdlib.h>
#include <string.h>
#include <time.h>

enum { LONGEST = 200, RANDOM_LOGS = 20000, MANY = 70000 };

static const uint8_t empty_note[4] = {2, 0, 4, 0};

static void one_at(const uint8_t *log, size_t log_len, size_t place) {
    struct rig_record got = rig_log_at(log, log_len, place);
    EXPECT(same_record(got, plain_record(log, log_len, place)), "the record at a place", log_len, place);
    EXPECT(got.number != RIG_DONE || got.end || got.next > place, "the next place is past this one", log_len, place);
}

static void one_walk(const uint8_t *log, size_t log_len, size_t a, size_t b) {
    EXPECT(same_walk(rig_log_walk(log, log_len), plain_walk(log, log_len)), "the walk over a log", a, b);
}

/* ---- the writer ---- */

static void one_put(uint32_t kind, uint8_t first, size_t body_len, size_t out_len) {
    struct lent body, out;
    uint8_t record[RIG_LOG_BYTES(LONGEST)];
    uint8_t *from = lend(&body, body_len), *to = lend(&out, out_len);
    from[0] = first;
    uint8_t number = plain_put_number(kind, from, body_len, out_len);
    struct rig_written got = rig_log_put(kind, from, body_len, to, out_len);
    size_t length = number == RIG_DONE ? plain_put(kind, from, body_len, record) : 0;
    EXPECT(got.number == number, "number of a record", kind, body_len);
    EXPECT(got.length == length, "length of a record", kind, body_len);
    EXPECT(memcmp(to, record, length) == 0, "bytes of a record", kind, body_len);
    EXPECT(kept(&out, length), "what lies past a record", kind, body_len);
    EXPECT(kept(&body, 1) && from[0] == first, "a body is only read", kind, body_len);
}

/* Bodies that would be lawful, were their length cut down to 16 bits. */
static void test_long_bodies(void) {
    static uint8_t body[MANY], out[MANY + 4], was[MANY + 4];
    memset(body, 3, sizeof body);
    for (uint32_t kind = 0; kind <= 5; kind++) {
        for (size_t length = 65530; length <= 65536 + LONGEST + 1; length++) {
            struct rig_written got = rig_log_put(kind, body, length, out, sizeof out);
            EXPECT(got.number == RIG_LOG_LIMITS && got.length == 0, "a body of over 65,529", kind, length);
        }
    }
    EXPECT(memcmp(out, was, sizeof out) == 0, "the output after refusals", 0, 0);
}

static void test_put_nothing(void) {
    uint8_t out[4] = {9, 9, 9, 9};
    EXPECT(rig_log_put(4, NULL, 0, out, 4).length == 4 && memcmp(out, empty_note, 4) == 0, "an empty note at NULL", 4, 0);
    EXPECT(rig_log_put(2, NULL, 0, NULL, 0).number == 5, "an output of nothing at NULL", 2, 0);
    EXPECT(rig_log_put(1, NULL, 0, NULL, 0).number == 11, "11 comes before 5", 1, 0);
    EXPECT(rig_log_put(0, NULL, 0, NULL, 0).number == 11, "an unknown kind", 0, 0);
}

void test_log_put(void) {
    static const uint32_t kinds[] = {0, 1, 2, 3, 4, 5, 256, 257, 258, 65537, 65538, 65539, 65540, 0x1000001u, 0x80000002u, 4294967295u};
    static const size_t lengths[] = {0, 1, 2, 3, 16, 131, 132, 133, 199, 200, 201, 255, 256, 257, ROOM - 5};
    static const uint8_t firsts[] = {0, 1, 16, 17, 255};
    for (size_t i = 0; i < sizeof kinds / sizeof *kinds; i++) {
        for (size_t k = 0; k < sizeof lengths / sizeof *lengths; k++) {
            for (int step = 0; step < 15; step++) {
                one_put(kinds[i], firsts[step / 3], lengths[k], near(4 + lengths[k], step % 3 - 1));
            }
            one_put(kinds[i], 1, lengths[k], 0);
            one_put(kinds[i], 1, lengths[k], ROOM);
        }
    }
    for (unsigned size = 0; size < 256; size++) {
        one_put(RIG_LOG_SIZE, (uint8_t)size, 1, 5);
    }
    test_put_nothing();
    test_long_bodies();
}

/* ---- the reader ---- */

/* A record in the middle of painted bytes is read back, and what was read, written again, is the record. */
static void one_undo(uint32_t kind, size_t body_len, size_t place, size_t after) {
    struct lent lent;
    uint8_t *log = lend(&lent, ROOM), body[LONGEST], again[RIG_LOG_BYTES(LONGEST)];
    size_t next = place + RIG_LOG_BYTES(body_len);
    for (size_t i = 0; i < body_len; i++) {
        body[i] = (uint8_t)(1 + (i * 5 + place) % 16);
    }
    EXPECT(rig_log_put(kind, body, body_len, log + place, ROOM - place).number == RIG_DONE, "a lawful record", kind, body_len);
    struct rig_record got = rig_log_at(log, next + after, place);
    EXPECT(got.number == RIG_DONE && !got.end && got.kind == kind && got.next == next, "a record read back", kind, body_len);
    EXPECT(got.body == place + 4 && got.body_len == body_len && memcmp(log + got.body, body, body_len) == 0, "its body", kind, body_len);
    struct rig_written written = rig_log_put(got.kind, log + got.body, got.body_len, again, sizeof again);
    EXPECT(written.length == next - place && memcmp(again, log + place, written.length) == 0, "a record written again", kind, body_len);
}

static void test_undo(void) {
    static const size_t most[5] = {0, 1, 132, 132, 200};
    for (uint32_t kind = 1; kind <= 4; kind++) {
        for (size_t length = kind == 1 ? 1 : 0; length <= most[kind]; length++) {
            one_undo(kind, length, 0, 0);
            one_undo(kind, length, 1 + length, 3);
            one_undo(kind, length, 700, 900);
        }
    }
}

/* Every kind with its shortest and longest body, and kinds that are not known; its length. */
static size_t make_sample(uint8_t *log) {
    static const struct { uint32_t kind; size_t length; } parts[] = {
        {1, 1}, {4, 12}, {2, 28}, {3, 28}, {0, 3}, {2, 132}, {3, 132}, {4, 200}, {4, 0}, {2, 0}, {3, 0}, {1, 1},
        {5, 0}, {258, 5}, {65535, 300}, {769, 1}, {2, 4}, {3, 4}, {1, 1},
    };
    uint8_t body[300];
    size_t length = 0;
    for (size_t i = 0; i < sizeof parts / sizeof *parts; i++) {
        for (size_t k = 0; k < sizeof body; k++) {
            body[k] = (uint8_t)(parts[i].kind == 1 ? 1 + 15 * (i % 2) : k * 7 + i);
        }
        length += plain_put(parts[i].kind, body, parts[i].length, log + length);
    }
    return length;
}

/* Places from one before to seven past the end, and up to the largest. */
static void test_places(const uint8_t *log, size_t length) {
    for (size_t step = 0; step < 8; step++) {
        one_at(log, length, near(length, -1) + step);
        one_at(log, length, SIZE_MAX - step);
        one_at(log, length, SIZE_MAX / 2 + 4 - step);
        EXPECT(rig_log_at(log, length, SIZE_MAX - step).number == RIG_LOG_BROKEN, "a place far past the end", length, step);
    }
}

static void test_at_nothing(void) {
    EXPECT(rig_log_at(NULL, 0, 0).number == 0 && rig_log_at(NULL, 0, 0).end == 1, "the end of nothing at NULL", 0, 0);
    EXPECT(rig_log_at(NULL, 0, 1).number == 10 && rig_log_at(NULL, 0, 1).end == 0, "past the end of nothing", 0, 1);
    one_walk(NULL, 0, 0, 0);
    test_places(NULL, 0);
}

/* Bodies one to each side of their limits, and refusals where both apply. */
static void test_limits(void) {
    static const uint8_t length_1[4] = {1, 0, 9, 0}, frame_133[RIG_LOG_BYTES(133)] = {135, 0, 2, 0};
    uint8_t log[RIG_LOG_BYTES(300)] = {0};
    for (uint32_t kind = 0; kind < 7; kind++) {
        for (size_t length = 0; length <= 300; length++) {
            for (unsigned first = 0; first < 256; first += first == 18 ? 237 : 1) {
                log[4] = (uint8_t)first;
                plain_put(kind, log + 4, length, log);
                one_at(log, 4 + length, 0);
                one_at(log, 3 + length, 0);
            }
        }
    }
    EXPECT(rig_log_at(length_1, 4, 0).number == 10, "a length of 1, of an unknown kind", 1, 9);
    EXPECT(rig_log_at(frame_133, 136, 0).number == 10, "10 comes before 11", 136, 0);
    EXPECT(rig_log_at(frame_133, 137, 0).number == 11, "a frame of 133 bytes", 137, 0);
}

/* The longest record that there is: 65,535 counts kind and body. */
static void test_longest(void) {
    static uint8_t log[65537 + 4];
    memset(log, 0xFF, 65537);
    memcpy(log + 65537, empty_note, 4);
    EXPECT(rig_log_at(log, sizeof log, 0).next == 65537, "the record after the longest", 65537, 0);
    EXPECT(rig_log_walk(log, sizeof log).unknown == 1 && rig_log_walk(log, sizeof log).notes == 1, "the longest and a note", 1, 1);
    for (size_t cut = 65530; cut <= sizeof log; cut++) {
        one_at(log, cut, 0);
        one_walk(log, cut, cut, 0);
    }
}

void test_log_at(void) {
    struct lent lent;
    uint8_t *log = lend(&lent, ROOM);
    size_t length = make_sample(log);
    struct rig_walk walk = rig_log_walk(log, length);
    EXPECT(walk.number == 0 && walk.at == length, "the sample is whole", walk.number, walk.at);
    EXPECT(walk.sizes == 3 && walk.frames == 4 && walk.replies == 4 && walk.notes == 3 && walk.unknown == 5, "its counts", walk.at, length);
    for (size_t place = 0; place <= length + 8; place++) {
        one_at(log, length, place);
    }
    EXPECT(kept(&lent, length), "what lies past a log", length, 0);
    test_places(log, length);
    test_at_nothing();
    test_undo();
    test_limits();
    test_longest();
}

/* ---- damage ---- */

void test_log_cuts(void) {
    uint8_t log[ROOM];
    size_t length = make_sample(log);
    for (size_t cut = 0; cut <= length; cut++) {
        one_walk(log, cut, cut, 0);
        for (size_t place = 0; place <= cut + 4; place++) {
            one_at(log, cut, place);
        }
    }
}

/* Every byte with every other value. What was read before its record stays, and what stands there is read as the plain reader does. */
void test_log_flips(void) {
    uint8_t log[ROOM];
    size_t length = make_sample(log), record = 0;
    for (size_t at = 0; at < length; at++) {
        uint8_t was = log[at];
        record = at == rig_log_at(log, length, record).next ? at : record;
        for (unsigned flip = 1; flip < 256; flip++) {
            log[at] = (uint8_t)(was ^ flip);
            one_walk(log, length, at, flip);
            one_at(log, length, record);
            EXPECT(rig_log_walk(log, length).at >= record, "the records before the changed one", at, flip);
        }
        log[at] = was;
    }
}

/* ---- logs at random ---- */

static uint64_t state;

/* A number below `limit`, by splitmix64. */
static size_t draw(size_t limit) {
    uint64_t z = state += UINT64_C(0x9E3779B97F4A7C15);
    z = (z ^ z >> 30) * UINT64_C(0xBF58476D1CE4E5B9);
    z = (z ^ z >> 27) * UINT64_C(0x94D049BB133111EB);
    return (size_t)((z ^ z >> 31) % limit);
}

/* A body for the kind, one in eight a little over its limits; its length. */
static size_t draw_body(uint32_t kind, uint8_t *body) {
    size_t most = kind == 1 ? 1 : kind == 4 ? 200 : 132, over = draw(8) == 0 ? 1 + draw(3) : 0;
    size_t length = over != 0 ? most + over : kind == 1 ? 1 : draw(4) == 0 ? most * draw(2) : draw(most + 1);
    for (size_t i = 0; i < length; i++) {
        body[i] = (uint8_t)(kind == 1 ? draw(16) + 1 : draw(256));
    }
    return length;
}

/* Up to nine records of known kinds, written by rig_log_put where they are lawful, are read back in their order. */
static void random_rows(unsigned long number) {
    uint8_t log[ROOM], bodies[9][LONGEST + 4];
    uint32_t kinds[9];
    size_t lengths[9], count = 0, length = 0, place = 0;
    for (size_t tries = draw(10); tries > 0; tries--) {
        kinds[count] = (uint32_t)draw(4) + 1;
        lengths[count] = draw_body(kinds[count], bodies[count]);
        struct rig_written put = rig_log_put(kinds[count], bodies[count], lengths[count], log + length, sizeof log - length);
        EXPECT(put.number == plain_put_number(kinds[count], bodies[count], lengths[count], sizeof log - length), "put", number, count);
        length += put.length;
        count += put.number == RIG_DONE;
    }
    for (size_t i = 0; i < count; i++) {
        struct rig_record got = rig_log_at(log, length, place);
        EXPECT(got.number == RIG_DONE && got.kind == kinds[i] && got.body_len == lengths[i], "the row read back", number, i);
        EXPECT(memcmp(log + got.body, bodies[i], lengths[i]) == 0, "the bodies read back", number, i);
        place = got.next;
    }
    EXPECT(place == length && rig_log_at(log, length, place).end == 1, "the end of the row", number, length);
    one_walk(log, length, number, length);
}

/* Records of any kind, some outside their limits, then some bytes changed and the end cut off: as the plain reader reads them. */
static void random_damage(unsigned long number) {
    uint8_t log[ROOM], body[LONGEST + 4];
    size_t length = 0;
    for (size_t tries = draw(10); tries > 0; tries--) {
        uint32_t kind = (uint32_t)(draw(4) == 0 ? draw(65536) : draw(6));
        size_t body_len = draw_body(kind, body);
        length += plain_put(kind, body, body_len, log + length);
    }
    for (size_t hits = length == 0 ? 0 : draw(3); hits > 0; hits--) {
        log[draw(length)] = (uint8_t)draw(256);
    }
    length -= length > 0 && draw(2) ? draw(length < 9 ? length : 9) : 0;
    one_walk(log, length, number, length);
    for (size_t i = 0; i < 8; i++) {
        one_at(log, length, draw(length + 4));
    }
}

void test_log_random(void) {
    const char *chosen = getenv("RIG_SEED");
    unsigned long seed = chosen != NULL ? strtoul(chosen, NULL, 10) : (unsigned long)time(NULL);
    printf("   random logs: seed %lu (RIG_SEED=%lu repeats them)\n", seed, seed);
    state = seed;
    for (unsigned long number = 0; number < RANDOM_LOGS; number++) {
        random_rows(number);
        random_damage(number);
    }
}
