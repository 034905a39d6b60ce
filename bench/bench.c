/* The benchmark: how long each entry of the archive and of rig.c takes beside the same algorithm in plain C (plain.c), and the
   archive beside the second implementation, in one process, on the same inputs. What counts are the ratios: nanoseconds are this
   machine's.

       bench            time every row
       bench WORD       time the rows with WORD in their name
       bench --rows     print the names of the rows
       bench --run MAKER ROW   SETS calls of one maker (archive, printed, plain) and nothing else, for bench/count */
#define _POSIX_C_SOURCE 199309L

#include "makers.h"

#include <stdio.h>
#include <stdlib.h>
#include <string.h>
#include <time.h>
#include <unistd.h>

enum { ROUNDS = 31, MAKERS = 5, SETS = 64, LONG_WORD = 65536, PAGE = 4096 };

static const double SHORTEST_RUN = 5e-3; /* seconds, of one maker in one round */

/* Whether librig.a is the toolchain's archive, which is for x86-64; on another processor it is rig.c (see the Makefile). */
#ifdef __x86_64__
enum { IS_ARCHIVE = 1 };
#else
enum { IS_ARCHIVE = 0 };
#endif

struct maker {
    const char *name;
    uint16_t (*pec)(const uint8_t *, size_t);
    struct rig_written (*write)(uint32_t, uint32_t, const uint8_t *, size_t, uint8_t *, size_t);
    struct rig_heard (*chain)(uint32_t, const uint8_t *, size_t, uint8_t *, size_t, uint8_t *, size_t);
    uint8_t (*read)(uint32_t, uint32_t, const uint8_t *, size_t, uint8_t *, size_t, uint8_t *, size_t);
    struct rig_readings (*cells)(const uint8_t *, size_t, const uint8_t *, size_t);
    uint8_t (*tally_add)(struct rig_tally *, const uint8_t *, size_t);
    struct rig_code (*conversion_code)(uint32_t, uint32_t, uint32_t, uint32_t, uint32_t);
    struct rig_conversion (*conversion_of)(uint32_t);
    struct rig_written (*log_put)(uint32_t, const uint8_t *, size_t, uint8_t *, size_t);
    struct rig_record (*log_at)(const uint8_t *, size_t, size_t);
    struct rig_walk (*log_walk)(const uint8_t *, size_t);
};

enum { ARCHIVE, PRINTED, PLAIN, AGAIN, SECOND };

#define PLAIN_ENTRIES                                                                                                             \
    plain_pec, plain_write, plain_chain, plain_read, plain_cells, plain_tally_add, plain_conversion_code, plain_conversion_of,    \
        plain_log_put, plain_log_at, plain_log_walk

static const struct maker makers[MAKERS] = {
    {"archive", rig_pec, rig_write, rig_chain, rig_read, rig_cells, rig_tally_add,
     rig_conversion_code, rig_conversion_of, rig_log_put, rig_log_at, rig_log_walk},
    {"printed", printed_pec, printed_write, printed_chain, printed_read, printed_cells, printed_tally_add,
     printed_conversion_code, printed_conversion_of, printed_log_put, printed_log_at, printed_log_walk},
    {"plain", PLAIN_ENTRIES},
    {"again", PLAIN_ENTRIES}, /* so that plain C is held beside itself: what that ratio is off 1, the benchmark is off */
#ifndef NO_SECOND /* for a processor that Rust is not built for here: there calls are counted, and not timed */
    {"second", second_pec, second_write, second_chain, second_read, second_cells, second_tally_add,
     second_conversion_code, second_conversion_of, second_log_put, second_log_at, second_log_walk},
#endif
};

static const uint32_t writes[6] = {RIG_WRCFGA, RIG_WRCFGB, RIG_WRCOMM, RIG_WRSCTRL, RIG_WRPWM, RIG_WRPSB};
static const uint32_t reads[6] = {RIG_RDCVA, RIG_RDCVB, RIG_RDCVC, RIG_RDCVD, RIG_RDCVE, RIG_RDCVF};

/* What goes in: the same for every maker. The frames and replies are those of the chain size at hand: six replies for each mark, by the
   mark that every group of theirs gets. */
static struct {
    uint8_t bytes[LONG_WORD + 8 * SETS];
    uint8_t marks[SETS][16];
    struct rig_conversion conversions[SETS];
    uint32_t codes[SETS];
    uint8_t write_frames[6][132], read_frames[6][132], write_cfga[6][132], read_cfga[6][132], replies[3][6][132];
    uint8_t clear_frames[6][132], conversion_frames[6][132];
    uint8_t log[SETS * RIG_LOG_BYTES(132)];
    size_t log_len, places[SETS];
} in;

/* What comes out, and what a call changes. */
static struct work {
    uint8_t state[RIG_STATE_BYTES(16)], out[132], reply[132], data[96], marks[16];
    struct rig_tally tally;
    struct rig_readings readings;
    struct rig_conversion conversion;
    uint8_t put[RIG_LOG_BYTES(132)];
    struct rig_record record;
    struct rig_walk walk;
    uint32_t sum;
} work;

typedef void turn_fn(const struct maker *m, uint32_t n, size_t turns);

/* For a check word n is the count of bytes; elsewhere it is the count of devices. */
static void turn_pec(const struct maker *m, uint32_t n, size_t turns)
{
    for (size_t i = 0; i < turns; i++)
        work.sum += m->pec(in.bytes + 8 * (i % SETS), n);
}

static void turn_write(const struct maker *m, uint32_t n, size_t turns)
{
    for (size_t i = 0; i < turns; i++) {
        struct rig_written w = m->write(n, writes[i % 6], in.bytes + 96 * (i % SETS), 6 * n, work.out, sizeof work.out);
        work.sum += w.number + (uint32_t)w.length;
    }
}

static void obey_frames(const struct maker *m, uint32_t n, size_t turns, uint8_t frames[6][132], size_t length)
{
    for (size_t i = 0; i < turns; i++) {
        struct rig_heard h = m->chain(n, frames[i % 6], length, work.state, RIG_STATE_BYTES(n), work.reply, sizeof work.reply);
        work.sum += h.number + h.word;
    }
}

static void turn_chain_write(const struct maker *m, uint32_t n, size_t turns)
{
    obey_frames(m, n, turns, in.write_frames, RIG_FRAME_BYTES(n));
}

static void turn_chain_read(const struct maker *m, uint32_t n, size_t turns)
{
    obey_frames(m, n, turns, in.read_frames, RIG_FRAME_BYTES(n));
}

static void turn_chain_write_cfga(const struct maker *m, uint32_t n, size_t turns)
{
    obey_frames(m, n, turns, in.write_cfga, RIG_FRAME_BYTES(n));
}

static void turn_chain_read_cfga(const struct maker *m, uint32_t n, size_t turns)
{
    obey_frames(m, n, turns, in.read_cfga, RIG_FRAME_BYTES(n));
}

static void turn_chain_clear(const struct maker *m, uint32_t n, size_t turns)
{
    obey_frames(m, n, turns, in.clear_frames, RIG_COMMAND_BYTES);
}

static void turn_chain_conversion(const struct maker *m, uint32_t n, size_t turns)
{
    obey_frames(m, n, turns, in.conversion_frames, RIG_COMMAND_BYTES);
}

static void read_replies(const struct maker *m, uint32_t n, size_t turns, uint8_t replies[6][132])
{
    for (size_t i = 0; i < turns; i++)
        work.sum += m->read(n, reads[i % 6], replies[i % 6], 4 + 8 * n, work.data, sizeof work.data, work.marks, sizeof work.marks);
}

static void turn_read(const struct maker *m, uint32_t n, size_t turns)
{
    read_replies(m, n, turns, in.replies[RIG_MARK_READ]);
}

static void turn_read_wrong(const struct maker *m, uint32_t n, size_t turns)
{
    read_replies(m, n, turns, in.replies[RIG_MARK_WRONG]);
}

static void turn_read_silent(const struct maker *m, uint32_t n, size_t turns)
{
    read_replies(m, n, turns, in.replies[RIG_MARK_SILENT]);
}

static void turn_cells(const struct maker *m, uint32_t n, size_t turns)
{
    (void)n;
    for (size_t i = 0; i < turns; i++) {
        work.readings = m->cells(in.bytes + 36 * (i % SETS), 36, in.marks[i % SETS], 6);
        work.sum += work.readings.number;
    }
}

static void turn_tally(const struct maker *m, uint32_t n, size_t turns)
{
    for (size_t i = 0; i < turns; i++)
        work.sum += m->tally_add(&work.tally, in.marks[i % SETS], n);
}

static void turn_conversion_code(const struct maker *m, uint32_t n, size_t turns)
{
    (void)n;
    for (size_t i = 0; i < turns; i++) {
        const struct rig_conversion *f = &in.conversions[i % SETS];
        struct rig_code c = m->conversion_code(f->command, f->mode, f->discharge, f->pull_up, f->choice);
        work.sum += c.number + c.code;
    }
}

static void turn_conversion_of(const struct maker *m, uint32_t n, size_t turns)
{
    (void)n;
    for (size_t i = 0; i < turns; i++) {
        work.conversion = m->conversion_of(in.codes[i % SETS]);
        work.sum += work.conversion.number;
    }
}

/* For a record n is the count of the body's bytes. */
static void turn_log_put(const struct maker *m, uint32_t n, size_t turns)
{
    for (size_t i = 0; i < turns; i++) {
        struct rig_written w = m->log_put(RIG_LOG_FRAME, in.bytes + 96 * (i % SETS), n, work.put, sizeof work.put);
        work.sum += w.number + (uint32_t)w.length;
    }
}

static void turn_log_at(const struct maker *m, uint32_t n, size_t turns)
{
    (void)n;
    for (size_t i = 0; i < turns; i++) {
        work.record = m->log_at(in.log, in.log_len, in.places[i % SETS]);
        work.sum += work.record.number;
    }
}

/* The whole log, and all but its last record, by turns. */
static void turn_log_walk(const struct maker *m, uint32_t n, size_t turns)
{
    (void)n;
    for (size_t i = 0; i < turns; i++) {
        work.walk = m->log_walk(in.log, i % 2 ? in.places[SETS - 1] : in.log_len);
        work.sum += work.walk.number;
    }
}

static const struct row {
    const char *name;
    turn_fn *turn;
    uint32_t n;
    double goal, printed_goal; /* the largest ratio to plain C that we want of the archive and of rig.c; 0 where none is set */
} rows[] = {
    {"check word of 2 bytes", turn_pec, 2, 1.5, 0},
    {"check word of 6 bytes", turn_pec, 6, 1.5, 0},
    {"check word of 64 KiB", turn_pec, LONG_WORD, 1.1, 0},
    {"write, N = 1", turn_write, 1, 0, 0},
    {"write, N = 16", turn_write, 16, 1.1, 1.05},
    {"chain write, N = 1", turn_chain_write, 1, 1.1, 1.1},
    {"chain write, N = 16", turn_chain_write, 16, 1.1, 1.05},
    {"chain write of CFGA, N = 1", turn_chain_write_cfga, 1, 1.1, 1.1},
    {"chain write of CFGA, N = 16", turn_chain_write_cfga, 16, 1.1, 1.05},
    {"chain read, N = 1", turn_chain_read, 1, 1.1, 1.1},
    {"chain read, N = 16", turn_chain_read, 16, 1.1, 1.05},
    {"chain read of CFGA, N = 1", turn_chain_read_cfga, 1, 1.1, 1.1},
    {"chain read of CFGA, N = 16", turn_chain_read_cfga, 16, 1.1, 1.05},
    {"chain clear, N = 1", turn_chain_clear, 1, 1.1, 1.1},
    {"chain clear, N = 16", turn_chain_clear, 16, 1.1, 1.05},
    {"chain conversion, N = 1", turn_chain_conversion, 1, 1.1, 1.1},
    {"chain conversion, N = 16", turn_chain_conversion, 16, 1.1, 1.05},
    {"read, N = 1", turn_read, 1, 0, 0},
    {"read, N = 16, right", turn_read, 16, 1.1, 1.05},
    {"read, N = 16, wrong", turn_read_wrong, 16, 1.1, 1.05},
    {"read, N = 16, silent", turn_read_silent, 16, 1.1, 1.05},
    {"cells of one device", turn_cells, 1, 1.1, 0},
    {"tally, N = 1", turn_tally, 1, 0, 0},
    {"tally, N = 16", turn_tally, 16, 1.1, 0},
    {"conversion code", turn_conversion_code, 1, 0, 0},
    {"conversion of a code", turn_conversion_of, 1, 0, 0},
    {"log a frame of 132", turn_log_put, 132, 0, 0},
    {"record at a place", turn_log_at, 1, 0, 0},
    {"walk of 64 records", turn_log_walk, 1, 0, 0},
};

enum { ROWS = sizeof rows / sizeof *rows };

static uint32_t random_byte(void)
{
    static uint32_t x = 20240607;

    x = x * 1664525u + 1013904223u;
    return x >> 24;
}

/* Conversions of every command in turn, with fields at random, and their codes. */
static void make_conversions(void)
{
    for (uint32_t i = 0; i < SETS;) {
        struct rig_conversion f = {0, i % 13, random_byte() % 4, random_byte() % 2, random_byte() % 2, random_byte() % 7};
        struct rig_code c = plain_conversion_code(f.command, f.mode, f.discharge, f.pull_up, f.choice);
        if (c.number == 0) {
            in.conversions[i] = f;
            in.codes[i++] = c.code;
        }
    }
}

/* A log as a controller writes it: frames and replies by turns, now and then a chain size, a note, or a kind that is not known. */
static void make_log(void)
{
    static const uint8_t sixteen = 16;

    for (size_t i = 0; i < SETS; i++) {
        uint32_t kind = i % 16 == 0 ? RIG_LOG_SIZE : i % 16 == 1 ? RIG_LOG_NOTE : 2 + i % 2;
        const uint8_t *body = kind == RIG_LOG_SIZE ? &sixteen : in.bytes + 96 * i;
        in.places[i] = in.log_len;
        in.log_len += plain_log_put(kind, body, kind == RIG_LOG_SIZE ? 1 : 132, in.log + in.log_len, sizeof in.log - in.log_len).length;
    }
    in.log[in.places[SETS / 2] + 3] = 1; /* kind 257 */
}

/* Of the cells that turn_cells reads about one in eight becomes 0xFFFF, which is not measured: bytes at random hardly ever hold it. */
static void clear_some_cells(void)
{
    for (size_t i = 0; i < 36 * SETS; i += 2)
        if (random_byte() % 8 == 0)
            in.bytes[i] = in.bytes[i + 1] = 0xFF;
}

/* Bytes at random, among them cells of 0xFFFF; of the marks about one in eight is not 0. */
static void make_inputs(void)
{
    for (size_t i = 0; i < sizeof in.bytes; i++)
        in.bytes[i] = (uint8_t)random_byte();
    for (size_t i = 0; i < SETS; i++)
        for (size_t k = 0; k < 16; k++)
            in.marks[i][k] = (uint8_t)(random_byte() % 8 ? 0 : 1 + random_byte() % 2);
    make_conversions();
    make_log();
    clear_some_cells();
}

/* Of a right reply from n devices a wrong one, by one bit of each group, and a silent one. */
static void spoil(uint32_t n, size_t i)
{
    memcpy(in.replies[RIG_MARK_WRONG][i], in.replies[RIG_MARK_READ][i], 132);
    for (uint32_t k = 0; k < n; k++)
        in.replies[RIG_MARK_WRONG][i][4 + 8 * k + (k + i) % 8] ^= (uint8_t)(1u << (k + 3 * i) % 8);
    memset(in.replies[RIG_MARK_SILENT][i], 0xFF, 132);
}

/* The replies are what their rows say: every group of each gets its mark. */
static void assert_marks(uint32_t n, size_t i)
{
    uint8_t data[96], marks[16];

    for (uint8_t mark = 0; mark < 3; mark++) {
        uint8_t number = plain_read(n, reads[i], in.replies[mark][i], 4 + 8 * n, data, sizeof data, marks, sizeof marks);
        for (uint32_t k = 0; k < n; k++)
            if (number != 0 || marks[k] != mark) {
                fprintf(stderr, "bench: a reply that is to have mark %d in every group has not; nothing is timed\n", mark);
                exit(1);
            }
    }
}

/* A state of random bytes, with pins at random. */
static void make_state(void)
{
    memcpy(work.state, in.bytes, sizeof work.state);
    for (uint32_t k = 1; k <= 16; k++)
        work.state[RIG_PIN_PLACE(k)] &= 1;
}

/* Frames for n devices, and the replies to the reads of a state. */
static void make_frames(uint32_t n)
{
    memset(&work, 0, sizeof work);
    make_state();
    for (size_t i = 0; i < 6; i++) {
        plain_write(n, writes[i], in.bytes + 96 * i, 6 * n, in.write_frames[i], 132);
        plain_write(n, reads[i], NULL, 0, in.read_frames[i], 132);
        plain_write(n, RIG_WRCFGA, in.bytes + 96 * i, 6 * n, in.write_cfga[i], 132);
        plain_write(n, RIG_RDCFGA, NULL, 0, in.read_cfga[i], 132);
        plain_write(n, i % 2 == 0 ? RIG_CLRCELL : RIG_CLRAUX, NULL, 0, in.clear_frames[i], 132);
        plain_write(n, in.codes[i], NULL, 0, in.conversion_frames[i], 132);
        plain_chain(n, in.read_frames[i], 4 + 8 * n, work.state, RIG_STATE_BYTES(n), in.replies[RIG_MARK_READ][i], 132);
        spoil(n, i);
        assert_marks(n, i);
    }
}

static uint32_t devices_of(const struct row *row)
{
    return row->n <= 16 ? row->n : 1;
}

static int same_readings(const struct rig_readings *a, const struct rig_readings *b)
{
    return a->number == b->number && a->valid == b->valid && a->unmeasured == b->unmeasured &&
           !memcmp(a->counts, b->counts, sizeof a->counts);
}

static int same_tally(const struct rig_tally *a, const struct rig_tally *b)
{
    return a->replies == b->replies && a->read == b->read && a->wrong == b->wrong && a->silent == b->silent;
}

static int same_conversion(const struct rig_conversion *a, const struct rig_conversion *b)
{
    return a->number == b->number && a->command == b->command && a->mode == b->mode && a->discharge == b->discharge &&
           a->pull_up == b->pull_up && a->choice == b->choice;
}

static int same_record(const struct rig_record *a, const struct rig_record *b)
{
    return a->number == b->number && a->end == b->end && a->kind == b->kind && a->body == b->body && a->body_len == b->body_len &&
           a->next == b->next;
}

static int same_walk(const struct rig_walk *a, const struct rig_walk *b)
{
    return a->number == b->number && a->at == b->at && a->sizes == b->sizes && a->frames == b->frames && a->replies == b->replies &&
           a->notes == b->notes && a->unknown == b->unknown;
}

static int same_work(const struct work *a, const struct work *b)
{
    return !memcmp(a->state, b->state, sizeof a->state) && !memcmp(a->out, b->out, sizeof a->out) &&
           !memcmp(a->reply, b->reply, sizeof a->reply) && !memcmp(a->data, b->data, sizeof a->data) &&
           !memcmp(a->marks, b->marks, sizeof a->marks) && same_readings(&a->readings, &b->readings) &&
           same_tally(&a->tally, &b->tally) && same_conversion(&a->conversion, &b->conversion) &&
           !memcmp(a->put, b->put, sizeof a->put) && same_record(&a->record, &b->record) && same_walk(&a->walk, &b->walk) &&
           a->sum == b->sum;
}

/* Every maker gives the same on the inputs that are timed, after each count of turns up to SETS. */
static void assert_same(const struct row *row)
{
    static struct work ours;

    for (size_t turns = 1; turns <= SETS; turns++)
        for (size_t m = 0; m < MAKERS; m++) {
            make_frames(devices_of(row));
            row->turn(&makers[m], row->n, turns);
            if (m == 0) {
                ours = work;
            } else if (!same_work(&ours, &work)) {
                fprintf(stderr, "bench: %s: %s and %s differ after %zu calls; one of them is wrong, so nothing is timed\n",
                        row->name, makers[0].name, makers[m].name, turns);
                exit(1);
            }
        }
}

static double cpu_seconds(void)
{
    struct timespec t;

    clock_gettime(CLOCK_PROCESS_CPUTIME_ID, &t);
    return (double)t.tv_sec + 1e-9 * (double)t.tv_nsec;
}

static double time_run(const struct row *row, const struct maker *m, size_t turns)
{
    double start;

    memset(&work.tally, 0, sizeof work.tally);
    start = cpu_seconds();
    row->turn(m, row->n, turns);
    return cpu_seconds() - start;
}

/* So many turns that the fastest maker takes long enough. */
static size_t turns_for(const struct row *row)
{
    size_t turns = 1;

    for (size_t m = 0; m < MAKERS;)
        if (time_run(row, &makers[m], turns) < SHORTEST_RUN)
            turns *= 2;
        else
            m++;
    return turns;
}

static int ascending(const void *a, const void *b)
{
    double x = *(const double *)a, y = *(const double *)b;

    return (x > y) - (x < y);
}

static double median(double *values, size_t count)
{
    qsort(values, count, sizeof *values, ascending);
    return values[count / 2];
}

/* A ratio, the goal that it has and whether it is met; whether it is missed. */
static int show_ratio(double ratio, double goal)
{
    if (goal > 0)
        printf(" %10.2f  %4.2f %-6s", ratio, goal, ratio <= goal ? "met" : "MISSED");
    else
        printf(" %10.2f  %4s %-6s", ratio, "-", "");
    return goal > 0 && ratio > goal;
}

/* What the rounds found of a row, and whether it was asked for. */
static struct timed {
    int asked;
    size_t turns;
    double nanoseconds[ROUNDS], archive[ROUNDS], printed[ROUNDS], again[ROUNDS], second[ROUNDS];
} timed[ROWS];

/* The same with the stack so many bytes deeper. */
static double time_deeper(size_t depth, const struct row *row, const struct maker *m, size_t turns)
{
    volatile char above[depth];

    above[0] = 0;
    return time_run(row, m, turns) + above[0];
}

/* In a round every maker runs once, each round beginning with the next one; a ratio is taken within its round. From round to round the
   stack moves through a page, so that no ratio hangs on where it lies beside what a call is lent: processors tell an earlier store from
   a load by where they stand in a page. */
static void time_round(const struct row *row, struct timed *t, size_t round)
{
    double took[MAKERS];
    size_t depth = 16 + round * PAGE / ROUNDS / 16 * 16;

    make_frames(devices_of(row));
    for (size_t i = 0; i < MAKERS; i++) {
        size_t m = (round + i) % MAKERS;
        took[m] = time_deeper(depth, row, &makers[m], t->turns);
    }
    t->nanoseconds[round] = 1e9 * took[ARCHIVE] / (double)t->turns;
    t->archive[round] = took[ARCHIVE] / took[PLAIN];
    t->printed[round] = took[PRINTED] / took[PLAIN];
    t->again[round] = took[AGAIN] / took[PLAIN];
    t->second[round] = took[ARCHIVE] / took[SECOND];
}

/* The rounds of a row are spread over the whole run, so that a neighbour who is busy for a while meets few of them. */
static void time_rounds(void)
{
    for (size_t round = 0; round < ROUNDS; round++) {
        for (size_t i = 0; i < ROWS; i++)
            if (timed[i].asked)
                time_round(&rows[i], &timed[i], round);
        if (isatty(STDERR_FILENO))
            fprintf(stderr, "\rround %zu of %d%s", round + 1, ROUNDS, round + 1 < ROUNDS ? "" : "\n");
    }
}

static int show_row(const struct row *row, struct timed *t)
{
    printf("%-27s %9.1f", row->name, median(t->nanoseconds, ROUNDS));
    int missed = show_ratio(median(t->archive, ROUNDS), IS_ARCHIVE ? row->goal : 0);
    missed += show_ratio(median(t->printed, ROUNDS), row->printed_goal);
    printf(" %9.2f %9.2f\n", median(t->again, ROUNDS), median(t->second, ROUNDS));
    return missed;
}

/* SETS calls of one row by one maker, for a tool that counts instructions. */
static int run_one(const char *maker, const char *row)
{
    for (size_t m = 0; m < MAKERS; m++)
        for (size_t i = 0; i < ROWS; i++)
            if (makers[m].name != NULL && !strcmp(makers[m].name, maker) && !strcmp(rows[i].name, row)) {
                make_frames(devices_of(&rows[i]));
                rows[i].turn(&makers[m], rows[i].n, SETS);
                return 0;
            }
    fprintf(stderr, "bench: there is no maker '%s' or no row '%s'; bench --rows prints the rows\n", maker, row);
    return 2;
}

static int show_rows(void)
{
    for (size_t i = 0; i < ROWS; i++)
        puts(rows[i].name);
    return 0;
}

/* The rows with the word in their name, or all: how many. */
static int ask_rows(const char *word)
{
    int asked = 0;

    for (size_t i = 0; i < ROWS; i++)
        if (word == NULL || strstr(rows[i].name, word) != NULL) {
            assert_same(&rows[i]);
            make_frames(devices_of(&rows[i]));
            timed[i].asked = 1;
            timed[i].turns = turns_for(&rows[i]);
            asked++;
        }
    return asked;
}

static int time_rows(const char *word)
{
    int missed = 0;

    if (ask_rows(word) == 0) {
        fprintf(stderr, "bench: %s: no row has that in its name; with no argument all rows are timed\n", word);
        return 2;
    }
    time_rounds();
    printf("Time of a call of the archive, and the ratios of the archive's and of rig.c's time (gcc -O2) to the same work in plain C (gcc -O2,\n"
           "table of 256), of plain C's to its own, and of the archive's to second/ (Rust, release, bit by bit): under 1 is faster. Medians of\n"
           "%d rounds in one process, in each of which every maker runs for at least %.0f ms of processor time on the same inputs, and the rows\n"
           "by turns. First it is checked that all agree.\n\n",
           ROUNDS, 1e3 * SHORTEST_RUN);
    if (!IS_ARCHIVE)
        puts("The archive is for x86-64, and this is another processor: its columns are those of rig.c once more, at other addresses.\n");
    printf("%-27s %9s %10s  %4s %-6s %10s  %4s %-6s %9s %9s\n", "", "ns a call", "archive", "goal", "", "rig.c", "goal", "", "plain", "to second");
    for (size_t i = 0; i < ROWS; i++)
        if (timed[i].asked)
            missed += show_row(&rows[i], &timed[i]);
    printf("\n%d goals missed.\n", missed);
    return 0;
}

int main(int words, char **word)
{
    make_inputs();
    if (words == 2 && !strcmp(word[1], "--rows"))
        return show_rows();
    if (words == 4 && !strcmp(word[1], "--run"))
        return run_one(word[2], word[3]);
    if (makers[SECOND].name == NULL) {
        fprintf(stderr, "bench: built without second/: nothing is timed, and only --rows and --run are taken\n");
        return 2;
    }
    return time_rows(words < 2 ? NULL : word[1]);
}
