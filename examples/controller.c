/* A controller over rig.h: it configures a chain of cell monitors, clears their cells, polls those of every device over a noisy wire,
   once before the first conversion and then after each, and shows what each device reported. The chain is simulated by rig_chain and
   the wire by wire.c; the rest is what a builder's controller does. */
#include "controller.h"

#include <errno.h>
#include <stdio.h>
#include <stdlib.h>
#include <string.h>

enum { POLL_EVERY = 100000, MICROSECONDS_A_BYTE = 8, CELL_GROUPS = 6, MOST_TRIES = 1000, PROGRESS = 100000 };

/* ADCV of all cells at 7 kHz takes at most 2,488 microseconds (tCYCLE) where the reference is on, as our CFGA has it. */
enum { NORMAL = 2, ALL_CELLS = 0, CONVERSION_TIME = 2488 };

/* What a device holds for a cell that it has not measured since a clear. */
enum { CLEARED = 0xFFFF };

static const uint32_t read_cells[CELL_GROUPS] = {RIG_RDCVA, RIG_RDCVB, RIG_RDCVC,
                                                  RIG_RDCVD, RIG_RDCVE, RIG_RDCVF};

/* A configuration group: how it is written and read, its bytes, and the bits of the first one that the device sets itself. */
struct config {
    uint32_t write_code, read_code;
    uint8_t bytes[6], read_only;
};

/* What the chain answered to one read: bytes and marks, and the reply itself for the old rule. */
struct answer {
    uint8_t reply[RIG_FRAME_BYTES(RIG_DEVICES)], data[RIG_DATA_BYTES(RIG_DEVICES)], marks[RIG_DEVICES];
};

/* Six groups of each device, as rig_cells wants them. */
struct poll {
    uint8_t groups[RIG_DEVICES][36], marks[RIG_DEVICES][CELL_GROUPS];
};

/* Ends a run that failed. The log is closed first: this is the one that a builder wants to send in. */
static void give_up(struct wire_log *log)
{
    log_close(log);
    exit(1);
}

void want_done(struct wire_log *log, const char *call, uint8_t number)
{
    if (number != RIG_DONE) {
        fprintf(stderr, "controller: %s came back with number %u, though its arguments are in order: this is a fault of the rig\n", call,
                number);
        give_up(log);
    }
}

static void wait_for_port(struct controller *c)
{
    struct rig_wait wake = rig_wake(c->options.devices, c->last, c->clock);

    want_done(&c->log, "rig_wake", wake.number);
    c->clock += wake.wait;
    c->waited += wake.wait;
    c->waits += wake.wait > 0;
}

/* The promise, for noise that it allows: a device took part exactly where neither the command nor its own group was hit. */
static void want_promise(struct controller *c, uint32_t hit, uint32_t took_part)
{
    if (c->options.noise == NOISE_WILD)
        return;
    for (uint32_t k = 1; k <= c->options.devices; k++) {
        uint32_t spared = !(hit & 1) && !(hit >> k & 1);
        if ((took_part >> (k - 1) & 1) != spared) {
            fprintf(stderr, "controller: device %u %s: the promise is broken (seed %u)\n", k,
                    spared ? "was passed over, though neither its group nor the command was hit"
                           : "took part, though its group or the command was hit",
                    c->options.seed);
            give_up(&c->log);
        }
    }
}

/* One frame over the wire, at the clock's time. `data` is in device order; all but a write take none. */
static struct trip send_frame(struct controller *c, enum way way, uint32_t code, const uint8_t *data, uint8_t *reply)
{
    uint8_t frame[RIG_FRAME_BYTES(RIG_DEVICES)];
    uint32_t n = c->options.devices;
    struct rig_written written;
    struct trip trip;

    wait_for_port(c);
    written = rig_write(n, code, data, way == WAY_WRITE ? RIG_DATA_BYTES(n) : 0, frame, sizeof frame);
    want_done(&c->log, "rig_write", written.number);
    log_frame(&c->log, frame, written.length);
    trip = wire_carry(&c->wire, way, frame, c->state, reply);
    log_reply(&c->log, reply, written.length);
    c->clock += MICROSECONDS_A_BYTE * (uint32_t)written.length;
    c->last = c->clock;
    c->frames++;
    return trip;
}

static void ask(struct controller *c, uint32_t code, struct answer *answer)
{
    uint32_t n = c->options.devices, read = 0;
    struct trip trip = send_frame(c, WAY_READ, code, NULL, answer->reply);
    uint8_t number = rig_read(n, code, answer->reply, RIG_FRAME_BYTES(n), answer->data, sizeof answer->data, answer->marks, n);

    want_done(&c->log, "rig_read", number);
    want_done(&c->log, "rig_tally_add", rig_tally_add(&c->tally, answer->marks, n));
    for (uint32_t k = 0; k < n; k++)
        if (answer->marks[k] == RIG_MARK_READ)
            read |= (uint32_t)1 << k;
    want_promise(c, trip.hit, read);
}

/* The simulated board ties DTEN high on every second device. */
static void tie_pins(struct controller *c)
{
    for (uint32_t k = 2; k <= c->options.devices; k += 2)
        c->state[RIG_PIN_PLACE(k)] = 1;
}

/* What device k showed of its DTEN pin; for noise that the promise allows that is how the board ties it. */
static void note_pin(struct controller *c, uint32_t k, int high)
{
    if (high != c->state[RIG_PIN_PLACE(k)] && c->options.noise != NOISE_WILD) {
        fprintf(stderr, "controller: device %u shows its DTEN pin %s, though the board ties it %s: the promise is broken (seed %u)\n", k,
                high ? "high" : "low", high ? "low" : "high", c->options.seed);
        give_up(&c->log);
    }
    c->dten = (c->dten & ~((uint32_t)1 << (k - 1))) | (uint32_t)high << (k - 1);
}

/* Whether a device holds what was written: a bit that it sets itself may read otherwise. */
static int is_held(const struct config *config, const uint8_t *back)
{
    return ((back[0] ^ config->bytes[0]) & ~config->read_only) == 0 && memcmp(back + 1, config->bytes + 1, 5) == 0;
}

/* The devices that were seen to hold the group, bit k - 1 for device k. */
static uint32_t seen_to_hold(struct controller *c, const struct config *config, const struct answer *answer)
{
    uint32_t seen = 0;

    for (uint32_t k = 1; k <= c->options.devices; k++) {
        const uint8_t *back = answer->data + 6 * (k - 1);
        if (answer->marks[k - 1] != RIG_MARK_READ)
            continue;
        if (config->read_code == RIG_RDCFGA)
            note_pin(c, k, (back[0] & RIG_DTEN) != 0);
        if (is_held(config, back))
            seen |= (uint32_t)1 << (k - 1);
    }
    return seen;
}

/* Writes one configuration group of all devices and reads it back, until each device has been seen to hold it. */
static void configure(struct controller *c, const struct config *config)
{
    uint32_t n = c->options.devices, all = ((uint32_t)1 << n) - 1, seen = 0;
    uint8_t data[RIG_DATA_BYTES(RIG_DEVICES)], silence[RIG_FRAME_BYTES(RIG_DEVICES)];
    struct answer answer;

    for (uint32_t k = 0; k < n; k++)
        memcpy(data + 6 * k, config->bytes, 6);
    for (uint32_t i = 0; i < MOST_TRIES && seen != all; i++) {
        struct trip trip = send_frame(c, WAY_WRITE, config->write_code, data, silence);
        want_promise(c, trip.hit, trip.heard.word);
        ask(c, config->read_code, &answer);
        seen |= seen_to_hold(c, config, &answer);
        c->tries++;
    }
    if (seen != all) {
        fprintf(stderr, "controller: command %03X did not reach every device in %d tries: the wire is too noisy\n", config->write_code,
                MOST_TRIES);
        give_up(&c->log);
    }
}

/* What the devices measure is laid into their registers, as rig_chain measures nothing: each cell at its own level, with a small stir. */
static void measure_cells(struct controller *c)
{
    for (uint32_t k = 0; k < c->options.devices; k++)
        for (uint32_t cell = 0; cell < RIG_CELLS; cell++) {
            uint32_t level = (k * 18 + cell) * 2477 % (HIGHEST_CELL - LOWEST_CELL - 100);
            uint32_t count = LOWEST_CELL + level + wire_random(&c->wire, 101);
            uint8_t *at = c->state + RIG_GROUP_PLACE(k + 1, RIG_GROUP_CVA) + 2 * cell;
            at[0] = (uint8_t)count;
            at[1] = (uint8_t)(count >> 8);
        }
}

/* A command group alone: whether the devices heard it. The line stays silent, so a controller does not see that. */
static int send_command(struct controller *c, uint32_t code)
{
    uint8_t silence[RIG_COMMAND_BYTES];
    struct trip trip = send_frame(c, WAY_COMMAND, code, NULL, silence);

    want_promise(c, trip.hit, trip.heard.word);
    return trip.heard.number == RIG_DONE;
}

/* Every device is to measure its cells. */
static void start_conversion(struct controller *c)
{
    struct rig_code adcv = rig_conversion_code(RIG_CONVERT_ADCV, NORMAL, 0, 0, ALL_CELLS);

    want_done(&c->log, "rig_conversion_code", adcv.number);
    if (send_command(c, adcv.code)) {
        measure_cells(c);
        c->heard++;
    }
    c->conversions++;
    c->clock += CONVERSION_TIME;
}

/* A valid cell has to be what the device holds, and measured; an unmeasured one has to be as a clear leaves it; and the others have to
   be those of the groups that were not read. A count is 0 where it is not valid. */
static void count_cells(struct controller *c, uint32_t k, const uint8_t *marks, const struct rig_readings *r)
{
    const uint8_t *cells = c->state + RIG_GROUP_PLACE(k + 1, RIG_GROUP_CVA);
    struct counts *ours = &c->ours[k];

    for (uint32_t cell = 0; cell < RIG_CELLS; cell++) {
        uint16_t count = r->counts[cell], held = (uint16_t)(cells[2 * cell] | cells[2 * cell + 1] << 8);
        int read = marks[cell / 3] == RIG_MARK_READ;
        if (r->valid >> cell & 1) {
            ours->valid++;
            ours->alarms += count > LIMIT;
            if (count > ours->highest)
                ours->highest = count;
            c->false_cells += !read || count != held || held == CLEARED;
        } else if (r->unmeasured >> cell & 1) {
            ours->unmeasured++;
            c->false_cells += !read || held != CLEARED || count != 0;
        } else {
            ours->not_read++;
            c->false_cells += read || count != 0;
        }
    }
}

static void count_marks(struct controller *c, uint32_t k, const uint8_t *marks)
{
    for (uint32_t g = 0; g < CELL_GROUPS; g++) {
        c->ours[k].read += marks[g] == RIG_MARK_READ;
        c->ours[k].wrong += marks[g] == RIG_MARK_WRONG;
        c->ours[k].silent += marks[g] == RIG_MARK_SILENT;
    }
}

/* One poll: CVA to CVF of every device, then the cells of each device. The old rule is asked where `old` is not NULL. */
static void poll_cells(struct controller *c, struct old_counts *old)
{
    uint32_t n = c->options.devices;
    struct answer answer;
    struct poll all;

    for (uint32_t g = 0; g < CELL_GROUPS; g++) {
        ask(c, read_cells[g], &answer);
        if (old != NULL)
            old_rule_take(n, answer.reply, LIMIT, old);
        for (uint32_t k = 0; k < n; k++) {
            memcpy(all.groups[k] + 6 * g, answer.data + 6 * k, 6);
            all.marks[k][g] = answer.marks[k];
        }
    }
    for (uint32_t k = 0; k < n; k++) {
        struct rig_readings readings = rig_cells(all.groups[k], 36, all.marks[k], CELL_GROUPS);
        want_done(&c->log, "rig_cells", readings.number);
        count_marks(c, k, all.marks[k]);
        count_cells(c, k, all.marks[k], &readings);
    }
}

/* The log's head: what a reader has to know of the run. */
static void log_start(struct controller *c)
{
    char text[80];

    log_open(&c->log, c->options.log);
    log_size(&c->log, c->options.devices);
    sprintf(text, "seed %u, noise %s, polls %u", c->options.seed, noise_names[c->options.noise], c->options.polls);
    log_note(&c->log, text);
}

static void log_poll(struct controller *c, uint32_t poll)
{
    char text[40];

    sprintf(text, "poll %u", poll);
    log_note(&c->log, text);
}

static void run(struct controller *c)
{
    /* In CFGA the pull-downs of GPIO 1 to 5 off and the reference on, in CFGB the pull-downs of GPIO 6 to 9 off. */
    static const struct config cfga = {RIG_WRCFGA, RIG_RDCFGA, {0xFC, 0, 0, 0, 0, 0}, RIG_DTEN};
    static const struct config cfgb = {RIG_WRCFGB, RIG_RDCFGB, {0x0F, 0, 0, 0, 0, 0}, 0};
    uint32_t due;

    log_note(&c->log, "configuration");
    configure(c, &cfga);
    configure(c, &cfgb);
    measure_cells(c); /* what the devices have from before */
    log_note(&c->log, "clear, and a poll before the first conversion");
    c->cleared = send_command(c, RIG_CLRCELL); /* so that it passes for no reading, should the first conversion be lost */
    poll_cells(c, NULL); /* shows whether it was heard; the old rule, which would take each cell for 6.5535 V, is left out */
    due = c->clock;
    for (uint32_t i = 1; i <= c->options.polls; i++) {
        due += POLL_EVERY;
        c->clock = due;
        log_poll(c, i);
        start_conversion(c);
        poll_cells(c, c->old);
        if (i % PROGRESS == 0)
            fprintf(stderr, "controller: %u of %u polls\n", i, c->options.polls);
    }
}

int main(int count, char **words)
{
    static struct controller c; /* all zero */
    int status;

    c.options.devices = RIG_DEVICES;
    c.options.polls = 1000;
    c.options.seed = 1;
    c.options.noise = NOISE_BURST;
    status = options_read(count, words, &c.options);
    if (status != 0)
        return status == 1 ? 0 : status;

    c.clock = UINT32_MAX - 2000000; /* two seconds before the clock runs past its end */
    c.last = c.clock - 1000000;
    wire_start(&c.wire, c.options.noise, c.options.devices, c.options.seed);
    tie_pins(&c);
    log_start(&c);
    run(&c);
    log_close(&c.log);
    report(&c);
    if (fflush(stdout) != 0 || ferror(stdout)) {
        fprintf(stderr, "controller: the table could not be written (%s): make room where it goes, or send it elsewhere\n", strerror(errno));
        return 1;
    }
    return c.false_cells > 0 && c.options.noise != NOISE_WILD;
}
