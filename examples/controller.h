/* What the controller counts, and the parts that its files share. */
#ifndef CONTROLLER_H
#define CONTROLLER_H

#include "log.h"
#include "old_rule.h"
#include "wire.h"

/* A cell above 4.25 V is an overvoltage alarm; the cells of the simulated chain lie between 3.3 V and 4.1 V. In counts of 100 uV. */
enum { LIMIT = 42500, LOWEST_CELL = 33000, HIGHEST_CELL = 41000 };

struct options {
    uint32_t devices, polls, seed;
    enum noise noise;
    const char *log; /* the file to log to, or NULL */
};

/* A device by this rig's reader. */
struct counts {
    uint32_t read, wrong, silent;         /* groups */
    uint32_t valid, unmeasured, not_read; /* cells, by rig_cells */
    uint32_t alarms;                      /* valid cells above the limit */
    uint16_t highest;                     /* the highest valid count */
};

struct controller {
    struct options options;
    struct wire wire;
    struct wire_log log;
    uint8_t state[RIG_STATE_BYTES(RIG_DEVICES)]; /* the registers and pins of the chain */
    uint32_t clock, last;              /* microseconds: now, and the end of the last frame */
    uint32_t tries;                    /* rounds of write and read back that it took to configure the chain */
    uint32_t dten;                     /* bit k - 1: device k showed its DTEN pin high */
    int cleared;                       /* the devices heard the clear before the first poll */
    uint32_t conversions, heard;       /* conversions started, and those of them that the devices heard */
    uint32_t frames, waits;            /* frames in all, and those that had to wait for the port to wake */
    uint64_t waited;                   /* microseconds waited */
    struct rig_tally tally;
    struct counts ours[RIG_DEVICES];
    struct old_counts old[RIG_DEVICES];
    uint32_t false_cells; /* cells that rig_cells gives otherwise than their device holds them and their group was marked */
};

/* What --noise calls a noise. */
extern const char *const noise_names[3];

/* Reads the arguments. Returns 0 to go on, 1 where --help was asked for and shown, 2 on a bad argument, with a message. */
int options_read(int count, char **words, struct options *options);

/* A call that is right by its arguments is never refused: where `number` says otherwise it closes the log and ends the controller with
   status 1. */
void want_done(struct wire_log *log, const char *call, uint8_t number);

/* Prints what was polled and found, as a table. */
void report(const struct controller *c);

#endif
