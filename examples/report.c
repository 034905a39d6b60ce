/* The controller's report: what was read of each device, and its alarms, this rig's reader beside the old nine-in-ten rule. */
#include "controller.h"

#include <stdio.h>

static const char *const noises[] = {"none", "bursts within 15 bits of a group, on one way of a frame; it grows towards the far end",
                                     "wild, on both ways of a frame; it grows towards the far end"};

static double volts(uint32_t count)
{
    return count / 10000.0;
}

static void head(const struct options *o)
{
    printf("Chain of %u, seed %u. Sent: clear, poll, then %u x (conversion, poll).\n", o->devices, o->seed, o->polls);
    printf("Noise: %s.\n", noises[o->noise]);
    if (o->noise == NOISE_WILD)
        puts("WILD NOISE IS BEYOND THE PROMISE: one in some tens of thousands of damaged groups is right again.");
}

/* The pin as CFGA showed it, then of every poll the groups, three cells each, and the cells. */
static void table_of_cells(const struct controller *c)
{
    puts("\n        |      |      groups CVA to CVF       |             cells");
    puts(" device | DTEN |     read     wrong    silent |     valid unmeasured  not read");
    puts(" -------+------+------------------------------+-------------------------------");
    for (uint32_t k = 0; k < c->options.devices; k++) {
        const struct counts *ours = &c->ours[k];
        printf(" %6u | %4s | %8u  %8u  %8u | %9u %10u %9u\n", k + 1, c->dten >> k & 1 ? "high" : "low", ours->read, ours->wrong,
               ours->silent, ours->valid, ours->unmeasured, ours->not_read);
    }
}

/* The highest of some counts; of none there is none. */
static void highest(uint32_t counts, uint16_t count)
{
    if (counts > 0)
        printf(" %8.4f", volts(count));
    else
        printf(" %8s", "-");
}

/* As long as the alarms are many, so that the eye finds the far end. */
static void bar(uint32_t alarms, uint32_t most)
{
    uint32_t length = most == 0 ? 0 : (uint32_t)((uint64_t)12 * alarms / most);

    if (length > 0)
        putchar(' ');
    for (uint32_t i = 0; i < length; i++)
        putchar('#');
    putchar('\n');
}

static uint32_t most_alarms(const struct controller *c)
{
    uint32_t most = 0;

    for (uint32_t k = 0; k < c->options.devices; k++)
        if (c->old[k].alarms > most)
            most = c->old[k].alarms;
    return most;
}

static void table_of_alarms(const struct controller *c)
{
    printf("\nEvery cell has %.1f V to %.1f V. Above %.2f V is an alarm for overvoltage, so every alarm is false.\n",
           volts(LOWEST_CELL), volts(HIGHEST_CELL), volts(LIMIT));
    puts("The old rule is left out of the poll after the clear: it takes a cleared cell for 6.5535 V.\n");
    puts("        | THIS RIG: each    | OLD RULE: above 9 in 10 groups right, all are kept");
    puts("        | group by itself   |   groups               right");
    puts(" device |    max V   alarms |     kept     wrong   dropped    max V   alarms");
    puts(" -------+-------------------+-----------------------------------------------");
    for (uint32_t k = 0; k < c->options.devices; k++) {
        const struct counts *ours = &c->ours[k];
        const struct old_counts *old = &c->old[k];
        printf(" %6u |", k + 1);
        highest(ours->valid, ours->highest);
        printf(" %8u | %8u  %8u  %8u", ours->alarms, old->kept, old->wrong_kept, old->right_dropped);
        highest(old->kept, old->highest);
        printf(" %8u", old->alarms);
        bar(old->alarms, most_alarms(c));
    }
}

static void sums(const struct controller *c, struct counts *ours, struct old_counts *old)
{
    for (uint32_t k = 0; k < c->options.devices; k++) {
        ours->valid += c->ours[k].valid;
        ours->unmeasured += c->ours[k].unmeasured;
        ours->not_read += c->ours[k].not_read;
        ours->alarms += c->ours[k].alarms;
        old->alarms += c->old[k].alarms;
        old->right_dropped += c->old[k].right_dropped;
    }
}

static void promise(const struct controller *c, uint32_t cells)
{
    if (c->options.noise == NOISE_WILD) {
        printf("Beyond the promise: of %u cells %u are not what rig_cells says of them.\n", cells, c->false_cells);
    } else if (c->false_cells > 0) {
        printf("WRONG: of %u cells %u are not what rig_cells says of them: the promise is broken (seed %u).\n", cells, c->false_cells,
               c->options.seed);
    } else {
        printf("Checked: each of %u cells is what rig_cells says of it: valid, unmeasured or not read.\n", cells);
        puts("Checked: a group was read exactly where noise spared it and its command.");
        puts("Checked: each device showed its DTEN pin as the board ties it, high on every second one.");
    }
}

void report(const struct controller *c)
{
    struct counts ours = {0};
    struct old_counts old = {0};

    head(&c->options);
    table_of_cells(c);
    table_of_alarms(c);
    sums(c, &ours, &old);
    printf("\nCells: %u valid, %u unmeasured (read, and as a clear leaves them), %u not read.\n", ours.valid, ours.unmeasured,
           ours.not_read);
    printf("Alarms: %u by this rig; %u by the old rule, which also dropped %u right groups.\n", ours.alarms, old.alarms,
           old.right_dropped);
    if (c->options.devices <= 10)
        puts("Above nine in ten of up to ten devices is all of them: there the old rule keeps no wrong group.");
    printf("Configured in %u rounds of write and read back; in CFGA the bit DTEN shows the pin.\n", c->tries);
    printf("Clear (CLRCELL): 1 sent; %s.\n", c->cleared ? "every device heard it" : "no device heard it, and each kept what it had");
    printf("Conversions (ADCV): %u sent; every device heard %u, and no device the other %u.\n", c->conversions, c->heard,
           c->conversions - c->heard);
    printf("Link tally with configuration: %u replies; %u groups read, %u wrong, %u silent.\n", c->tally.replies, c->tally.read,
           c->tally.wrong, c->tally.silent);
    printf("Wake: %u of %u frames waited for the port, %llu us in all.\n", c->waits, c->frames, (unsigned long long)c->waited);
    if (c->options.log != NULL)
        printf("Log: '%s' (make showlog LOG='%s' prints it).\n", c->options.log, c->options.log);
    promise(c, ours.valid + ours.unmeasured + ours.not_read);
}
