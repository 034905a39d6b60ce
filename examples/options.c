/* The controller's command line. */
#include "controller.h"

#include <stdio.h>
#include <string.h>

const char *const noise_names[3] = {"none", "burst", "wild"};

static void help(void)
{
    puts("usage: controller [--devices N] [--polls N] [--noise none|burst|wild] [--seed N] [--log FILE]\n"
         "\n"
         "Configures a simulated chain of cell monitors, clears its cells and polls them once, then starts conversions and polls the\n"
         "cells after each, all over a noisy wire. Shows what each device reported, and what a reader by the old nine-in-ten rule would\n"
         "have made of the replies after the conversions.\n"
         "\n"
         "  --devices N   devices in the chain, 1 to 16 (16)\n"
         "  --polls N     conversions, each with a poll of all cells, 1 to 1000000 (1000)\n"
         "  --noise SORT  none; burst: as the promise allows, on one way of a frame, within 15 neighbouring bits of a group; wild:\n"
         "                at random, beyond the promise (burst)\n"
         "  --seed N      0 to 4294967295: the same seed gives the same run (1)\n"
         "  --log FILE    also write what passed to FILE, each frame as sent and each reply as received; showlog prints it (no log)\n"
         "  --help        this text\n"
         "\n"
         "Status: 0 all went as promised (of wild noise nothing is promised); 1 a promise was broken, the chain could not be configured\n"
         "or the table or the log not be written; 2 bad arguments.");
}

/* A whole number of decimal digits from `least` to `most`. */
static int number(const char *text, uint32_t least, uint32_t most, uint32_t *value)
{
    uint64_t sum = 0;

    if (*text == '\0')
        return 0;
    for (; *text != '\0'; text++) {
        if (*text < '0' || *text > '9')
            return 0;
        sum = 10 * sum + (uint64_t)(*text - '0');
        if (sum > most)
            return 0;
    }
    *value = (uint32_t)sum;
    return sum >= least;
}

static int noise_of(const char *text, enum noise *noise)
{
    for (int i = 0; i < 3; i++)
        if (strcmp(text, noise_names[i]) == 0) {
            *noise = (enum noise)i;
            return 1;
        }
    return 0;
}

/* Takes one option with its value. Returns what a right value would be, or NULL where this one is right. */
static const char *take(const char *name, const char *value, struct options *options)
{
    if (strcmp(name, "--devices") == 0)
        return number(value, 1, RIG_DEVICES, &options->devices) ? NULL : "a chain has 1 to 16 devices";
    if (strcmp(name, "--polls") == 0)
        return number(value, 1, 1000000, &options->polls) ? NULL : "give a whole number from 1 to 1000000";
    if (strcmp(name, "--seed") == 0)
        return number(value, 0, UINT32_MAX, &options->seed) ? NULL : "give a whole number from 0 to 4294967295";
    if (strcmp(name, "--log") == 0) {
        options->log = value;
        return *value != '\0' ? NULL : "name the file to write";
    }
    return noise_of(value, &options->noise) ? NULL : "give none, burst or wild";
}

static int is_option(const char *word)
{
    static const char *const names[] = {"--devices", "--polls", "--seed", "--noise", "--log"};

    for (int i = 0; i < 5; i++)
        if (strcmp(word, names[i]) == 0)
            return 1;
    return 0;
}

int options_read(int count, char **words, struct options *options)
{
    for (int i = 1; i < count; i += 2) {
        const char *wanted;

        if (strcmp(words[i], "--help") == 0) {
            help();
            return 1;
        }
        if (!is_option(words[i])) {
            fprintf(stderr, "controller: '%s': there is no such option (a value is a word of its own: --devices 3); --help lists them\n", words[i]);
            return 2;
        }
        if (i + 1 == count) {
            fprintf(stderr, "controller: %s: a value must follow; --help says which\n", words[i]);
            return 2;
        }
        wanted = take(words[i], words[i + 1], options);
        if (wanted != NULL) {
            fprintf(stderr, "controller: %s '%s': %s\n", words[i], words[i + 1], wanted);
            return 2;
        }
    }
    return 0;
}
