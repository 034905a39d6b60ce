/* manual.c: the examples of rig.h, compiled and run as they stand there. make takes them out to manual.inc. */
#include "rig.h"

#include <stdio.h>

static unsigned pulses, slept, measured;
static size_t shown;

static void send_wake_pulse(void) { pulses++; }

static void sleep_us(uint32_t wait) { slept += wait; }

static void measure_again(void) { measured++; }

static void show_frame(const uint8_t *frame, size_t length) { shown += frame[0] == 0x03 ? length : 0; }

int main(void) {
    double volts = 1;
#include "manual.inc"
    int good = word == 0x3D6E && out.number == RIG_DONE && state[1743] == 1 && heard.number == RIG_DONE && number == RIG_DONE &&
               added == RIG_DONE && tally.read == 16 && volts == 0 && measured == 1 && pulses == 1 && slept == 160 && start.code == 0x360 &&
               started.length == 4 && taken.command == RIG_CONVERT_ADCV && taken.mode == 2 && size.length == 5 &&
               sent.length == 136 && shown == 132 && whole.number == RIG_DONE && whole.at == sizeof log && whole.sizes == 1 && whole.frames == 1;
    printf("manual: the examples of rig.h %s\n", good ? "do what they say" : "do not do what they say");
    return good ? 0 : 1;
}
