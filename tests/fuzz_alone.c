/* fuzz_alone.c: the fuzz target with no fuzzer, for a target that has none: inputs drawn from a seed.
 *
 *     fuzz_alone INPUTS SEED
 */
#include <stdint.h>
#include <stdio.h>
#include <stdlib.h>

int LLVMFuzzerInitialize(int *count, char ***words);
int LLVMFuzzerTestOneInput(const uint8_t *bytes, size_t length);

enum { LONGEST = 2200 };

static uint64_t state;

/* splitmix64 */
static uint64_t draw(void) {
    uint64_t z = state += UINT64_C(0x9E3779B97F4A7C15);
    z = (z ^ z >> 30) * UINT64_C(0xBF58476D1CE4E5B9);
    z = (z ^ z >> 27) * UINT64_C(0x94D049BB133111EB);
    return z ^ z >> 31;
}

int main(int count, char **words) {
    static uint8_t bytes[LONGEST];
    if (count != 3) {
        fprintf(stderr, "usage: fuzz_alone INPUTS SEED\n");
        return 2;
    }
    unsigned long inputs = strtoul(words[1], NULL, 10);
    state = strtoul(words[2], NULL, 10);
    LLVMFuzzerInitialize(&count, &words);
    for (unsigned long i = 0; i < inputs; i++) {
        size_t length = (size_t)(draw() % (draw() % 4 == 0 ? LONGEST : 200));
        for (size_t k = 0; k < length; k++) {
            bytes[k] = (uint8_t)draw();
        }
        LLVMFuzzerTestOneInput(bytes, length);
    }
    printf("fuzz_alone: inputs run, none failed: %lu\n", inputs);
    return 0;
}
