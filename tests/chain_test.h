/* chain_test.h: the tests of rig_chain, which rig_test runs. */
#ifndef CHAIN_TEST_H
#define CHAIN_TEST_H

#include <stddef.h>
#include <stdint.h>

/* One frame to n devices, with lent buffers of these lengths, and with pins both ways: number, word, state and reply are the plain
 * chain's. */
void one_chain(uint32_t n, const uint8_t *frame, size_t length, size_t state_len, size_t reply_len);

void test_chain(void);
void test_places(void);
void test_pin_values(void);
void test_written(void);
void test_pins_stay(void);
void test_pin_change(void);

#endif
