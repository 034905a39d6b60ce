/* log_test.h: the tests of the log's entries, which rig_test runs. */
#ifndef LOG_TEST_H
#define LOG_TEST_H

void test_log_put(void);
void test_log_at(void);
void test_log_cuts(void);
void test_log_flips(void);

/* RIG_SEED=N in the environment repeats a run. */
void test_log_random(void);

#endif
