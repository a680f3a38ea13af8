/* What the files of the test share: the counts of what held, and the tests that main runs. */
#ifndef TEST_H
#define TEST_H

extern unsigned passed, failed;
void expect(int holds, const char *what, const char *part);

/* numbers that tests draw, the same in every run */
unsigned random_below(unsigned end);

void test_calls(void);
void test_thinning(void);
void test_reading(void);
void test_writing(void);
void test_round_trips(void);

#endif
