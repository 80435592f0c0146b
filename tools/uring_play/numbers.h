/* The numbers of descriptors: those of the trace's table are the trace's own. */
#ifndef NUMBERS_H
#define NUMBERS_H

#include "common.h"

/* As many descriptors as the system allows; messages and the output get high numbers. */
void prepare_numbers(void);
/* Where the results are collected, and then written to the output. */
FILE *results_file(void);
void deliver_results(void);
/* Moves a descriptor to a number that no table has; one that is no descriptor stays. */
int move_up(int descriptor);
/* The same, but -1 where there are no more numbers. */
int try_move_up(int descriptor);

/* How many descriptors may be held for long, so that there are enough for all else. */
u64 most_held(void);

/* The table of the trace becomes the table of the process, and the limit of open files its size. */
void enter_table(const int *descriptions);
/* Closes all numbers that may be the trace's. */
void leave_table(void);
/* The limit of open files as it was, and as the table has it. */
void let_open(void);
void let_none_open(void);

#endif
