/* The start of the trace: the tree, the open descriptions and the descriptor table. */
#ifndef START_H
#define START_H

#include "trace.h"

/* Reads all of it, once, at the first submission: the descriptor table is that of the process. */
void start(pid_t process);
bool is_started(void);
/* Nanoseconds from the end of the start on, so that reading the tree is not counted: the clock is
 * read once in each stop of the command. */
u64 time_now(void);
/* With --touched: the command is about to use the file that a descriptor of the recorder leads to,
 * or one of a full path, whose bytes are stored now. */
void is_touched(int descriptor);
void is_touched_by_name(const char *full);
/* Puts the bytes of a file of the start by ranges, as they are now. */
void put_file_ranges(const struct item *item);
/* For a command that submitted nothing: its trace has the tree, as it is now, and nothing else. */
void start_without_submission(void);
/* The process whose descriptors are the table. */
pid_t home_process(void);
/* The description of the start that a descriptor of the recorder leads to, or -1. With `adds` it
 * becomes one. */
i64 description_of(int descriptor, bool adds);

#endif
