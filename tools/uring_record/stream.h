/* A trace of version 3 is written while the command runs, and so are its results: records in their
 * order, as soon as what they need is known. What is written is kept no more. */
#ifndef STREAM_H
#define STREAM_H

#include "common.h"

/* Writes what is before the first record, in version 3. */
void begin_stream(void);
/* Writes the records that are known, up to the first one that is not. No pointer to an entry that
 * is in flight no more may be kept over this call. */
void write_known(void);
/* Gives the files what was written. */
void flush_stream(void);
/* Writes the rest, and ends the trace and the results, which have a tree or not; gives how many
 * bytes the trace has. */
struct final_tree;
u64 end_stream(const struct final_tree *tree);

#endif
