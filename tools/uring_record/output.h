/* What is written once the command has ended: a trace of version 1 or 2, and the kernel's results.
 * stream.h has version 3. */
#ifndef OUTPUT_H
#define OUTPUT_H

#include "sink.h"
#include "trace.h"

/* Ends the recorder where a file could not be written later: tried before the command runs. */
void try_output(const char *path);
/* Whether a full path is that of a file that the recorder writes: it is not in the tree. */
bool is_output(const char *full);
struct final_tree;
/* Writes a trace of version 1 or 2 and its results; gives how many bytes the trace has. Where a
 * disk is full they have fewer records, or none. */
u64 write_both(const struct final_tree *tree);
/* Ends the recording since a file takes no more. */
void end_for(const struct sink *file);
/* Notes that nothing of it is there. */
void note_no_room(void);

/* Numbers of the table that are taken by what is no file of the tree lead to the root, to be read:
 * whether there are some, and what is at a number: a description from 1, or 0. */
bool has_taken_numbers(void);
u32 description_at(u32 number);
/* Puts all descriptions, with that of the root for these numbers behind them. */
void put_descriptions(bool has_root);

/* The tree below the root as it is now: kept before anything is written, which may be below the
 * root too. */
struct final_tree *read_final_tree(void);
/* The results: docs/FORMAT.md has their form. Without a tree they have no such part. In version 3
 * they begin with the trace, and each record's are put when they are known; they are given to the
 * file behind the trace. */
#define RESULTS_END "end\n"
void open_results(void);
struct sink *results_file(void);
void write_results_of(const struct record *record);
/* How many bytes were put. */
u64 results_put(void);
void end_results(const struct final_tree *tree);
/* Puts all of them at the end. */
void write_results(const struct final_tree *tree);

#endif
