/* What cannot be told faithfully, and what was counted: said at the end on standard error. */
#ifndef NOTES_H
#define NOTES_H

#include "trace.h"

/* Notes that something is not told faithfully, at an entry (and another), or NULL for "here". */
void note(const char *what, const struct entry *entry);
/* Notes something of the whole recording, which has no place. */
void note_of_all(const char *what);
/* Notes a write whose bytes are not told for sure. */
void note_late(const struct entry *entry);
void note_pair(const char *what, const struct entry *one, const struct entry *other);
/* The same with the name of a file. */
void note_name(const char *what, const char *name);

struct counts {
	u64 opcodes[256];
	u64 flags[8];
	u64 by_slot, by_descriptor, at_position;
	u64 calls;	   /* ordinary calls that are recorded */
	u64 fills, filled; /* fills, and their bytes */
	u64 sets, seeks;   /* of version 3 */
	u64 side_bytes;
	u64 outside[OUTSIDE_COUNT]; /* entries of the trace by why they are not compared */
	u64 given[OUTSIDE_COUNT];   /* and by why their results are given */
	u64 not_taken; /* entries that the kernel left in the queue, which come again */
};
extern struct counts counts;

/* Keeps the places of notes at a record that is kept no more: its number, and its first place. */
void keep_places(const struct record *record, u64 number, u64 place);
/* Counts the entries of a record by why they are not compared. */
void count_outside(const struct record *record);
/* Says it all; `places` and `bytes` are those of the trace. */
void summary(u64 places, u64 bytes, u32 rings);

#endif
