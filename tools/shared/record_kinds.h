/* The kinds of the records of a trace (docs/FORMAT.md). */
#ifndef RECORD_KINDS_H
#define RECORD_KINDS_H

/* All but entries and fills are records of version 3 alone. An end of a ring has no place. */
enum record_kind {
	RECORD_ENTRIES = 1,
	RECORD_FILL = 2,
	RECORD_SET = 3,
	RECORD_SEEK = 4,
	RECORD_RING = 5,
	RECORD_RING_ENDS = 6,
};

#endif
