/* The bytes of a file that are not zeros, by ranges: docs/FORMAT.md. */
#ifndef RANGES_H
#define RANGES_H

#include "common.h"

/* Bytes of a file from a place on. The first page and the last byte have one that is not zero. */
struct range {
	u64 from;
	u32 length;
};
struct file_ranges {
	struct range *list;
	u64 count, room;
};

/* Finds the ranges of a file up to its size; false where it cannot be read. */
bool find_ranges(struct file_ranges *ranges, int descriptor, u64 size);
/* How many bytes a trace has of them. */
u64 bytes_of_ranges(const struct file_ranges *ranges);
/* Puts a range into the trace, with its bytes as they are now; false where they are not there any
 * more: these are zeros. */
bool put_range(const struct range *range, int descriptor);

#endif
