/* What every part of the recorder uses: integer types, options, errors and memory. */
#ifndef COMMON_H
#define COMMON_H

#include "integers.h"

#include <stdbool.h>
#include <stddef.h>
#include <sys/types.h>

/* The exit statuses that are not the command's own, as env(1) has them. */
enum { STATUS_FAILED = 125, STATUS_NOT_RUN = 126, STATUS_NOT_FOUND = 127 };

/* The most bytes that a trace, a file of its tree or a registered buffer may have. */
#define MOST_BYTES (1ULL << 30)

struct options {
	const char *trace;   /* the file of the trace, or "-" for standard output */
	const char *results; /* the file of the kernel's results, or NULL */
	const char *root;    /* the directory that is the root of the trace's tree */
	unsigned format;     /* the version of the trace; in 1 ordinary descriptors are slots */
	bool replace;	     /* entries outside the profile are recorded as NOP */
	bool drain;	     /* the kernel is given IO_DRAIN on each head of a chain */
	bool wait;	     /* each call waits for what it submits */
	bool touched;	     /* bytes of files that the command does not use are not stored */
	u64 limit;	     /* the most bytes that the trace may have, 0 for its format's */
	bool all_sums;	     /* the results have tree sums of large files */
	bool no_data;	     /* neither the trace nor the results have a byte of data */
	bool no_read_sums;   /* the results have no sums of what reads brought */
	bool verbose;	     /* notes are said as they come up */
};
extern struct options options;

/* Ends the recorder (and with it the command) with a message and status 125. */
void die(const char *format, ...) __attribute__((noreturn, format(printf, 1, 2)));

/* Memory that is zero, or the end of the recorder. */
void *allocate(size_t size);
char *copy_text(const char *text);
char *copy_bytes(const char *text, size_t length);

/* Room for one more element behind `count`; use it through GROW. */
void *grow(void *list, u64 count, u64 *room, size_t size);
#define GROW(list, count, room) ((list) = grow((list), (count), &(room), sizeof *(list)))

/* Whether bytes are all zeros. */
bool is_zero(const u8 *bytes, u64 length);

/* Whether two ranges share a byte; an empty one shares none. */
static inline bool overlap(u64 from, u64 to, u64 other_from, u64 other_to)
{
	return from < other_to && other_from < to && from < to && other_from < other_to;
}

#endif
