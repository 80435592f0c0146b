/* What every part of the player uses: options, errors and memory. */
#ifndef COMMON_H
#define COMMON_H

#include "integers.h"

#include <stdbool.h>
#include <stddef.h>
#include <stdio.h>
#include <sys/types.h>

/* The exit statuses. 77 is what a test takes for "cannot be tried here". */
enum { STATUS_REFUSED = 1, STATUS_WORDS = 2, STATUS_FAILED = 3, STATUS_UNTRIED = 77 };

enum { OPCODES = 256 };

struct options {
	const char *trace;     /* the file of the trace, or NULL for standard input */
	const char *output;    /* the file of the results, or NULL for standard output */
	const char *directory; /* where the fresh directory is made */
	const char *expected;  /* the report of the replay, or NULL */
	const char *rounds;    /* the text of the rounds, or NULL */
	const char *depends;   /* the text of the dependencies, or NULL */
	const char *pace; /* results with the times of submission, or NULL: as soon as may be */
	u32 in_flight;	  /* how many chains are in flight at once, at most */
	u32 patience;	  /* seconds to wait for a completion */
	bool async;	  /* each entry runs in a thread of the kernel's */
	bool keep;	  /* the directory is left as it is */
	bool prepare;	  /* the tree is laid out, and nothing is played */
	bool prepared;	  /* the directory itself has the tree already */
	bool no_nodes;	  /* no handles are held, and nodes are not told */
	bool raw;	  /* entries are played as they stand, all fields of them */
	bool strict;	  /* results that are as right are told as different */
	bool no_limit;	  /* the size of files is not limited to 2^40 */
	bool no_sums;	  /* no sum of what a read brought is told */
	bool quiet;	  /* no summary */
	bool json;	  /* the summary is JSON */
	bool lacking[OPCODES]; /* opcodes that are taken as ones that the kernel lacks */
};
extern struct options options;

/* Where messages go: standard error, also once its number belongs to the trace. */
extern FILE *messages;

/* What is called once before the player ends with a message, if it is there. */
extern void (*at_death)(void);
void die_with(int status, const char *format, ...) __attribute__((noreturn, format(printf, 2, 3)));
void say(const char *format, ...) __attribute__((format(printf, 1, 2)));
#define die(...) die_with(STATUS_FAILED, __VA_ARGS__)

/* Memory that is zero, or the end of the player. */
void *allocate(size_t size);
char *copy_bytes(const void *bytes, size_t length);

/* Room for one more element behind `count`; use it through GROW. */
void *grow(void *list, u64 count, u64 *room, size_t size);
#define GROW(list, count, room) ((list) = grow((list), (count), &(room), sizeof *(list)))

/* A whole file, or standard input, of at most so many bytes and one more; a zero byte follows. */
u8 *read_whole(const char *path, u64 most, u64 *length);

/* Writes a path as a report has it: printable bytes, and \x with two digits for any other. */
void write_path(FILE *file, const char *path);
/* A path so written, for a message; it is valid until the next call. */
const char *shown(const char *path);

/* Nanoseconds of the monotonic clock. */
u64 now(void);

/* A little-endian number of so many bytes. */
static inline u64 number_at(const u8 *bytes, u64 count)
{
	u64 value = 0;

	for (u64 at = 0; at < count; at++)
		value |= (u64)bytes[at] << (8 * at);
	return value;
}

#endif
