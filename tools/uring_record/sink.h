/* Files that are written while the command runs. Bytes wait until they are given to their file. One
 * whose disk is full takes no more, and is cut where it is whole. */
#ifndef SINK_H
#define SINK_H

#include "common.h"

struct sink {
	const char *path;
	int descriptor; /* -1 where it is not open */
	i64 base;	/* where its first byte is, or -1 where it cannot be cut */
	u64 length;	/* bytes that the file has */
	u64 used, room; /* bytes that wait */
	u8 *bytes;
	int error;    /* why the file takes no more, or 0 */
	bool is_over; /* it has its end: what comes is dropped */
};

/* Opens a file, or standard output for "-". One that cannot be opened takes nothing. */
void open_sink(struct sink *sink, const char *path);
/* Puts bytes behind those that wait. */
void put_into(struct sink *sink, const void *bytes, u64 length);
/* Gives the file what waits. */
void flush_sink(struct sink *sink);
/* Drops what waits behind a length. */
void shorten_sink(struct sink *sink, u64 length);
/* Ends the file with some bytes at a length, which is not behind what it has; false where that
 * cannot be. */
bool end_sink(struct sink *sink, u64 length, const char *end, u64 end_length);
/* Takes all away that a file has; false where that cannot be. */
bool empty_sink(struct sink *sink);
/* Closes a file: one that did not take all is cut already, else the recorder ends. */
void close_sink(struct sink *sink);

#endif
