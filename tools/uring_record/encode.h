/* The bytes of the parts of a trace, in each format, and the file that they go to. */
#ifndef ENCODE_H
#define ENCODE_H

#include "sink.h"
#include "trace.h"

/* Opens the trace's file, or standard output for "-". Until then, bytes are counted and not kept.
 */
void open_trace(void);
/* Whether it is open, and the file. */
bool is_trace_open(void);
struct sink *trace_file(void);
/* How many bytes were put, and a count to go on from. */
u64 bytes_put(void);
void count_from(u64 bytes);
/* Whether bytes are counted alone from here on. */
void count_only(bool is_on);

void put(const void *bytes, u64 length);
void put_zeros(u64 length);
/* Numbers of the format are little-endian. */
void put_number(u64 number, unsigned bytes);

/* A name of the tree; an open description; what is before the first name. */
void put_item(const struct item *item);
void put_description(const struct description *description);
/* A record. One of entries of which the kernel took none is not there; version 3 may have several
 * for one. */
void put_record(const struct record *record);
/* How many bytes it takes. */
u64 size_of_record(const struct record *record);
/* Whether a chain of a record has more bytes than a record of version 3 can have. */
bool is_too_long(const struct record *record);

#endif
