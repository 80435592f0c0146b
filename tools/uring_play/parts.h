/* Parts of a trace that stand there alike in every version, and what is known of them then. */
#ifndef PARTS_H
#define PARTS_H

#include "trace.h"

/* The buffers of a ring behind their number, of which there are so many at most. */
void take_buffers(struct ring_of_trace *ring, u32 most);
/* The entries of a record of which the number is known; each one that was read is added to it. */
void make_entries(struct record *record);
void add_entry(const struct record *record, struct entry *entry);
/* The buffer of a fill, and the part of it. */
void take_number_of_buffer(struct record *record);
void take_part(struct record *record);

#endif
