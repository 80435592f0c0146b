/* The rings of version 3, which are records: one begins before the first record that is on it, with
 * what is registered then, and ends where it is closed. */
#ifndef BEGUN_H
#define BEGUN_H

#include "rings.h"

/* Sees to it that a ring is in the trace. */
void begin_ring(struct ring *ring);
/* In version 3: from its next record on, a ring has another number, with its slots and buffers as
 * they are then. It goes on with its queue. */
void renew_ring(struct ring *ring);
/* In version 3: a ring is closed. What is on it later is on a ring of its own. */
void end_ring(struct ring *ring);
/* Adds a number to the bytes of a record, which have room for it. */
void add_number(struct record *record, u64 number, u32 bytes);

#endif
