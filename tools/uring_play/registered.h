/* What the rings of the trace have registered, as they come and go. */
#ifndef REGISTERED_H
#define REGISTERED_H

#include "trace.h"

/* Takes the open descriptors of the descriptions of the start, until no ring is to get them. */
void hold_descriptions(int *opened);
/* The table has been made of them. */
void let_descriptions_go(void);

/* Makes a ring, whose slots are empty and whose buffers are zeros; one that is there stays. */
void make_ring(u32 ring);
/* The full slots of a ring get what their sources hold now. Nothing may be in flight. */
void fill_slots(u32 ring);
/* An open descriptor of what something holds, or -1 where that is nothing; one of a slot is the
 * player's own, to be closed, and no number of the trace's. Nothing may be in flight. */
int held_by(const struct holder *it);
/* A slot gets an open file, or nothing for -1. */
void put_slot(u32 ring, u32 slot, int file);
void end_ring(u32 ring);

/* Where places do not run in recorded order: counts which rings they use; a ring that the trace
 * ends is ended once all have left it that do. */
void count_uses(void);
void leave_place(u32 place);

#endif
