/* Reads at once what a call of io_uring_enter(2) is about to be looked at for: a read of the
 * command's memory is a call of the system. */
#ifndef AHEAD_H
#define AHEAD_H

#include "flights.h"

/* The queues as a call finds them that submits at most so many entries. */
void read_queues_ahead(const struct ring *ring, pid_t thread, u32 wanted);
/* The bytes and vectors of entries. */
void read_sides_ahead(const struct record *record, pid_t thread);
/* The completions that may have come, and the first bytes of what was read. */
void read_completions_ahead(const struct ring *ring, pid_t thread);

#endif
