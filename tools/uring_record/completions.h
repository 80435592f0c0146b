/* Completions, as the command's queue has them. */
#ifndef COMPLETIONS_H
#define COMPLETIONS_H

#include "flights.h"

/* Takes the completions that have come since; `thread` is stopped. `is_fresh` says that the command
 * could not run since they came, so that what was read is still there. */
void reap(struct ring *ring, pid_t thread, bool is_fresh);
/* Reaps all rings of a process that have entries in flight: what the command may have seen, it may
 * go by. */
void reap_all(pid_t process, pid_t thread);
/* Reaps the rings that have a queue in a range of memory that is about to be unmapped; false where
 * none has. */
bool reap_unmapped(pid_t process, pid_t thread, u64 from, u64 to);
/* The range is unmapped: its queues are there no more. */
void unmapped(pid_t process, u64 from, u64 to);
/* Puts back the slot or number that an entry took which did not run. */
void put_back_place(struct flight *flight);

#endif
