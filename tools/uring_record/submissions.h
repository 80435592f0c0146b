/* What a call of io_uring_enter(2) submits. */
#ifndef SUBMISSIONS_H
#define SUBMISSIONS_H

#include "flights.h"

/* At the entry of the call: takes what it is to submit, at most so many entries, or NULL. */
struct record *submission(struct ring *ring, pid_t thread, pid_t process, u32 wanted);
/* At its end: so many were taken by the kernel. */
void submitted(struct ring *ring, pid_t thread, struct record *record, u32 taken);
/* Whether the kernel has taken all entries of a call that runs still. */
bool is_all_taken(const struct record *record);
/* A thread ended in the call: what the kernel took is told by the queue. */
void submitter_ended(struct ring *ring, pid_t thread, struct record *record);
/* Whether a call may wait for all that is in flight, and how many completions that makes. */
bool may_wait(struct ring *ring, pid_t thread, u32 *completions);

#endif
