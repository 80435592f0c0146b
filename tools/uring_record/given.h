/* Entries of version 3 whose results the trace gives: what the world does not decide. */
#ifndef GIVEN_H
#define GIVEN_H

#include "flights.h"

/* Whether the replay could not give a result to an entry, whatever it finds. */
bool is_undecided(const struct flight *flight, i32 result);
/* Whether an entry that is given may put bytes into the memory of the program. */
bool may_fill_memory(const struct entry *entry);
/* Gives the results of a record that is to be written: of each entry that is given whether it
 * fails, and whether it was refused on submission. A canceled one that no other of its chain
 * cancels in the replay is given, too. */
void give_results(struct record *record);
/* The result that the trace gives. */
i32 given_result(const struct entry *entry);

/* Whether Linux gives such a result where the profile has another one (docs/LINUX.md). */
bool is_of_linux(const struct flight *flight, i32 result);
/* Whether an operation that fails lets its chain go on in Linux, once it has begun. */
bool fails_alone(const struct io_uring_sqe *sqe);
/* Whether an entry will fail and post nothing, as far as its names tell. */
bool fails_silently(const struct flight *flight);

#endif
