/* Positions of descriptions that ordinary calls move: lseek(2), read(2), and what else does. */
#ifndef POSITIONS_H
#define POSITIONS_H

#include "flights.h"

/* The description that an entry works on in the replay, or NULL. */
struct opened *opened_of(const struct ring *ring, const struct io_uring_sqe *sqe);

/* Compares the position that an entry is to begin at with what the replay has. Where they differ,
 * entries of the recorder make it right, or the entry is marked. */
void correct_position(struct ring *ring, struct entry *entry);
/* In version 3: an entry on a slot whose result is given has moved a position that only its result
 * tells. */
void given_moved(const struct flight *flight, i32 result);
/* The position in the replay once an entry at the position has ended. */
void position_moved(struct opened *opened, i32 result);

#endif
