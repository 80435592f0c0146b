/* Entries that are outside: they are recorded so that their replay changes nothing, and what the
 * kernel did of them is told by entries of the recorder, or their files are marked. */
#ifndef ASIDE_H
#define ASIDE_H

#include "flights.h"

/* What an entry will change whose opcode the profile does not serve: a slot, or the bytes of a
 * file. */
void look_at_unserved(struct flight *flight, pid_t thread);
/* A slot of the command gets what the replay's slot does not have; `opened` becomes its own. */
void take_outside_slot(struct flight *flight, u32 index, struct opened *opened);
/* The file that the number of an entry leads to now, or NULL. */
struct opened *file_now(const struct flight *flight);
/* Where an entry that writes bytes, or changes a size, ends in its file: 0 where it is not one, or
 * at the position. */
u64 end_in_file(const struct io_uring_sqe *sqe, i32 result);
/* Why a result has no form in the replay, or INSIDE. */
enum outside outside_by_result(const struct flight *flight, i32 result);
/* The names that a flight makes, moves or takes away are in doubt. */
void doubt_touched(const struct flight *flight, enum outside why);
/* Of an entry that met another one at a name: what is there then depends on their order. */
void doubt_names(const struct flight *flight, i32 result);
/* What the kernel did of an entry that is outside. */
void outside_ended(struct flight *flight, pid_t thread, i32 result);
/* An entry or a call whose end was not seen: what it may have done is not told. */
void leave(const struct flight *flight);
/* At the end of all: what entries in flight may have changed is not told. */
void leave_unseen(void);
/* The same of the entries of a record that are in flight. */
void leave_flights_of(const struct record *record);

/* The recorded form of an entry that is put aside: its side bytes are in memory of their own. */
void aside_form(const struct entry *entry, struct io_uring_sqe *sqe, u8 **side, u32 *length);

#endif
