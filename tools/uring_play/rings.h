/* The rings of the trace in the kernel: they are made and ended, submission, completions. */
#ifndef RINGS_H
#define RINGS_H

#include "common.h"

#include <linux/io_uring.h>

/* The user_data of the player's own entries; those of the trace have their places. */
#define OF_END (1ULL << 63)
#define OF_PLAYER (OF_END - 1)

/* Makes a ring of the player's own, which the next two calls use. Rings have room for so many
 * entries at least. */
void prepare_rings(u32 fewest);
/* Says of each opcode whether the kernel lacks it. */
void ask_for_opcodes(bool lacking[OPCODES]);
/* Ends the player where the kernel refuses entries that ask for a thread of its own. */
void try_threads(void);
void end_own_ring(void);

/* Sets a ring up, with room for its longest record and one entry more. */
void open_ring(u32 ring);
void close_ring(u32 ring);
void close_rings(void);
bool is_open(u32 ring);
/* The numbers of those that are there, in no order. */
u32 live_count(void);
u32 live_ring(u32 at);
/* io_uring_register(2). */
long register_with(u32 ring, u32 what, const void *list, u32 count);
/* Whether a call that wanted memory is to be tried again: what a user may lock is let go some time
 * after an earlier ring, or one of another program, has ended. */
bool is_tried_again(u32 *tries);
/* How many entries a ring takes at once, and how many completions. */
u32 room_of(u32 ring);
u32 completion_room_of(u32 ring);
/* The next free entry of the submission queue; `at` counts from the first that is not submitted. */
struct io_uring_sqe *next_sqe(u32 ring, u32 at);
void submit(u32 ring, u32 count);
/* Waits for so many completions or so long; false where they did not come. */
bool wait_for(u32 ring, u32 count, u32 milliseconds);
/* Prepares for the next call, which waits for several rings. */
void watch_rings(void);
/* Waits for a completion on any ring of which `wanted` is not 0, or so long. */
void wait_for_any(const u32 *wanted, u64 nanoseconds);
/* Takes the completions that are there. */
u32 take_completions(u32 ring, void (*each)(const struct io_uring_cqe *));
/* Whether the kernel shows what is in a slot. */
bool shows_slots(void);
/* An ordinary descriptor of a slot's file, or an error as a negative number. */
int slot_file(u32 ring, u32 slot);

#endif
