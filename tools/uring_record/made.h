/* Entries that the recorder makes: for ordinary calls, and for what has to be so before an entry
 * runs. */
#ifndef MADE_H
#define MADE_H

#include "rings.h"

struct entry *make(struct ring *ring, const struct io_uring_sqe *sqe, const void *side, u32 length,
		   i32 result);
/* OPENAT into a slot (index from 1) or the table (index 0). */
struct entry *make_open(struct ring *ring, u32 index, const char *path, u32 flags, i32 result);
/* CLOSE of a slot (index from 1) or of a number of the table (index 0). */
void make_close(struct ring *ring, u32 index, int number);
/* UNLINKAT and MKDIRAT; RENAMEAT and LINKAT. */
struct entry *make_path(u8 opcode, u32 flags, const char *path);
struct entry *make_paths(u8 opcode, u32 flags, const char *old_path, const char *new_path);
/* A rename as the replay has it, where links are in no tree: one that is moved over a file takes
 * the file away (`replaces`), and one that a file is moved over is not there. NULL where nothing
 * changes.
 */
struct entry *make_rename(u32 flags, char *const names[2], const bool is_link[2], bool replaces);

/* Opens anew what a descriptor of the recorder leads to; the descriptor becomes the description's.
 */
struct opened *make_again(struct ring *ring, u32 index, const char *path, int descriptor,
			  i32 result);

#endif
