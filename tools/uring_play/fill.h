/* Entries of the trace as entries of this process: memory, paths, numbers. */
#ifndef FILL_H
#define FILL_H

#include "entry.h"

#include <linux/io_uring.h>

/* Room that entries need before they are played. */
void prepare_memory(void);
/* Takes memory for what is filled until the next call: it is there until it is let go of. */
u32 hold_memory(void);
void let_memory_go(u32 number);
/* Fills a submission entry. */
void fill_entry(struct entry *entry, struct io_uring_sqe *sqe);
/* The mode of a file that is made; and flags of open(2), but for those that have no effect by the
 * profile and ask much of a file system, unless all is played as it stands. */
enum { MODE_OF_FILES = 0644 };
u32 kept_open_flags(u32 flags);
/* The bytes that a WRITE or WRITEV brings. */
const u8 *bytes_written(const struct entry *entry);
/* How many bytes a read fills: by the answers, or else as many as it asks for. */
u64 filled_by(const struct entry *entry);
/* So many bytes of great reads may be in flight before another one waits, or is cut from its chain;
 * it has MOST_MOVED of them at most. */
#define MOST_GREAT (1ULL << 28)
/* Lets go of what an entry read into, once it has been looked at. */
void let_read_go(struct entry *entry);
/* Whether so much of what is held is in use that no more entries should be filled with it, where
 * that can wait; and whether there is more to be held. */
bool is_crowded(void);
bool has_memory(void);

#endif
