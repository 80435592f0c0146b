/* The memory of the command. Each call gives false where not all of it could be had. */
#ifndef MEMORY_H
#define MEMORY_H

#include "common.h"

#include <sys/uio.h>

/* How often memory was read. */
extern u64 memory_reads;
bool fetch(pid_t process, u64 address, void *to, u64 length);
/* Reads ranges with one call; fetch() takes what it asks for from there, until the next such call
 * or forget_ahead(). What could not be read is not there. */
enum { MOST_AHEAD = 1024, MOST_AHEAD_BYTES = 1 << 20 };
void read_ahead(pid_t process, const struct iovec *ranges, u32 count);
void forget_ahead(void);
bool store(pid_t process, u64 address, const void *from, u64 length);
/* A word, 0 where it cannot be had. */
u32 fetch_word(pid_t process, u64 address);
/* A text of at most 8,192 bytes in memory of its own, or NULL. */
char *fetch_text(pid_t process, u64 address);
/* Vectors of a call in memory of their own, or NULL where there are too many or they cannot be had.
 */
struct iovec *fetch_vectors(pid_t process, u64 address, u64 count);
/* The bytes of vectors one after another, up to a length. */
bool fetch_gathered(pid_t process, const struct iovec *vectors, u64 count, u8 *to, u64 length);

static inline u64 address_of(const struct iovec *vector)
{
	return (u64)(uintptr_t)vector->iov_base;
}

#endif
