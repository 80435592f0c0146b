/* Sums of what reads brought: a thread of their own makes them, so that the command need not wait.
 */
#ifndef SUMS_H
#define SUMS_H

#include "common.h"

#include <sys/uio.h>

struct read_sum;
/* Bytes of vectors up to a length are to be summed; NULL where too many wait. They are taken by the
 * next call of take_summed(), which has to come while they are there. */
struct read_sum *begin_sum(const struct iovec *vectors, u32 count, u64 length);
/* Takes all that is to be summed, with one call where that can be. */
void take_summed(pid_t thread);
/* Whether a sum is made; so is none. */
bool is_made(const struct read_sum *sum);
/* The sum in hexadecimal, once it is made; NULL where the bytes could not be taken. */
const char *text_of_sum(const struct read_sum *sum);
/* Frees a sum once it is made, where there is one. */
void free_sum(struct read_sum *sum);

#endif
