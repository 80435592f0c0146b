/* What played reads brought: their first bytes, and a sum where these are not all. */
#ifndef BROUGHT_H
#define BROUGHT_H

#include "sha256.h"
#include "trace.h"

/* The sum of bytes that are in memory. */
void sum_bytes(const u8 *bytes, u64 length, char text[SHA256_TEXT]);
/* Keeps what is told of the bytes that an entry brought. */
void keep_data(struct entry *entry);
/* How many bytes an entry that has ended may have brought at most. */
u64 most_moved(const struct entry *entry);

/* Whether an entry reads so many bytes into a buffer where one before it does, of those that were
 * asked about since the last call of `forget_stretches`. Of each buffer a single stretch is kept,
 * so that what lies between two reads counts too. */
bool reads_over(const struct entry *entry, u64 length);
void forget_stretches(void);

#endif
