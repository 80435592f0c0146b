/* The tree sum of a large file: docs/FORMAT.md, "The results of a kernel". */
#ifndef TREE_SUM_H
#define TREE_SUM_H

#include "common.h"
#include "sha256.h"

/* The SHA-256 of the SHA-256 sums of the pieces of 16 MiB of a file of so many bytes, in
 * hexadecimal. Holes are not read. An empty text where the file cannot be read. */
void tree_sum(const char *path, u64 size, char text[SHA256_TEXT]);

#endif
