/* SHA-256, as FIPS 180-4 has it. */
#ifndef SHA256_H
#define SHA256_H

#include "integers.h"

#include <stddef.h>

enum { SHA256_BLOCK = 64, SHA256_BYTES = 32, SHA256_TEXT = 2 * SHA256_BYTES + 1 };

struct sha256 {
	u32 state[8];
	u64 length; /* bytes so far */
	u8 block[SHA256_BLOCK];
};

void sha256_begin(struct sha256 *sum);
void sha256_add(struct sha256 *sum, const void *bytes, size_t length);
/* Ends the sum, and writes it in lower-case hexadecimal. */
void sha256_end(struct sha256 *sum, char text[SHA256_TEXT]);

#endif
