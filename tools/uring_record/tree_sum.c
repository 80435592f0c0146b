#include "tree_sum.h"

#include <errno.h>
#include <fcntl.h>
#include <stdlib.h>
#include <string.h>
#include <unistd.h>

enum { PIECE = 1 << 24, DIGEST = 32 };

/* A digest from its text. */
static void digest_of(const char *text, u8 digest[DIGEST])
{
	for (int at = 0; at < DIGEST; at++) {
		const char pair[3] = { text[2 * at], text[2 * at + 1], 0 };
		digest[at] = (u8)strtoul(pair, NULL, 16);
	}
}

/* The digest of a piece. */
static void sum_piece(const u8 *bytes, u64 length, u8 digest[DIGEST])
{
	struct sha256 sum;
	char text[SHA256_TEXT];

	sha256_begin(&sum);
	sha256_add(&sum, bytes, length);
	sha256_end(&sum, text);
	digest_of(text, digest);
}

/* The digest of a whole piece of zeros, which is reckoned once. */
static const u8 *sum_of_zeros(void)
{
	static u8 digest[DIGEST];
	static bool is_known;

	if (!is_known) {
		u8 *zeros = allocate(PIECE);
		sum_piece(zeros, PIECE, digest);
		free(zeros);
	}
	is_known = true;
	return digest;
}

/* Reads a piece; false where not all of it is there. */
static bool read_piece(int descriptor, u64 from, u8 *bytes, u64 length)
{
	for (u64 done = 0; done < length;) {
		ssize_t moved =
			pread(descriptor, bytes + done, length - done, (off_t)(from + done));
		if (moved <= 0)
			return false;
		done += (u64)moved;
	}
	return true;
}

/* Whether a file has only a hole in a range, as far as the file system tells. */
static bool is_hole(int descriptor, u64 from, u64 to)
{
	off_t data = lseek(descriptor, (off_t)from, SEEK_DATA);

	return data < 0 ? errno == ENXIO : (u64)data >= to;
}

void tree_sum(const char *path, u64 size, char text[SHA256_TEXT])
{
	int descriptor = open(path, O_RDONLY | O_CLOEXEC | O_NOFOLLOW);
	u8 *bytes = allocate(PIECE), digest[DIGEST];
	struct sha256 sum;
	bool is_read = descriptor >= 0;

	sha256_begin(&sum);
	for (u64 from = 0; is_read && from < size; from += PIECE) {
		u64 length = min64(PIECE, size - from);
		if (is_hole(descriptor, from, from + length) && length == PIECE) {
			sha256_add(&sum, sum_of_zeros(), DIGEST);
			continue;
		}
		is_read = read_piece(descriptor, from, bytes, length);
		sum_piece(bytes, length, digest);
		sha256_add(&sum, digest, DIGEST);
	}
	sha256_end(&sum, text);
	if (!is_read)
		*text = 0;
	if (descriptor >= 0)
		close(descriptor);
	free(bytes);
}
