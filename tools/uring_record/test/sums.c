/* Prints the SHA-256 of standard input, which is added in pieces of so many bytes: sums PIECE */
#include "sha256.h"

#include <stdio.h>
#include <stdlib.h>

int main(int count, char **words)
{
	static char piece[1 << 16];
	char text[SHA256_TEXT];
	struct sha256 sum;
	size_t size = count > 1 ? (size_t)atol(words[1]) : sizeof piece, moved;

	if (!size || size > sizeof piece)
		return 2;
	sha256_begin(&sum);
	while ((moved = fread(piece, 1, size, stdin)) > 0)
		sha256_add(&sum, piece, moved);
	sha256_end(&sum, text);
	puts(text);
	return 0;
}
