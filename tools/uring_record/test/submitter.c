/* Reads or writes blocks of a file, so many at once, with a checksum of each block: submitter
 * read|write DEPTH COUNT. Says how many nanoseconds an entry took. With `bare` behind it there is
 * no checksum, and so nothing but the calls. */
#include "raw.h"

#include <time.h>

enum { BLOCK = 4096, BLOCKS = 256, MOST_DEPTH = 64 };

/* The time in nanoseconds. */
static uint64_t now(void)
{
	struct timespec time;

	clock_gettime(CLOCK_MONOTONIC, &time);
	return (uint64_t)time.tv_sec * 1000000000 + (uint64_t)time.tv_nsec;
}

/* The checksum of a block, as a store of pages has one. */
static uint32_t sum_of(const char *block)
{
	uint32_t sum = 2166136261U;

	for (unsigned at = 0; at < BLOCK; at++)
		sum = (sum ^ (uint8_t)block[at]) * 16777619U;
	return sum;
}

int main(int count, char **words)
{
	static char blocks[MOST_DEPTH][BLOCK];
	static char whole[BLOCK * BLOCKS];
	struct ring ring;

	if (count < 4)
		return 2;
	bool sums = count == 4;
	uint32_t all = 0;
	unsigned depth = (unsigned)atoi(words[2]), entries = (unsigned)atoi(words[3]), at = 0;
	unsigned char opcode = !strcmp(words[1], "read") ? OP_READ : OP_WRITE;
	int file = open("blocks", O_RDWR | O_CREAT, 0644);
	if (!depth || depth > MOST_DEPTH || file < 0 ||
	    write(file, whole, sizeof whole) != sizeof whole)
		fail("blocks");
	alarm(60);
	open_ring(&ring, MOST_DEPTH, 0);
	uint64_t began = 0;
	while (at < entries + depth) {
		if (at == depth) /* (the start of a recording is not counted) */
			began = now();
		for (unsigned one = 0; one < depth; one++, at++) {
			if (sums)
				all ^= sum_of(blocks[one]);
			add(&ring, opcode, file, blocks[one], BLOCK,
			    (uint64_t)(at % BLOCKS) * BLOCK);
		}
		submit(&ring, depth);
		for (unsigned one = 0; one < depth; one++)
			expect("an entry", take(&ring), BLOCK);
	}
	printf("entry %llu sum %u\n", (unsigned long long)((now() - began) / entries), all);
	return 0;
}
