/* Reads whose bytes are summed: reads, in an empty directory. Each entry's user_data is its number,
 * from 1: tests/recorder_marks.py has the bytes. Ends with 1 where a call fails, and with 77 where the
 * kernel lacks what it needs. */
#include "raw.h"

#include <sys/uio.h>

enum { SIZE = 10000, BUFFER = 4096, MANY = 12, DEEP = 8, GREAT = 70 << 20 };
static struct ring ring;
static char bytes[SIZE], fixed[BUFFER];
static int file;

static void make_file(void)
{
	for (int at = 0; at < SIZE; at++)
		bytes[at] = (char)((7 * at + at / 256) % 251);
	file = open("a", O_RDWR | O_CREAT | O_EXCL, 0644);
	if (file < 0 || write(file, bytes, SIZE) != SIZE || ftruncate(file, GREAT))
		fail("a");
}

static void read_one(unsigned length, uint64_t offset)
{
	add(&ring, OP_READ, file, bytes, length, offset);
	expect("a read", run_one(&ring), (int)length);
}

/* Reads by vectors of so many bytes each, so far from each other. */
static void read_vectors(unsigned count, size_t length, size_t apart, uint64_t offset)
{
	struct iovec vectors[MANY];

	for (unsigned at = 0; at < count; at++)
		vectors[at] = (struct iovec){ bytes + at * apart, length };
	add(&ring, OP_READV, file, vectors, count, offset);
	expect("a read of vectors", run_one(&ring), (int)(count * length));
}

static void read_fixed(unsigned length, uint64_t offset)
{
	add(&ring, OP_READ_FIXED, file, fixed + 100, length, offset);
	expect("a fixed read", run_one(&ring), (int)length);
}

int main(void)
{
	const struct iovec buffer = { fixed, BUFFER };

	make_file();
	open_ring(&ring, DEEP, 0);
	if (syscall(SYS_io_uring_register, ring.descriptor, IORING_REGISTER_BUFFERS, &buffer, 1))
		lack("a buffer");
	read_one(100, 10);
	read_one(32, 0);
	read_vectors(3, 15, 40, 200);
	read_vectors(MANY, 5, 7, 300);
	read_vectors(2, 40, 39, 400);
	read_fixed(64, 500);
	read_fixed(3, 600);
	for (unsigned at = 0; at < DEEP; at++)
		add(&ring, OP_READ, file, bytes + 1000 * at, 1000, 1000 * at);
	submit(&ring, DEEP);
	for (unsigned at = 0; at < DEEP; at++)
		expect("one of many reads", take(&ring), 1000);
	char *great = malloc(GREAT);
	add(&ring, OP_READ, file, great, GREAT, 0);
	expect("a great read", run_one(&ring), GREAT);
	read_one(5000, 8000);
	return 0;
}
