/* Programs whose recording is written as they run: streams MODE [COUNT].
 *
 * many, pending, blocked, alike: so many writes of a block; from the start on a read of a pipe is
 * in flight, or a thread waits in the call that submitted one; or all have one user_data, and one
 * is always in flight. zeros: writes of zeros. large: blocks of a MiB in one call, in chains of
 * three. anew: files and buffers are registered, used, and registered anew. secret: bytes of all
 * kinds that are not to be told. */
#include "raw.h"

#include <pthread.h>
#include <sys/uio.h>

enum { BLOCK = 4096, DEPTH = 32, LARGE = 1 << 20, LARGE_COUNT = 12 };

static char block[BLOCK];
static int pipes[2];

/* A file for writing and reading. */
static int make_file(const char *name)
{
	int file = open(name, O_RDWR | O_CREAT, 0644);

	if (file < 0)
		fail(name);
	return file;
}

/* Writes blocks that all differ, several in a call. */
static void write_blocks(struct ring *ring, unsigned count, bool is_alike)
{
	static char blocks[DEPTH][BLOCK];
	int file = make_file("blocks");

	for (unsigned at = 0; at < count;) {
		unsigned many = 0;
		for (; many < DEPTH && at < count; many++, at++) {
			memcpy(blocks[many], &at, sizeof at);
			struct io_uring_sqe *sqe = add(ring, OP_WRITE, file, blocks[many], BLOCK,
						       (uint64_t)(at % 64) * BLOCK);
			sqe->user_data = is_alike ? 0 : sqe->user_data;
		}
		submit(ring, many);
		while (many--)
			expect("a write", take(ring), BLOCK);
	}
}

static void many(unsigned count)
{
	struct ring ring;

	open_ring(&ring, DEPTH, 0);
	write_blocks(&ring, count, false);
}

static void pending(unsigned count)
{
	struct ring ring;

	open_ring(&ring, DEPTH, 0);
	add(&ring, OP_READ, pipes[0], block, 1, 0);
	submit(&ring, 0);
	write_blocks(&ring, count, false);
	if (write(pipes[1], "", 1) != 1)
		fail("write");
	add(&ring, OP_NOP, -1, NULL, 0, 0);
	submit(&ring, 2);
	take(&ring);
	take(&ring);
}

/* A thread that submits a read of the pipe, and waits for it in this call. */
static void *waits(void *unused)
{
	struct ring ring;

	(void)unused;
	open_ring(&ring, DEPTH, 0);
	add(&ring, OP_READ, pipes[0], block, 1, 0);
	submit(&ring, 1);
	expect("a read", take(&ring), 1);
	return NULL;
}

static void blocked(unsigned count)
{
	struct ring ring;
	pthread_t other;

	if (pthread_create(&other, NULL, waits, NULL))
		fail("pthread_create");
	usleep(100000);
	open_ring(&ring, DEPTH, 0);
	write_blocks(&ring, count, false);
	if (write(pipes[1], "", 1) != 1)
		fail("write");
	pthread_join(other, NULL);
}

static void alike(unsigned count)
{
	struct ring ring;

	open_ring(&ring, 2 * DEPTH, 0);
	add(&ring, OP_READ, pipes[0], block, BLOCK, 0)->user_data = 0;
	submit(&ring, 0);
	write_blocks(&ring, count, true);
	if (write(pipes[1], block, BLOCK) != BLOCK)
		fail("write");
	submit(&ring, 1);
	take(&ring);
}

static void zeros(unsigned count)
{
	static char nothing[8 * BLOCK];
	struct ring ring;
	int file = make_file("zeros");

	(void)count;
	struct iovec vectors[2] = { { nothing, BLOCK }, { nothing, 3 } };
	open_ring(&ring, DEPTH, 0);
	add(&ring, OP_WRITE, file, nothing, sizeof nothing, 0);
	add(&ring, OP_WRITE, file, nothing, 63, 1 << 20);
	add(&ring, OP_WRITE, file, nothing, 64, 1 << 21);
	add(&ring, OP_WRITEV, file, vectors, 2, 1 << 22);
	submit(&ring, 4);
}

static void large(unsigned count)
{
	char *bytes = malloc(LARGE);
	struct ring ring;
	int file = make_file("large");

	(void)count;
	memset(bytes, 'a', LARGE);
	open_ring(&ring, 64, 0);
	for (unsigned at = 0; at < LARGE_COUNT; at++) {
		struct io_uring_sqe *sqe = add(&ring, OP_WRITE, file, bytes, LARGE, 0);
		sqe->flags = at % 3 < 2 ? FLAG_LINK : 0;
		sqe->off = (uint64_t)at * LARGE / 2;
	}
	submit(&ring, LARGE_COUNT);
	for (unsigned at = 0; at < LARGE_COUNT; at++)
		expect("a write", take(&ring), LARGE);
}

/* An operation of io_uring_register(2). */
static void do_register(const struct ring *ring, unsigned operation, const void *argument,
			unsigned count)
{
	if (syscall(SYS_io_uring_register, ring->descriptor, operation, argument, count) < 0)
		fail("io_uring_register");
}

/* Writes and reads by slot 0 and buffer 0. */
static void use_registered(struct ring *ring, char *buffer, char letter)
{
	memset(buffer, letter, BLOCK);
	add(ring, OP_WRITE_FIXED, 0, buffer, BLOCK / 2, 0)->flags = FLAG_FIXED;
	expect("a fixed write", run_one(ring), BLOCK / 2);
	add(ring, OP_READ_FIXED, 0, buffer + BLOCK / 2, BLOCK / 2, 0)->flags = FLAG_FIXED;
	expect("a fixed read", run_one(ring), BLOCK / 2);
	add(ring, OP_WRITE_FIXED, 0, buffer, BLOCK, BLOCK)->flags = FLAG_FIXED;
	expect("a fixed write", run_one(ring), BLOCK);
}

static void anew(unsigned count)
{
	static char buffers[3][BLOCK];
	int files[3] = { make_file("one"), make_file("two"), make_file("three") };
	struct ring ring;

	open_ring(&ring, DEPTH, 0);
	for (unsigned at = 0; at < (count ? count : 3); at++) {
		const struct iovec vectors[2] = { { buffers[0] + 64 * (at % 3), BLOCK },
						  { buffers[2], BLOCK / 2 } };
		do_register(&ring, IORING_REGISTER_FILES, files + at % 3, 1 + (at % 3 == 1));
		do_register(&ring, IORING_REGISTER_BUFFERS, vectors, 2);
		use_registered(&ring, vectors[0].iov_base, (char)('a' + at % 26));
		do_register(&ring, IORING_UNREGISTER_FILES, NULL, 0);
		do_register(&ring, IORING_UNREGISTER_BUFFERS, NULL, 0);
	}
}

/* Writes and reads a registered buffer: bytes that the program put there, and those of a file. */
static void pass_through_buffer(struct ring *ring, int from, int to, const char *text)
{
	static char buffer[BLOCK];
	const struct iovec all = { buffer, BLOCK };

	do_register(ring, IORING_REGISTER_BUFFERS, &all, 1);
	strcpy(buffer + 50, text);
	add(ring, OP_WRITE_FIXED, to, buffer, 200, 1000);
	expect("a write of a buffer", run_one(ring), 200);
	strcpy(buffer, text);
	add(ring, OP_WRITE_FIXED, to, buffer, 20, 1100);
	expect("a write over bytes that were written", run_one(ring), 20);
	add(ring, OP_READ_FIXED, from, buffer + 1000, 20, 0);
	expect("a read into a buffer", run_one(ring), 20);
	add(ring, OP_WRITE_FIXED, to, buffer + 990, 40, 2000);
	expect("a write of what was read", run_one(ring), 40);
}

static void secret(unsigned count)
{
	static char one[] = "secret of a write", two[] = "secret of vectors", read[BLOCK];
	int known = make_file("known"), file = make_file("written"), last = make_file("last");
	struct iovec vectors[2] = { { two, 9 }, { two + 9, 8 } };
	struct ring ring;

	(void)count;
	open_ring(&ring, DEPTH, 0);
	add(&ring, OP_WRITE, file, one, 17, 0);
	expect("a write", run_one(&ring), 17);
	add(&ring, OP_WRITEV, file, vectors, 2, 100);
	expect("a write of vectors", run_one(&ring), 17);
	pass_through_buffer(&ring, known, file, "secret of a buffer");
	if (pwrite(file, "secret of a call", 16, 3000) != 16)
		fail("pwrite");
	for (unsigned at = 0; at < BLOCK; at += 16)
		memcpy(block + at, "secret of blocks", 16);
	add(&ring, OP_WRITE, last, block, BLOCK, 0);
	expect("a write of a block", run_one(&ring), BLOCK);
	add(&ring, OP_READ, known, read, BLOCK, 0);
	expect("a read of a file of the start", run_one(&ring), 34);
	add(&ring, OP_READ, file, read, 20, 0);
	expect("a read of what was written", run_one(&ring), 20);
}

static const struct {
	const char *name;
	void (*run)(unsigned count);
} modes[] = {
	{ "many", many },   { "pending", pending }, { "blocked", blocked }, { "alike", alike },
	{ "zeros", zeros }, { "large", large },	    { "anew", anew },	    { "secret", secret },
};

int main(int count, char **words)
{
	if (pipe(pipes))
		fail("pipe");
	for (unsigned at = 0; count > 1 && at < sizeof modes / sizeof *modes; at++) {
		if (strcmp(words[1], modes[at].name))
			continue;
		modes[at].run(count > 2 ? (unsigned)atoi(words[2]) : 0);
		return 0;
	}
	return 2;
}
