/* Makes each call that the profile serves, for the test of the recorder: run it in an empty
 * directory.
 *
 * Two rings, since Linux takes no IO_DRAIN on a ring that has used CQE_SKIP_SUCCESS. Each entry has
 * the result that is expected of it. Ends with 1 where one differs, and with 77 where the kernel
 * has no io_uring or lacks an opcode. */
#include "raw.h"

#include <sys/uio.h>

enum { ENTRIES = 16, SLOTS = 4, BUFFER = 8192, ANY = INT32_MAX };

struct expected {
	int result;
	bool is_silent;
};

struct checked {
	struct ring ring;
	struct expected expected[ENTRIES];
	int results[ENTRIES];
};

static char buffer[BUFFER] __attribute__((aligned(4096)));
static char memory[BUFFER];
static int faults;

/* The next entry of a submission, with the result that it is to have. */
static struct io_uring_sqe *ask(struct checked *test, unsigned char opcode, int descriptor,
				int result)
{
	struct io_uring_sqe *sqe = add(&test->ring, opcode, descriptor, NULL, 0, 0);

	sqe->user_data = test->ring.added - 1;
	test->expected[sqe->user_data] = (struct expected){ result, false };
	return sqe;
}

/* Says that an entry is to post nothing. */
static void silently(struct checked *test, struct io_uring_sqe *sqe)
{
	sqe->flags |= FLAG_SKIP;
	test->expected[sqe->user_data].is_silent = true;
}

/* Submits what was added, waits for its completions, and compares the results. */
static void run(struct checked *test, const char *what)
{
	unsigned count = test->ring.added, waited = 0;

	for (unsigned at = 0; at < count; at++)
		waited += !test->expected[at].is_silent;
	submit(&test->ring, waited);
	while (waited--) {
		unsigned head = *test->ring.cq_head;
		if (head == __atomic_load_n(test->ring.cq_tail, __ATOMIC_ACQUIRE))
			fail("a completion that is lacking");
		const struct io_uring_cqe *cqe = &test->ring.cqes[head & *test->ring.cq_mask];
		const struct expected *expected = &test->expected[cqe->user_data];
		test->results[cqe->user_data] = cqe->res;
		if (expected->is_silent ||
		    (expected->result != ANY && expected->result != cqe->res)) {
			fprintf(stderr, "%s: entry %llu gave %d, not %d\n", what,
				(unsigned long long)cqe->user_data, cqe->res, expected->result);
			faults++;
		}
		__atomic_store_n(test->ring.cq_head, head + 1, __ATOMIC_RELEASE);
	}
}

/* An address as an entry has it. */
static uint64_t address(const void *of)
{
	return (uint64_t)(uintptr_t)of;
}

/* An entry with a path. */
static struct io_uring_sqe *add_path(struct checked *test, unsigned char opcode, const char *path,
				     int result)
{
	struct io_uring_sqe *sqe = ask(test, opcode, AT_FDCWD, result);

	sqe->addr = address(path);
	return sqe;
}

/* An entry with two paths. */
static struct io_uring_sqe *add_paths(struct checked *test, unsigned char opcode,
				      const char *old_path, const char *new_path, int result)
{
	struct io_uring_sqe *sqe = add_path(test, opcode, old_path, result);

	sqe->len = (unsigned)AT_FDCWD;
	sqe->addr2 = address(new_path);
	return sqe;
}

/* An open, into the slot index - 1 or, with 0, to a descriptor. */
static struct io_uring_sqe *add_open(struct checked *test, const char *path, int flags,
				     unsigned index, int result)
{
	struct io_uring_sqe *sqe = add_path(test, OP_OPENAT, path, result);

	sqe->open_flags = (unsigned)flags;
	sqe->len = 0644;
	sqe->file_index = index;
	return sqe;
}

/* A close of a descriptor or, with an index, of a slot. */
static void add_close(struct checked *test, int descriptor, unsigned index)
{
	ask(test, OP_CLOSE, descriptor, 0)->file_index = index;
}

/* A read or write of memory, or a vector of it. */
static struct io_uring_sqe *add_move(struct checked *test, unsigned char opcode, int descriptor,
				     const void *of, unsigned length, uint64_t offset, int result)
{
	struct io_uring_sqe *sqe = ask(test, opcode, descriptor, result);

	sqe->addr = address(of);
	sqe->len = length;
	sqe->off = offset;
	return sqe;
}

/* Registers the buffer and the slots. */
static void register_all(struct checked *test, const int *slots)
{
	struct iovec vector = { buffer, BUFFER };

	if (syscall(SYS_io_uring_register, test->ring.descriptor, IORING_REGISTER_BUFFERS, &vector,
		    1) ||
	    syscall(SYS_io_uring_register, test->ring.descriptor, IORING_REGISTER_FILES, slots,
		    SLOTS))
		fail("io_uring_register");
}

/* Whether the kernel has the youngest of the opcodes. */
static void probe(const struct checked *test)
{
	size_t size = sizeof(struct io_uring_probe) + 256 * sizeof(struct io_uring_probe_op);
	struct io_uring_probe *found = calloc(1, size);

	if (!found ||
	    syscall(SYS_io_uring_register, test->ring.descriptor, IORING_REGISTER_PROBE, found,
		    256) ||
	    found->last_op < OP_FTRUNCATE) {
		fputs("the kernel lacks an opcode\n", stderr);
		exit(UNTRIED);
	}
	free(found);
}

/* Names and descriptors of the table, each call by itself. */
static void by_descriptor(struct checked *test)
{
	struct iovec two[2] = { { memory, 5 }, { memory + 100, 7 } };

	memcpy(memory, "hello", 5);
	memcpy(memory + 100, " world!", 7);
	add_path(test, OP_MKDIRAT, "d", 0)->len = 0755;
	run(test, "a directory");
	add_path(test, OP_MKDIRAT, "d", -EEXIST);
	add_open(test, "d/a", O_CREAT | O_RDWR, 0, ANY);
	run(test, "an open");
	int file = test->results[1];
	add_move(test, OP_WRITEV, file, two, 2, AT_POSITION, 12);
	run(test, "vectors at the position");
	add_move(test, OP_WRITE, file, "HELLO", 5, 20, 5);
	run(test, "a write behind the end");
	/* An ordinary call moves the position, and another one changes the file. */
	if (lseek(file, 3, SEEK_SET) != 3 || pwrite(file, "++", 2, 14) != 2)
		fail("ordinary calls");
	two[0] = (struct iovec){ memory + 200, 4 };
	two[1] = (struct iovec){ memory + 300, 100 };
	add_move(test, OP_READV, file, two, 2, AT_POSITION, 22);
	run(test, "vectors behind a moved position");
	add_move(test, OP_READ, file, memory + 400, 40, 0, 25);
	run(test, "a read");
	ask(test, OP_FSYNC, file, 0);
	struct io_uring_sqe *sqe = ask(test, OP_FALLOCATE, file, 0);
	sqe->off = 25;
	sqe->addr = 75;
	run(test, "an allocation");
	ask(test, OP_FTRUNCATE, file, 0)->off = 90;
	run(test, "a cut");
	add_paths(test, OP_LINKAT, "d/a", "d/b", 0);
	run(test, "another name");
	add_paths(test, OP_RENAMEAT, "d/b", "c", 0);
	run(test, "a name that moves");
	if (ftruncate(file, 60) || rename("c", "e"))
		fail("ordinary calls");
	add_path(test, OP_UNLINKAT, "c", -ENOENT);
	add_path(test, OP_UNLINKAT, "d/a", 0);
	run(test, "names that go");
	add_close(test, file, 0);
	run(test, "a close");
}

/* Chains over slots: opened, used and closed by their members; broken and not. */
static void by_slot(struct checked *test)
{
	memset(memory, 'x', 100);
	add_open(test, "s", O_CREAT | O_RDWR, 2, 0)->flags = FLAG_LINK;
	add_move(test, OP_WRITE, 1, memory, 100, 0, 100)->flags = FLAG_FIXED | FLAG_LINK;
	add_move(test, OP_READ, 1, memory + 100, 50, 75, 25)->flags = FLAG_FIXED | FLAG_HARD;
	ask(test, OP_FSYNC, 1, 0)->flags = FLAG_FIXED;
	run(test, "a chain with a hard link behind a short read");
	add_move(test, OP_READ, 1, memory + 200, 50, 75, 25)->flags = FLAG_FIXED | FLAG_LINK;
	add_move(test, OP_WRITE, 1, memory, 10, 0, -ECANCELED)->flags = FLAG_FIXED | FLAG_LINK;
	ask(test, OP_NOP, 0, -ECANCELED);
	run(test, "a chain that a short read breaks");
	add_open(test, "missing/s", O_RDONLY, 3, -ENOENT)->flags = FLAG_LINK;
	ask(test, OP_NOP, 0, -ECANCELED);
	run(test, "a chain that a failing open breaks");
	for (int at = 0; at < 4; at++)
		add_move(test, OP_WRITE, 1, memory + at, 10, 1000U + 10U * (unsigned)at, 10)
			->flags = FLAG_FIXED;
	add_move(test, OP_READ, 1, memory + 300, 64, 990, 50)->flags = FLAG_FIXED | FLAG_DRAIN;
	ask(test, OP_NOP, 0, 0);
	run(test, "a drain behind four writes");
	add_close(test, 0, 2);
	run(test, "a slot that is closed");
	add_move(test, OP_READ, 1, memory, 10, 0, -EBADF)->flags = FLAG_FIXED;
	run(test, "a slot that is empty");
}

/* Fixed reads and writes, with bytes of the buffer that the program changes between submissions. */
static void by_buffer(struct checked *test)
{
	memset(buffer, 'A', 4096);
	add_move(test, OP_WRITE_FIXED, 0, buffer, 4096, 0, 4096)->flags = FLAG_FIXED;
	run(test, "a fixed write");
	memcpy(buffer + 1000, "changed", 7);
	add_move(test, OP_WRITE_FIXED, 0, buffer, 2048, 4096, 2048)->flags = FLAG_FIXED;
	run(test, "a fixed write of changed bytes");
	add_move(test, OP_READ_FIXED, 0, buffer + 4096, 4096, 3000, 3144)->flags =
		FLAG_FIXED | FLAG_HARD;
	add_move(test, OP_WRITE_FIXED, 0, buffer + 4096, 100, 8000, 100)->flags = FLAG_FIXED;
	run(test, "a fixed read, and a write of what it read");
	memset(buffer + 4096 + 50, 'z', 10);
	add_move(test, OP_WRITE_FIXED, 0, buffer + 4096, 4096, 10000, 4096)->flags = FLAG_FIXED;
	run(test, "a fixed write of what was read and changed");
	add_move(test, OP_READ, 0, memory, 8192, 0, 8192)->flags = FLAG_FIXED;
	run(test, "what came of it");
}

/* Entries that post nothing; they are in a chain whose last member posts. */
static void quietly(struct checked *test)
{
	struct io_uring_sqe *sqe = add_open(test, "q", O_CREAT | O_WRONLY, 2, 0);

	sqe->flags = FLAG_LINK;
	silently(test, sqe);
	sqe = add_move(test, OP_WRITE, 1, "quiet", 5, 0, 5);
	sqe->flags = FLAG_FIXED | FLAG_LINK;
	silently(test, sqe);
	add_close(test, 0, 2);
	run(test, "a quiet chain");
	add_open(test, "missing", O_RDONLY, 0, -ENOENT)->flags = FLAG_SKIP;
	run(test, "a quiet entry that fails");
}

/* An entry that the profile does not serve. */
static void outside(struct checked *test)
{
	struct __kernel_timespec soon = { .tv_nsec = 1 };

	add_move(test, IORING_OP_TIMEOUT, -1, &soon, 1, 0, -ETIME);
	run(test, "a timeout");
}

/* Makes two rings, and runs each part. */
int main(void)
{
	struct checked ring = { 0 }, quiet = { 0 };
	int slots[SLOTS] = { -1, -1, -1, -1 };

	alarm(30); /* (a completion that does not come is waited for no longer) */
	open_ring(&ring.ring, ENTRIES, 0);
	open_ring(&quiet.ring, ENTRIES, 0);
	probe(&ring);
	register_all(&quiet, slots);
	slots[0] = open("fixed", O_CREAT | O_RDWR, 0644);
	if (slots[0] < 0)
		fail("fixed");
	register_all(&ring, slots);
	close(slots[0]);
	by_descriptor(&ring);
	by_slot(&ring);
	by_buffer(&ring);
	quietly(&quiet);
	outside(&ring);
	int plain = open("plain", O_CREAT | O_WRONLY | O_APPEND, 0644);
	if (plain < 0 || write(plain, "ordinary\n", 9) != 9 || ftruncate(plain, 4) ||
	    rename("plain", "d/plain"))
		fail("ordinary calls");
	close(plain);
	ask(&ring, OP_NOP, 0, 0);
	run(&ring, "the last");
	return faults != 0;
}
