/* A ring by raw calls, for the programs of the recorder's tests. */
#ifndef RAW_H
#define RAW_H

#include "uring.h"

#include <errno.h>
#include <fcntl.h>
#include <stdbool.h>
#include <stdint.h>
#include <stdio.h>
#include <stdlib.h>
#include <string.h>
#include <sys/mman.h>
#include <sys/syscall.h>
#include <unistd.h>

/* What a program ends with where the kernel lacks what it needs. */
enum { UNTRIED = 77 };

struct ring {
	int descriptor;
	unsigned *sq_tail, *sq_mask, *array, *cq_head, *cq_tail, *cq_mask;
	struct io_uring_sqe *sqes;
	struct io_uring_cqe *cqes;
	unsigned added; /* entries since the last submission */
};

/* What a program does by a name. */
struct mode {
	const char *name;
	void (*run)(void);
};

/* Runs the mode of a name, and tells whether there is one. */
static inline bool run_mode(const struct mode *modes, size_t count, const char *name)
{
	for (size_t at = 0; at < count; at++) {
		if (strcmp(name, modes[at].name))
			continue;
		modes[at].run();
		return true;
	}
	return false;
}

/* Ends the program where a call fails that is not tested. */
static inline void fail(const char *what)
{
	perror(what);
	exit(1);
}

/* Ends the program where the kernel lacks something. */
static inline void lack(const char *what)
{
	perror(what);
	exit(UNTRIED);
}

/* Makes a ring of so many entries and maps its queues. */
static inline void open_ring(struct ring *ring, unsigned entries, unsigned flags)
{
	struct io_uring_params params = { .flags = flags };
	int made = (int)syscall(SYS_io_uring_setup, entries, &params);

	if (made < 0)
		lack("io_uring_setup");
	size_t sq_size = params.sq_off.array + params.sq_entries * sizeof(unsigned);
	size_t cq_size = params.cq_off.cqes + params.cq_entries * sizeof(struct io_uring_cqe);
	size_t sqes_size = params.sq_entries * sizeof(struct io_uring_sqe);
	int both = PROT_READ | PROT_WRITE;
	char *sq = mmap(NULL, sq_size, both, MAP_SHARED, made, IORING_OFF_SQ_RING);
	char *cq = mmap(NULL, cq_size, both, MAP_SHARED, made, IORING_OFF_CQ_RING);
	void *sqes = mmap(NULL, sqes_size, both, MAP_SHARED, made, IORING_OFF_SQES);
	if (sq == MAP_FAILED || cq == MAP_FAILED || sqes == MAP_FAILED)
		fail("mmap");
	*ring = (struct ring){ .descriptor = made, .sqes = sqes };
	ring->sq_tail = (unsigned *)(void *)(sq + params.sq_off.tail);
	ring->sq_mask = (unsigned *)(void *)(sq + params.sq_off.ring_mask);
	ring->array = (unsigned *)(void *)(sq + params.sq_off.array);
	ring->cq_head = (unsigned *)(void *)(cq + params.cq_off.head);
	ring->cq_tail = (unsigned *)(void *)(cq + params.cq_off.tail);
	ring->cq_mask = (unsigned *)(void *)(cq + params.cq_off.ring_mask);
	ring->cqes = (struct io_uring_cqe *)(void *)(cq + params.cq_off.cqes);
}

/* The next entry of a submission. */
static inline struct io_uring_sqe *add(struct ring *ring, unsigned char opcode, int descriptor,
				       const void *address, unsigned length, uint64_t offset)
{
	unsigned at = (*ring->sq_tail + ring->added) & *ring->sq_mask;
	struct io_uring_sqe *sqe = &ring->sqes[at];

	memset(sqe, 0, sizeof *sqe);
	sqe->opcode = opcode;
	sqe->fd = descriptor;
	sqe->addr = (uint64_t)(uintptr_t)address;
	sqe->len = length;
	sqe->off = offset;
	sqe->user_data = *ring->sq_tail + ring->added + 1;
	ring->array[at] = at;
	ring->added++;
	return sqe;
}

/* Submits what was added, and waits for so many completions. */
static inline void submit(struct ring *ring, unsigned waited)
{
	unsigned count = ring->added;

	__atomic_store_n(ring->sq_tail, *ring->sq_tail + count, __ATOMIC_RELEASE);
	ring->added = 0;
	if (syscall(SYS_io_uring_enter, ring->descriptor, count, waited,
		    waited ? IORING_ENTER_GETEVENTS : 0, NULL, 0) < 0)
		fail("io_uring_enter");
}

/* Takes the next completion's result; a kernel without the opcode is told by EINVAL. It waits where
 * the call that submitted came back too early, as one of a polled ring may on a busy machine. */
static inline int take(struct ring *ring)
{
	unsigned head = *ring->cq_head;

	while (head == __atomic_load_n(ring->cq_tail, __ATOMIC_ACQUIRE))
		if (syscall(SYS_io_uring_enter, ring->descriptor, 0, 1, IORING_ENTER_GETEVENTS, NULL,
			    0) < 0 &&
		    errno != EINTR)
			fail("a completion that is lacking");
	int result = ring->cqes[head & *ring->cq_mask].res;
	__atomic_store_n(ring->cq_head, head + 1, __ATOMIC_RELEASE);
	return result;
}

/* Submits one entry, waits for it, and gives its result. */
static inline int run_one(struct ring *ring)
{
	submit(ring, 1);
	return take(ring);
}

/* Ends the program where a result is another one. */
static inline void expect(const char *what, int result, int wanted)
{
	if (result == wanted)
		return;
	fprintf(stderr, "%s gave %d, not %d\n", what, result, wanted);
	exit(result == -EINVAL ? UNTRIED : 1);
}

#endif
