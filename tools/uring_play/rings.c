#include "rings.h"
#include "numbers.h"
#include "trace.h"
#include "uring.h"
#include "watch.h"

#include <errno.h>
#include <stdlib.h>
#include <string.h>
#include <sys/epoll.h>
#include <sys/mman.h>
#include <sys/syscall.h>
#include <time.h>
#include <unistd.h>

/* Younger than many a header. */
#define OP_FIXED_FD_INSTALL 54
#define SETUP_SUBMIT_ALL (1U << 7)
#define EPOLL_PWAIT2 441
enum { MOST_QUEUED = 32768, FEWEST_QUEUED = 8, MOST_TRIES = 20 };
#define SECOND 1000000000ULL

struct ring {
	int descriptor;
	u32 entries, queue_mask, completion_mask;
	u32 *queue_tail, *completion_head, *completion_tail;
	struct io_uring_sqe *sqes;
	struct io_uring_cqe *cqes;
	void *queue;
	size_t queue_size;
	u32 index; /* among those that are there */
	bool is_there;
};
static struct ring *rings; /* the last one is the player's own */
static u32 *live, live_rings;
static u32 fewest;
static bool is_slot_shown;
static int all_rings = -1; /* a descriptor that is ready where a ring has a completion */

/* --- Set-up -------------------------------------------------------------------------------------
 */

static void *map_part(const struct ring *ring, size_t size, u64 offset)
{
	void *part = mmap(NULL, size, PROT_READ | PROT_WRITE, MAP_SHARED | MAP_POPULATE,
			  ring->descriptor, (off_t)offset);

	if (part == MAP_FAILED)
		die("the queues of a ring cannot be mapped: %s", strerror(errno));
	return part;
}

static void pause_for_a_while(void)
{
	const struct timespec a_while = { 0, 50000000 };

	go_on();
	nanosleep(&a_while, NULL);
}

bool is_tried_again(u32 *tries)
{
	if (errno != ENOMEM || ++*tries > MOST_TRIES)
		return false;
	pause_for_a_while();
	return true;
}

static struct io_uring_params set_up(struct ring *ring, u32 wanted)
{
	struct io_uring_params params = { 0 };
	const u32 needed = IORING_FEAT_SINGLE_MMAP | IORING_FEAT_EXT_ARG;
	u32 entries = FEWEST_QUEUED, tries = 0;
	int made;

	while (entries < wanted && entries < MOST_QUEUED)
		entries *= 2;
	params.flags = SETUP_SUBMIT_ALL | IORING_SETUP_CQSIZE | IORING_SETUP_CLAMP;
	params.cq_entries = 2 * entries + 16;
	do
		made = (int)syscall(__NR_io_uring_setup, entries, &params);
	while (made < 0 && is_tried_again(&tries));
	/* There is no such call, it is forbidden, it is an older one, or too much is locked. */
	bool is_untried = errno == ENOSYS || errno == EPERM || errno == EINVAL || errno == ENOMEM;
	if (made < 0)
		die_with(is_untried ? STATUS_UNTRIED : STATUS_FAILED,
			 "the kernel gives no ring: %s", strerror(errno));
	ring->descriptor = move_up(made);
	if ((params.features & needed) != needed)
		die_with(STATUS_UNTRIED, "the kernel is too old for the player");
	return params;
}

/* Both queues lie in one mapping. Entries are taken from the queue in the order of its array. */
static void set_up_queues(struct ring *ring, u32 wanted)
{
	struct io_uring_params params = set_up(ring, wanted);
	size_t queue = params.sq_off.array + params.sq_entries * sizeof(u32);
	size_t completions = params.cq_off.cqes + params.cq_entries * sizeof(struct io_uring_cqe);

	ring->queue_size = queue > completions ? queue : completions;
	ring->queue = map_part(ring, ring->queue_size, IORING_OFF_SQ_RING);
	u8 *memory = ring->queue;
	u32 *array = (u32 *)(void *)(memory + params.sq_off.array);
	ring->sqes = map_part(ring, params.sq_entries * sizeof *ring->sqes, IORING_OFF_SQES);
	ring->entries = params.sq_entries;
	ring->queue_tail = (u32 *)(void *)(memory + params.sq_off.tail);
	ring->queue_mask = *(u32 *)(void *)(memory + params.sq_off.ring_mask);
	ring->completion_mask = *(u32 *)(void *)(memory + params.cq_off.ring_mask);
	ring->completion_head = (u32 *)(void *)(memory + params.cq_off.head);
	ring->completion_tail = (u32 *)(void *)(memory + params.cq_off.tail);
	ring->cqes = (void *)(memory + params.cq_off.cqes);
	for (u32 at = 0; at < ring->entries; at++)
		array[at] = at;
}

static void watch_ring(const struct ring *ring)
{
	struct epoll_event event = { .events = EPOLLIN };

	if (all_rings >= 0 && epoll_ctl(all_rings, EPOLL_CTL_ADD, ring->descriptor, &event))
		die("rings cannot be waited for: %s", strerror(errno));
}

void open_ring(u32 number)
{
	struct ring *ring = &rings[number];
	u32 longest = number < trace.ring_count ? trace.rings[number].longest : 0;

	set_up_queues(ring, (longest > fewest ? longest : fewest) + 1);
	ring->is_there = true;
	ring->index = live_rings;
	live[live_rings++] = number;
	watch_ring(ring);
}

/* A mapped ring keeps its files registered, so they are let go first. */
void close_ring(u32 number)
{
	struct ring *ring = &rings[number];

	register_with(number, IORING_UNREGISTER_FILES, NULL, 0);
	if (all_rings >= 0)
		epoll_ctl(all_rings, EPOLL_CTL_DEL, ring->descriptor, NULL);
	munmap(ring->sqes, ring->entries * sizeof *ring->sqes);
	munmap(ring->queue, ring->queue_size);
	close(ring->descriptor);
	ring->is_there = false;
	live[ring->index] = live[--live_rings];
	rings[live[ring->index]].index = ring->index;
}

void close_rings(void)
{
	while (live_rings)
		close_ring(live[0]);
}

bool is_open(u32 number)
{
	return rings[number].is_there;
}

u32 live_count(void)
{
	return live_rings;
}

u32 live_ring(u32 at)
{
	return live[at];
}

void watch_rings(void)
{
	all_rings = move_up(epoll_create1(EPOLL_CLOEXEC));
	for (u32 at = 0; at < live_rings; at++)
		watch_ring(&rings[live[at]]);
}

long register_with(u32 number, u32 what, const void *list, u32 count)
{
	return syscall(__NR_io_uring_register, rings[number].descriptor, what, list, count);
}

/* --- The player's own ring ----------------------------------------------------------------------
 */

void prepare_rings(u32 wanted)
{
	fewest = wanted;
	rings = allocate((trace.ring_count + 1ULL) * sizeof *rings);
	live = allocate((trace.ring_count + 1ULL) * sizeof *live);
	if (trace.ring_count)
		open_ring(trace.ring_count);
}

void end_own_ring(void)
{
	if (trace.ring_count)
		close_ring(trace.ring_count);
}

void ask_for_opcodes(bool lacking[OPCODES])
{
	struct io_uring_probe *probe =
		allocate(sizeof *probe + OPCODES * sizeof(struct io_uring_probe_op));
	u32 own = trace.ring_count;

	if (own && register_with(own, IORING_REGISTER_PROBE, probe, OPCODES) < 0)
		die_with(STATUS_UNTRIED, "the kernel does not say what it serves: %s",
			 strerror(errno));
	for (u32 opcode = 0; own && opcode < OPCODES; opcode++)
		lacking[opcode] = opcode >= probe->ops_len ||
				  !(probe->ops[opcode].flags & IO_URING_OP_SUPPORTED);
	is_slot_shown = !lacking[OP_FIXED_FD_INSTALL];
	free(probe);
}

/* --- Submission and completions -----------------------------------------------------------------
 */

u32 room_of(u32 ring)
{
	return rings[ring].entries;
}

u32 completion_room_of(u32 ring)
{
	return rings[ring].completion_mask + 1;
}

struct io_uring_sqe *next_sqe(u32 number, u32 at)
{
	struct ring *ring = &rings[number];

	return &ring->sqes[(*ring->queue_tail + at) & ring->queue_mask];
}

/* One call, with a limit of time where it waits. */
static int enter(const struct ring *ring, u32 count, u32 wanted, u64 nanoseconds)
{
	struct __kernel_timespec time = { (i64)(nanoseconds / SECOND),
					  (i64)(nanoseconds % SECOND) };
	struct io_uring_getevents_arg argument = { .ts = (u64)(uintptr_t)&time };
	long done;

	do {
		go_on();
		if (wanted)
			done = syscall(__NR_io_uring_enter, ring->descriptor, count, wanted,
				       IORING_ENTER_GETEVENTS | IORING_ENTER_EXT_ARG, &argument,
				       sizeof argument);
		else
			done = syscall(__NR_io_uring_enter, ring->descriptor, count, 0, 0, NULL, 0);
	} while (done < 0 && errno == EINTR);
	bool is_later = count && (errno == EAGAIN || errno == EBUSY);
	if (done < 0 && (errno == ETIME || is_later))
		return 0;
	if (done < 0)
		die("io_uring_enter: %s", strerror(errno));
	return (int)done;
}

void submit(u32 number, u32 count)
{
	struct ring *ring = &rings[number];

	__atomic_store_n(ring->queue_tail, *ring->queue_tail + count, __ATOMIC_RELEASE);
	u32 taken = 0;
	/* One that took some has cut a chain, but one that took none may do so later. */
	for (u32 tries = 0; !taken && tries <= MOST_TRIES; tries++) {
		if (tries)
			pause_for_a_while();
		taken = (u32)enter(ring, count, 0, 0);
	}
	if (taken != count)
		die("the kernel took %u of %u entries", taken, count);
}

static u32 completions_of(const struct ring *ring)
{
	return __atomic_load_n(ring->completion_tail, __ATOMIC_ACQUIRE) - *ring->completion_head;
}

bool wait_for(u32 number, u32 count, u32 milliseconds)
{
	const struct ring *ring = &rings[number];

	if (completions_of(ring) >= count)
		return true;
	enter(ring, 0, count, milliseconds * (SECOND / 1000));
	return completions_of(ring) >= count;
}

/* One ring is waited for by a call of its own, several through the descriptor that looks at all. */
void wait_for_any(const u32 *wanted, u64 nanoseconds)
{
	struct __kernel_timespec time = { (i64)(nanoseconds / SECOND),
					  (i64)(nanoseconds % SECOND) };
	struct epoll_event event;
	u32 count = 0, last = 0;

	for (u32 at = 0; at < live_rings; at++) {
		if (!wanted[live[at]])
			continue;
		if (completions_of(&rings[live[at]]))
			return;
		count++;
		last = live[at];
	}
	go_on();
	if (!count && all_rings < 0)
		return;
	if (count == 1)
		enter(&rings[last], 0, 1, nanoseconds);
	else if (syscall(EPOLL_PWAIT2, all_rings, &event, 1, &time, NULL, 0) < 0 && errno != EINTR)
		die("epoll_pwait2: %s", strerror(errno));
}

u32 take_completions(u32 number, void (*each)(const struct io_uring_cqe *))
{
	struct ring *ring = &rings[number];
	u32 head = *ring->completion_head, taken = completions_of(ring);

	for (u32 at = 0; at < taken; at++)
		each(&ring->cqes[(head + at) & ring->completion_mask]);
	__atomic_store_n(ring->completion_head, head + taken, __ATOMIC_RELEASE);
	return taken;
}

/* --- Entries of the player's own ----------------------------------------------------------------
 */

static int own_result;

static void take_own(const struct io_uring_cqe *it)
{
	if (it->user_data == OF_PLAYER)
		own_result = it->res;
}

/* Runs an entry by itself; nothing else may be in flight. */
static int run_own(u32 number, const struct io_uring_sqe *it)
{
	struct io_uring_sqe *sqe = next_sqe(number, 0);

	*sqe = *it;
	sqe->user_data = OF_PLAYER;
	own_result = -ETIME;
	submit(number, 1);
	wait_for(number, 1, options.patience * 1000);
	take_completions(number, take_own);
	return own_result;
}

void try_threads(void)
{
	const struct io_uring_sqe nop = { .flags = FLAG_ASYNC };
	int result = trace.ring_count ? run_own(trace.ring_count, &nop) : 0;

	if (result < 0)
		die_with(STATUS_UNTRIED, "the kernel runs no entry in a thread of its own: %s",
			 strerror(-result));
}

bool shows_slots(void)
{
	return is_slot_shown;
}

int slot_file(u32 number, u32 slot)
{
	const struct io_uring_sqe install = { .opcode = OP_FIXED_FD_INSTALL,
					      .flags = FLAG_FIXED,
					      .fd = (i32)slot };

	return run_own(number, &install);
}
