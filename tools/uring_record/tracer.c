#include "tracer.h"
#include "ahead.h"
#include "aside.h"
#include "calls.h"
#include "clones.h"
#include "completions.h"
#include "memory.h"
#include "notes.h"
#include "others.h"
#include "registers.h"
#include "signals.h"
#include "start.h"
#include "stream.h"
#include "submissions.h"

#include <errno.h>
#include <fcntl.h>
#include <linux/audit.h>
#include <linux/filter.h>
#include <linux/fs.h>
#include <linux/sched.h>
#include <linux/seccomp.h>
#include <signal.h>
#include <stdio.h>
#include <stdlib.h>
#include <string.h>
#include <sys/mman.h>
#include <sys/prctl.h>
#include <sys/ptrace.h>
#include <linux/ptrace.h>
#include <sys/resource.h>
#include <sys/syscall.h>
#include <sys/wait.h>
#include <time.h>
#include <unistd.h>

/* So long a call waits, with --wait, for what does not come. */
enum { MOST_CALLS = 64, MOST_REGISTERED = 16, MOST_MILLISECONDS = 2000 };

/* A thread of the command, and the call that it is in. */
struct thread {
	pid_t id, process;
	bool is_in_call;
	bool is_early;	   /* the call began before the start, which waits for its end */
	bool is_postponed; /* it is stopped at the call until such calls have ended */
	bool has_begun;	   /* it was seen before */
	bool is_new;	   /* it is stopped until it is known of which call it is the child */
	struct call call;
	struct ring *ring; /* of io_uring_enter: its ring, and what it submits */
	struct record *record;
	struct ring *reaps;   /* a ring to look at once the call has returned */
	u64 given[ARGUMENTS]; /* its arguments, where the recorder has changed some */
	bool is_changed;
	bool is_held; /* it waits for more than the command asked for: for so many completions */
	u32 awaited;
	i64 since;			     /* when that began, in milliseconds */
	u32 polled;			     /* the flags that were taken off a ring */
	struct ring *rings[MOST_REGISTERED]; /* those that are registered by an index */
	struct thread *next;
};
static struct thread *threads;

/* The process of a thread. */
static pid_t process_of(pid_t thread)
{
	char name[64], line[256];
	pid_t process = thread;

	snprintf(name, sizeof name, "/proc/%d/status", thread);
	FILE *status = fopen(name, "r");
	while (status && fgets(line, sizeof line, status)) {
		if (!strncmp(line, "Tgid:", 5))
			process = atoi(line + 5);
	}
	if (status)
		fclose(status);
	return process;
}

/* What is known of a thread; a new one is added. */
static struct thread *thread_of(pid_t id)
{
	for (struct thread *it = threads; it; it = it->next) {
		if (it->id == id)
			return it;
	}
	struct thread *made = allocate(sizeof *made);
	made->id = id;
	made->process = process_of(id);
	watch_thread(made->process, id);
	made->next = threads;
	threads = made;
	return made;
}

/* Lets go of a thread that has ended. */
static void forget_thread(pid_t id)
{
	for (struct thread **it = &threads; *it; it = &(*it)->next) {
		struct thread *gone = *it;
		if (gone->id != id)
			continue;
		*it = gone->next;
		if (gone->record)
			gone->record->is_open = false;
		unwatch_thread(id);
		caller_is_gone(id);
		forget_call(&gone->call);
		free(gone);
		return;
	}
}

/* Changes an argument of the call that a thread is about to make. */
static void change_argument(struct thread *thread, int index, u64 value)
{
	if (!thread->is_changed)
		memcpy(thread->given, thread->call.arguments, sizeof thread->given);
	thread->is_changed = true;
	thread->call.arguments[index] = value;
}

/* After a call whose arguments were changed: the program finds its registers as it left them, and
 * the result that it would have had. */
static void put_back(struct thread *thread, i64 result)
{
	u64 asked = thread->given[1];

	put_arguments(thread->id, thread->given);
	if (result >= 0 && thread->call.arguments[1] != asked)
		change_result(thread->id, asked);
	else if (result == -EINTR && thread->is_held)
		change_result(thread->id, 0);
}

/* Calls of rings */

/* The ring of a descriptor, or of an index of registered ones, or NULL. */
static struct ring *ring_of(const struct thread *thread, u64 descriptor, bool is_registered)
{
	int number = (int)descriptor;

	if (is_registered)
		return number < 0 || number >= MOST_REGISTERED ? NULL : thread->rings[number];
	return find_ring(thread->process, number);
}

/* The flags of a ring that go with SQPOLL. A ring with it has a thread of the kernel for its
 * issuer, so that any thread of the program may submit. */
enum { POLLED = IORING_SETUP_SQPOLL | IORING_SETUP_SQ_AFF | SETUP_SINGLE_ISSUER };

/* Whether the kernel would make such a ring with its SQPOLL: the recorder tries, and closes it
 * again. */
static bool is_granted(const struct thread *thread, u32 entries, struct io_uring_params params)
{
	if (params.flags & IORING_SETUP_ATTACH_WQ) {
		const struct ring *other = find_ring(thread->process, (int)params.wq_fd);
		if (!other || other->process != thread->process ||
		    !(other->flags & IORING_SETUP_SQPOLL))
			return false;
	}
	params.flags &= ~(u32)(IORING_SETUP_ATTACH_WQ | SETUP_NO_MMAP | SETUP_REGISTERED_FD_ONLY);
	memset(&params.sq_off, 0, sizeof params.sq_off);
	memset(&params.cq_off, 0, sizeof params.cq_off);
	int tried = (int)syscall(SYS_io_uring_setup, entries, &params);
	if (tried >= 0)
		close(tried);
	return tried >= 0;
}

/* SQPOLL is taken off a ring, so that its submissions are calls. What the kernel refuses, it shall
 * refuse here too. */
static void setup_begins(struct thread *thread)
{
	const u64 *arguments = thread->call.arguments;
	struct io_uring_params params;

	thread->polled = 0;
	if (trace.is_ended || !fetch(thread->id, arguments[1], &params, sizeof params) ||
	    !(params.flags & IORING_SETUP_SQPOLL) || !is_granted(thread, (u32)arguments[0], params))
		return;
	note("SQPOLL is taken off a ring, so that its submissions are calls", NULL);
	thread->polled = params.flags & POLLED;
	params.flags &= ~(u32)POLLED;
	store(thread->id, arguments[1] + offsetof(struct io_uring_params, flags), &params.flags,
	      sizeof params.flags);
}

/* A ring that is not made leaves the program's parameters as they were. */
static void put_back_flags(const struct thread *thread)
{
	u64 at = thread->call.arguments[1] + offsetof(struct io_uring_params, flags);
	u32 flags = fetch_word(thread->id, at) | thread->polled;

	if (thread->polled)
		store(thread->id, at, &flags, sizeof flags);
}

/* A ring was made: where its queues will be, and how large. */
static void setup_ended(struct thread *thread, i64 result)
{
	u64 at = thread->call.arguments[1];
	struct io_uring_params params;
	struct ring *ring = NULL;

	put_back_flags(thread);
	if (result < 0 || !fetch(thread->id, at, &params, sizeof params))
		return;
	bool is_index = params.flags & SETUP_REGISTERED_FD_ONLY;
	ring = add_ring(thread->process, is_index ? -1 : (int)result);
	if (is_index && result < MOST_REGISTERED)
		thread->rings[result] = ring;
	if (!ring)
		return;
	ring->has_index |= is_index;
	ring->flags = params.flags;
	ring->sq_entries = params.sq_entries;
	ring->cq_entries = params.cq_entries;
	ring->sq_offsets = params.sq_off;
	ring->cq_offsets = params.cq_off;
	if (params.flags & SETUP_NO_MMAP) {
		/* The program's own memory: the last words of the offsets have its addresses. */
		memcpy(&ring->sqes, (const char *)&params.sq_off + 32, 8);
		memcpy(&ring->cq, (const char *)&params.cq_off + 32, 8);
		ring->sq = ring->cq;
	}
	if (params.flags & IORING_SETUP_IOPOLL)
		note("a ring with IOPOLL", NULL);
	if (params.flags & IORING_SETUP_SQPOLL && !thread->polled && !trace.is_ended)
		lose("what a ring submits whose SQPOLL could not be taken off is left out");
}

/* Of a ring without its SQPOLL, the call that wakes the kernel's thread is made to submit all. */
static void submit_all(struct thread *thread)
{
	const struct ring *ring = thread->ring;
	u64 *arguments = thread->call.arguments;
	u32 count = fetch_word(thread->id, ring->sq + ring->sq_offsets.tail) -
		    fetch_word(thread->id, ring->sq + ring->sq_offsets.head);

	if (count > ring->sq_entries)
		count = ring->sq_entries;
	if (!(ring->flags & IORING_SETUP_SQPOLL) || count == arguments[1])
		return;
	change_argument(thread, 1, count);
}

/* The time in milliseconds. */
static i64 milliseconds(void)
{
	struct timespec now;

	clock_gettime(CLOCK_MONOTONIC, &now);
	return now.tv_sec * 1000 + now.tv_nsec / 1000000;
}

/* How many completions a call was to wait for before it was changed. */
static u64 waited_for(const struct thread *thread)
{
	const u64 *given = thread->is_changed ? thread->given : thread->call.arguments;

	return given[3] & IORING_ENTER_GETEVENTS ? given[2] : 0;
}

/* Makes a call wait for all that is in flight. */
static void wait_for_all(struct thread *thread)
{
	const u64 *arguments = thread->call.arguments;
	u32 completions;

	if (!may_wait(thread->ring, thread->id, &completions) || completions <= waited_for(thread))
		return;
	change_argument(thread, 2, completions);
	if (!(arguments[3] & IORING_ENTER_GETEVENTS)) {
		/* (no signal mask: what a call has there that waits for nothing is not looked at)
		 */
		change_argument(thread, 3, arguments[3] | IORING_ENTER_GETEVENTS);
		change_argument(thread, 4, 0);
		change_argument(thread, 5, NSIG / 8);
	}
	thread->is_held = true;
	thread->awaited = completions;
	thread->since = milliseconds();
}

/* Ends the waiting of a call that was made to wait, where it has what the command asked for, and
 * the rest does not come: another thread took it, or it takes too long. From then on no call of the
 * ring is made to wait. */
static void look_at_held(struct thread *thread)
{
	struct ring *ring = thread->ring;
	u32 tail = fetch_word(thread->id, ring->cq + ring->cq_offsets.tail);
	u64 here = tail - fetch_word(thread->id, ring->cq + ring->cq_offsets.head);
	u64 unseen = tail - ring->seen, flying = ring->in_flight;
	u64 to_come = flying > unseen ? flying - unseen : 0;
	bool is_hopeless = here + to_come < thread->awaited;

	if (here < waited_for(thread) ||
	    (!is_hopeless && milliseconds() < thread->since + MOST_MILLISECONDS))
		return;
	ring->is_shared = true;
	note("a call that --wait made wait is let go, and no later one of its ring is made to wait",
	     NULL);
	ptrace(PTRACE_INTERRUPT, thread->id, 0, 0);
}

/* Once the recording has ended: a ring whose SQPOLL was taken off needs its submissions still. */
static bool enter_unrecorded(struct thread *thread)
{
	if (thread->ring && thread->ring->sq)
		submit_all(thread);
	if (thread->is_changed)
		put_arguments(thread->id, thread->call.arguments);
	return thread->is_changed;
}

/* Takes what a call is to submit on its ring, whose queues are known. */
static void take_submission(struct thread *thread)
{
	const u64 *arguments = thread->call.arguments;
	struct ring *ring = thread->ring;

	if (ring->first) /* (what was read before the look is seen before the call) */
		look_at_others(thread->process, thread->id);
	read_queues_ahead(ring, thread->id, (u32)arguments[1]);
	u32 flags = fetch_word(thread->id, ring->sq + ring->sq_offsets.flags);
	ring->overflows = flags & IORING_SQ_CQ_OVERFLOW;
	reap_all(thread->process, thread->id);
	reap(ring, thread->id, false);
	bool was_idle = !ring->first;
	submit_all(thread);
	if (arguments[1])
		thread->record = submission(ring, thread->id, thread->process, (u32)arguments[1]);
	if (options.wait && thread->record && !ring->is_shared)
		wait_for_all(thread);
	if (thread->is_changed)
		put_arguments(thread->id, arguments);
	if (was_idle)
		look_at_others(thread->process, thread->id);
}

/* Learns which threads use a ring: where several do, one may take what another waits for. */
static void look_at_user(struct thread *thread)
{
	struct ring *ring = thread->ring;

	if (ring->user && ring->user != thread->id && !ring->is_shared) {
		ring->is_shared = true;
		if (options.wait)
			note("a ring that several threads use: none of its calls is made to wait",
			     NULL);
	}
	ring->user = thread->id;
}

/* Takes what a call of io_uring_enter(2) is to submit. */
static bool enter_begins(struct thread *thread)
{
	const u64 *arguments = thread->call.arguments;

	thread->ring = ring_of(thread, arguments[0], arguments[3] & ENTER_REGISTERED_RING);
	thread->record = NULL;
	thread->is_changed = thread->is_held = false;
	if (trace.is_ended)
		return enter_unrecorded(thread);
	if (!thread->ring) {
		if (arguments[1] && (arguments[3] & ENTER_REGISTERED_RING ||
				     is_ring(thread->process, (int)arguments[0])))
			lose("what a ring submits that is not recorded is left out");
		return false;
	}
	look_at_user(thread);
	if (!thread->ring->sq || !thread->ring->sqes) {
		if (arguments[1])
			lose("what a ring submits whose memory is not known is left out");
		return false;
	}
	take_submission(thread);
	return true;
}

/* Takes how much of it was submitted, and the completions that came. */
static void enter_ended(struct thread *thread, i64 result)
{
	if (trace.is_ended && !thread->record)
		;
	else if (thread->record)
		submitted(thread->ring, thread->id, thread->record, result > 0 ? (u32)result : 0);
	else
		reap(thread->ring, thread->id, true);
	thread->record = NULL;
	if (thread->is_changed)
		put_back(thread, result);
	thread->is_changed = thread->is_held = false;
	/* Completions may come as the call returns: the thread is stopped once more to see them. */
	if (thread->ring->first && !ptrace(PTRACE_INTERRUPT, thread->id, 0, 0))
		thread->reaps = thread->ring;
}

/* Descriptors of rings are registered or let go. */
static void rings_registered(struct thread *thread, bool is_registered)
{
	const u64 *arguments = thread->call.arguments;
	struct io_uring_rsrc_update update;

	for (u64 at = 0; at < arguments[3]; at++) {
		if (fetch(thread->id, arguments[2] + sizeof update * at, &update, sizeof update) &&
		    update.offset < MOST_REGISTERED) {
			struct ring *ring =
				is_registered ? find_ring(thread->process, (int)update.data) : NULL;
			thread->rings[update.offset] = ring;
			if (ring)
				ring->has_index = true;
		}
	}
}

/* io_uring_register(2). */
static void register_ended(struct thread *thread, i64 result)
{
	const u64 *arguments = thread->call.arguments;
	u32 operation = (u32)arguments[1] & ~REGISTER_USE_REGISTERED_RING;
	bool is_by_index = arguments[1] & REGISTER_USE_REGISTERED_RING;

	bool updates_files = operation == IORING_REGISTER_FILES_UPDATE ||
			     operation == IORING_REGISTER_FILES_UPDATE2;

	if (result < 0 && !updates_files)
		return;
	if (operation == REGISTER_RING_FDS || operation == UNREGISTER_RING_FDS) {
		rings_registered(thread, operation == REGISTER_RING_FDS);
		return;
	}
	struct ring *ring = ring_of(thread, arguments[0], is_by_index), *from = NULL;
	if (operation == REGISTER_CLONE_BUFFERS)
		from = ring_of(thread, fetch_word(thread->id, arguments[2]),
			       fetch_word(thread->id, arguments[2] + 4) & 1);
	if (!ring || trace.is_ended)
		return;
	if (updates_files)
		updated_files(ring, thread->id, operation, arguments[2], (u32)arguments[3], result);
	else
		registered(ring, from, thread->id, operation, arguments[2], (u32)arguments[3]);
}

/* mmap(2) of a ring, or of a file. */
static bool mmap_begins(struct thread *thread)
{
	const u64 *arguments = thread->call.arguments;

	if ((int)arguments[4] < 0 || !(arguments[3] & MAP_SHARED))
		return false;
	if (ring_of(thread, arguments[4], false))
		return true;
	file_mapped(&thread->call);
	return false;
}

/* Learns where the queues of a ring are. */
static void mmap_ended(struct thread *thread, i64 result)
{
	const u64 *arguments = thread->call.arguments;
	struct ring *ring = ring_of(thread, arguments[4], false);
	u64 at = (u64)result;

	if ((result < 0 && result > -4096) || !ring)
		return;
	if (arguments[5] == IORING_OFF_SQES) {
		ring->sqes = at;
	} else if (arguments[5] == IORING_OFF_CQ_RING) {
		ring->cq = at;
	} else if (arguments[5] == IORING_OFF_SQ_RING) {
		ring->sq = at;
		if (!ring->cq)
			ring->cq = at;
		if (ring->flags & IORING_SETUP_SQPOLL) {
			/* The program is to wake the thread that it believes in at each submission.
			 */
			u32 flags = fetch_word(thread->id, at + ring->sq_offsets.flags) |
				    IORING_SQ_NEED_WAKEUP;
			store(thread->id, at + ring->sq_offsets.flags, &flags, sizeof flags);
		}
	}
}

/* Calls as such */

/* A call begins: whether its end matters. */
static bool begins(struct thread *thread)
{
	struct call *call = &thread->call;

	forget_call(call);
	call->thread = thread->id;
	call->process = thread->process;
	switch (call->number) {
	case SYS_io_uring_setup:
		setup_begins(thread);
		return true;
	case SYS_io_uring_enter:
		return enter_begins(thread);
	case SYS_io_uring_register:
		return true;
	case SYS_mmap:
		return mmap_begins(thread);
	case SYS_munmap:
		return reap_unmapped(thread->process, thread->id, call->arguments[0],
				     call->arguments[0] + call->arguments[1]);
	case SYS_execve:
	case SYS_execveat:
	case SYS_flock:
		let_go_of_closed_files();
		return false;
	case SYS_fcntl:
		if ((int)call->arguments[1] == F_SETFL)
			return call_begins(call);
		let_go_of_closed_files();
		return false;
	case SYS_exit_group:
		reap_all(thread->process, thread->id);
		return false;
	case SYS_clone:
	case SYS_clone3:
		return clone_begins(call);
	default:
		/* (without another thread none can begin the trace meanwhile) */
		thread->is_early = !is_started() && threads->next && may_change(call);
		return thread->is_early || call_begins(call);
	}
}

/* The start reads the tree while the other threads run: it waits for calls that change it. Those
 * that come then wait for the start. */

/* Whether a call that began before the start changes the tree now. */
static bool has_early_call(void)
{
	for (const struct thread *it = threads; it; it = it->next) {
		if (it->is_in_call && it->is_early)
			return true;
	}
	return false;
}

/* Whether a thread waits with its call. */
static bool is_postponed(const struct thread *thread)
{
	bool submits = thread->call.number == SYS_io_uring_enter && thread->call.arguments[1];
	bool is_pending = submits;

	if (is_started() || !has_early_call())
		return false;
	for (const struct thread *it = threads; it; it = it->next)
		is_pending |= it->is_postponed;
	return is_pending && (submits || may_change(&thread->call));
}

/* A thread makes its call. */
static void make_call(struct thread *thread)
{
	thread->is_postponed = thread->is_early = false;
	thread->is_in_call = begins(thread);
}

/* Lets the threads go on that waited, the one that begins the trace first. */
static void make_postponed_calls(void)
{
	if (has_early_call())
		return;
	for (unsigned others = 0; others < 2; others++) {
		for (struct thread *it = threads; it; it = it->next) {
			if (!it->is_postponed || (!others && it->call.number != SYS_io_uring_enter))
				continue;
			make_call(it);
			ptrace(it->is_in_call ? PTRACE_SYSCALL : PTRACE_CONT, it->id, 0, 0);
		}
	}
}

/* A call has ended. */
static void ended(struct thread *thread, i64 result)
{
	switch (thread->call.number) {
	case SYS_io_uring_setup:
		setup_ended(thread, result);
		break;
	case SYS_io_uring_enter:
		enter_ended(thread, result);
		break;
	case SYS_io_uring_register:
		register_ended(thread, result);
		break;
	case SYS_mmap:
		mmap_ended(thread, result);
		break;
	case SYS_munmap:
		if (!result)
			unmapped(thread->process, thread->call.arguments[0],
				 thread->call.arguments[0] + thread->call.arguments[1]);
		break;
	case SYS_clone:
	case SYS_clone3:
		clone_ended(thread->id);
		break;
	default:
		thread->is_early = false;
		call_ended(&thread->call, result);
	}
}

/* Stops of the threads */

#if defined __x86_64__
#define OWN_ARCHITECTURE AUDIT_ARCH_X86_64
#elif defined __aarch64__
#define OWN_ARCHITECTURE AUDIT_ARCH_AARCH64
#elif defined __riscv && __riscv_xlen == 64
#define OWN_ARCHITECTURE AUDIT_ARCH_RISCV64
#else
#error "the recorder is for 64-bit x86, ARM and RISC-V"
#endif

/* An instruction of the filter. */
static struct sock_filter statement(u16 code, u32 value)
{
	return (struct sock_filter){ .code = code, .k = value };
}

/* A jump of the filter. */
static struct sock_filter jump_if_equal(u32 value, u32 then, u32 otherwise)
{
	return (struct sock_filter){ BPF_JMP | BPF_JEQ | BPF_K, (u8)then, (u8)otherwise, value };
}

/* What ioctl(2) does to ranges of files, as XFS began it. */
struct space {
	int16_t type, whence;
	i64 start, length;
	i32 system;
	u32 process;
	i32 rest[4];
};
#define TAKE_OUT_RANGE _IOW('X', 41, struct space)
#define TAKE_OUT_RANGE_64 _IOW('X', 43, struct space)
#define CLEAR_RANGE _IOW('X', 57, struct space)

/* Adds the part of a filter that stops a call where its second argument is one of some commands;
 * gives how long the filter is then. */
static u16 filter_commands(struct sock_filter *filter, u16 length, u32 number, const u32 *commands,
			   u32 count)
{
	filter[length++] = jump_if_equal(number, 0, count + 3);
	filter[length++] =
		statement(BPF_LD | BPF_W | BPF_ABS, offsetof(struct seccomp_data, args[1]));
	for (u32 at = 0; at < count; at++)
		filter[length++] = jump_if_equal(commands[at], count - at, 0);
	filter[length++] = statement(BPF_RET | BPF_K, SECCOMP_RET_ALLOW);
	filter[length++] = statement(BPF_RET | BPF_K, SECCOMP_RET_TRACE);
	return length;
}

/* The same where clone(2) asks for a child without a tracer. */
static u16 filter_clones(struct sock_filter *filter, u16 length)
{
	filter[length++] = jump_if_equal(SYS_clone, 0, 4);
	filter[length++] =
		statement(BPF_LD | BPF_W | BPF_ABS, offsetof(struct seccomp_data, args[0]));
	filter[length++] = (struct sock_filter){ BPF_JMP | BPF_JSET | BPF_K, 1, 0, CLONE_UNTRACED };
	filter[length++] = statement(BPF_RET | BPF_K, SECCOMP_RET_ALLOW);
	filter[length++] = statement(BPF_RET | BPF_K, SECCOMP_RET_TRACE);
	return length;
}

/* In the command: stops it at the calls that matter, and at none of a program of another
 * architecture. */
static bool set_filter(void)
{
	static const long of_rings[] = {
		SYS_io_uring_setup, SYS_io_uring_enter, SYS_io_uring_register,
		SYS_mmap,	    SYS_munmap,		SYS_exit_group,
		SYS_execve,	    SYS_execveat,	SYS_flock,
		SYS_clone3
	};
	/* (locks of a file by its description, O_APPEND, and what changes a file) */
	static const u32 of_fcntl[] = { F_OFD_SETLK, F_OFD_SETLKW, F_SETLEASE, F_SETFL },
			 of_ioctl[] = { FICLONE, FICLONERANGE, TAKE_OUT_RANGE, TAKE_OUT_RANGE_64,
					CLEAR_RANGE };
	enum {
		OF_RINGS = sizeof of_rings / sizeof *of_rings,
		OF_FCNTL = sizeof of_fcntl / sizeof *of_fcntl,
		OF_IOCTL = sizeof of_ioctl / sizeof *of_ioctl,
	};
	struct sock_filter filter[MOST_CALLS + 40];
	long numbers[MOST_CALLS];
	u16 length = 0;

	memcpy(numbers, of_rings, sizeof of_rings);
	u32 count = OF_RINGS + list_calls(numbers + OF_RINGS, MOST_CALLS - OF_RINGS);
	filter[length++] = statement(BPF_LD | BPF_W | BPF_ABS, offsetof(struct seccomp_data, arch));
	filter[length++] = jump_if_equal(OWN_ARCHITECTURE, 1, 0);
	filter[length++] = statement(BPF_RET | BPF_K, SECCOMP_RET_ALLOW);
	filter[length++] = statement(BPF_LD | BPF_W | BPF_ABS, offsetof(struct seccomp_data, nr));
	length = filter_commands(filter, length, SYS_fcntl, of_fcntl, OF_FCNTL);
	length = filter_commands(filter, length, SYS_ioctl, of_ioctl, OF_IOCTL);
	length = filter_clones(filter, length);
	for (u32 at = 0; at < count; at++)
		filter[length++] = jump_if_equal((u32)numbers[at], count - at, 0);
	filter[length++] = statement(BPF_RET | BPF_K, SECCOMP_RET_ALLOW);
	filter[length++] = statement(BPF_RET | BPF_K, SECCOMP_RET_TRACE);
	struct sock_fprog program = { length, filter };
	return !prctl(PR_SET_NO_NEW_PRIVS, 1, 0, 0, 0) &&
	       !prctl(PR_SET_SECCOMP, SECCOMP_MODE_FILTER, &program);
}

/* The child: waits until it is traced, and becomes the command. */
static void become_command(char **words, const int *go)
{
	char byte;

	/* (the trace has standard output for itself) */
	if (!strcmp(options.trace, "-"))
		dup2(STDERR_FILENO, STDOUT_FILENO);
	close(go[1]);
	if (read(go[0], &byte, 1) != 1)
		_exit(STATUS_FAILED);
	if (!set_filter()) {
		fprintf(stderr, "uring_record: seccomp: %s\n", strerror(errno));
		_exit(STATUS_FAILED);
	}
	execvp(words[0], words);
	int status = errno == ENOENT ? STATUS_NOT_FOUND : STATUS_NOT_RUN;
	fprintf(stderr, "uring_record: %s: %s\n", words[0], strerror(errno));
	_exit(status);
}

/* Starts the command, traced from its first instruction on. */
static pid_t start_command(char **words)
{
	struct rlimit limit;
	int go[2];
	long wanted = PTRACE_O_TRACESYSGOOD | PTRACE_O_TRACESECCOMP | PTRACE_O_TRACECLONE |
		      PTRACE_O_TRACEFORK | PTRACE_O_TRACEVFORK | PTRACE_O_TRACEEXEC |
		      PTRACE_O_TRACEEXIT | PTRACE_O_EXITKILL;

	if (pipe2(go, O_CLOEXEC))
		die("pipe: %s", strerror(errno));
	fflush(NULL);
	pid_t child = fork();
	if (child < 0)
		die("fork: %s", strerror(errno));
	if (!child)
		become_command(words, go);
	close(go[0]);
	/* Copies of the command's descriptors are kept here: as many as may be. */
	if (!getrlimit(RLIMIT_NOFILE, &limit)) {
		limit.rlim_cur = limit.rlim_max;
		setrlimit(RLIMIT_NOFILE, &limit);
	}
	take_signals(child, options.wait || options.format == 3);
	if (ptrace(PTRACE_SEIZE, child, 0, wanted))
		die("the command cannot be traced: %s", strerror(errno));
	if (write(go[1], "", 1) != 1)
		die("pipe: %s", strerror(errno));
	close(go[1]);
	return child;
}

/* A process has begun another program: its rings are closed, its other threads are gone, and so is
 * the call that the thread was in which had its number. */
static void executed(struct thread *thread)
{
	unsigned long before = 0;

	if (!ptrace(PTRACE_GETEVENTMSG, thread->id, 0, &before) && (pid_t)before != thread->id)
		forget_thread((pid_t)before);
	forget_call(&thread->call);
	thread->is_in_call = thread->is_held = false;
	thread->record = NULL;
	thread->ring = thread->reaps = NULL;
	memset(thread->rings, 0, sizeof thread->rings);
	let_go_of_process(thread->process);
}

/* A thread ends, and its memory is still there: of the call that it may be in, only what the kernel
 * did of it is told. */
static void exits(struct thread *thread)
{
	bool is_enter = thread->is_in_call && thread->call.number == SYS_io_uring_enter;

	if (is_enter && thread->record)
		submitter_ended(thread->ring, thread->id, thread->record);
	if (thread->call.flight)
		leave(thread->call.flight);
	thread->record = NULL;
	thread->is_in_call = thread->is_held = false;
	reap_all(thread->process, thread->id);
}

/* A thread has a child, which may have been asked for without a tracer. */
static void tell_child(const struct thread *thread)
{
	unsigned long child = 0;

	if (!ptrace(PTRACE_GETEVENTMSG, thread->id, 0, &child))
		has_cloned(thread->id, (pid_t)child);
}

/* A thread is stopped as a child may be that begins: whether it waits. */
static bool begins_as_child(struct thread *thread)
{
	thread->is_new = !thread->has_begun && waits_for_caller(thread->id);
	if (!thread->has_begun && !thread->is_new)
		child_begins(thread->id);
	thread->has_begun = true;
	return thread->is_new;
}

/* Lets the new threads go on that waited. */
static void let_children_begin(void)
{
	for (struct thread *it = threads; it; it = it->next) {
		if (!it->is_new || waits_for_caller(it->id))
			continue;
		it->is_new = false;
		child_begins(it->id);
		ptrace(PTRACE_CONT, it->id, 0, 0);
	}
}

/* What a stopped thread is told; false where it stays as it is. */
static bool stopped(struct thread *thread, int status, u64 *signal_to_pass)
{
	struct ptrace_syscall_info info;
	int signal_number = WSTOPSIG(status), event = status >> 16;

	forget_ahead();
	begin_look();
	if (signal_number == (SIGTRAP | 0x80)) {
		if (thread->is_in_call &&
		    ptrace(PTRACE_GET_SYSCALL_INFO, thread->id, sizeof info, &info) > 0 &&
		    info.op == PTRACE_SYSCALL_INFO_EXIT) {
			thread->is_in_call = false;
			ended(thread, info.exit.rval);
		}
	} else if (event == PTRACE_EVENT_SECCOMP) {
		if (ptrace(PTRACE_GET_SYSCALL_INFO, thread->id, sizeof info, &info) > 0) {
			thread->call.number = (long)info.seccomp.nr;
			memcpy(thread->call.arguments, info.seccomp.args,
			       sizeof thread->call.arguments);
			thread->call.thread = thread->id;
			thread->call.process = thread->process;
			thread->is_postponed = is_postponed(thread);
			if (thread->is_postponed)
				return false;
			make_call(thread);
		}
	} else if (event == PTRACE_EVENT_STOP) {
		if (thread->reaps)
			reap(thread->reaps, thread->id, true);
		thread->reaps = NULL;
		if (begins_as_child(thread))
			return false;
		if (signal_number == SIGSTOP || signal_number == SIGTSTP ||
		    signal_number == SIGTTIN || signal_number == SIGTTOU) {
			ptrace(PTRACE_LISTEN, thread->id, 0, 0);
			return false;
		}
	} else if (event == PTRACE_EVENT_EXEC) {
		executed(thread);
	} else if (event == PTRACE_EVENT_EXIT) {
		exits(thread);
	} else if (event == PTRACE_EVENT_CLONE || event == PTRACE_EVENT_FORK ||
		   event == PTRACE_EVENT_VFORK) {
		tell_child(thread);
	} else if (!event) {
		*signal_to_pass = (u64)signal_number;
	}
	return true;
}

/* Ends what is left of the command. */
static void end_command(void)
{
	int status;

	for (const struct thread *it = threads; it; it = it->next)
		kill(it->process, SIGKILL);
	for (i64 end = milliseconds() + MOST_MILLISECONDS; milliseconds() < end;) {
		pid_t id = waitpid(-1, &status, __WALL);
		if (id < 0 && errno != EINTR)
			return;
		if (id > 0 && WIFSTOPPED(status))
			ptrace(PTRACE_CONT, id, 0, 0);
	}
}

/* At a tick: looks at signals and at calls that wait, and gives the files what was written; gives
 * the signal that ends the recording at once, or 0. */
static int at_tick(void)
{
	for (struct thread *it = threads; it; it = it->next) {
		if (it->is_in_call && it->is_held && it->ring)
			look_at_held(it);
	}
	flush_stream();
	return pass_signals();
}

int run_command(char **words, bool *has_run)
{
	pid_t command = start_command(words);
	int status, code = STATUS_FAILED;

	*has_run = false;
	for (;;) {
		make_postponed_calls();
		let_children_begin();
		pid_t id = waitpid(-1, &status, __WALL);
		bool was_interrupted = id < 0 && errno == EINTR;
		u64 signal_to_pass = 0;
		int ending = has_ticked() ? at_tick() : 0;
		if (ending) {
			end_command();
			return 128 + ending;
		}
		if (was_interrupted)
			continue;
		if (id < 0)
			return code;
		if (WIFEXITED(status) || WIFSIGNALED(status)) {
			if (id == command)
				code = WIFEXITED(status) ? WEXITSTATUS(status)
							 : 128 + WTERMSIG(status);
			forget_thread(id);
			let_go_of_process(id);
			continue;
		}
		*has_run |= status >> 16 == PTRACE_EVENT_EXEC;
		struct thread *thread = thread_of(id);
		bool goes_on = WIFSTOPPED(status) && stopped(thread, status, &signal_to_pass);
		write_known();
		if (goes_on)
			ptrace(thread->is_in_call ? PTRACE_SYSCALL : PTRACE_CONT, id, 0,
			       signal_to_pass);
	}
}
