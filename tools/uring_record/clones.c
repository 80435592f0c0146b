#include "clones.h"
#include "memory.h"
#include "notes.h"
#include "registers.h"

#include <linux/sched.h>
#include <stdlib.h>
#include <string.h>
#include <sys/syscall.h>
#include <unistd.h>

/* The bytes of the arguments of clone3(2): its flags come first. */
enum { LEAST_ARGUMENTS = 64, MOST_ARGUMENTS = 4096, ALIGNMENT = 16 };

/* A call that was changed. */
struct clone {
	pid_t caller, child; /* 0 for a child that is not known yet */
	bool has_ended;	     /* the caller's part is done */
	bool has_begun;	     /* and the child's */
	bool shares_memory;  /* the child has the memory of the caller */
	u64 argument;	     /* the first one as the program has it */
	u64 at, length;	     /* memory that was changed, and what was there */
	u8 *bytes;
	struct clone *next;
};
static struct clone *clones;

/* The call of a caller that has not ended, or NULL. */
static struct clone *clone_of(pid_t caller)
{
	struct clone *it = clones;

	while (it && (it->caller != caller || it->has_ended))
		it = it->next;
	return it;
}

/* Forgets calls of which both parts are done. */
static void forget_clones(void)
{
	for (struct clone **it = &clones; *it;) {
		struct clone *gone = *it;
		if (!gone->has_ended || !gone->has_begun) {
			it = &gone->next;
			continue;
		}
		*it = gone->next;
		free(gone->bytes);
		free(gone);
	}
}

/* Puts the memory of the caller or the child back. What both share is put back once, while neither
 * runs. */
static void put_memory_back(struct clone *clone, pid_t thread)
{
	if (clone->length)
		store(thread, clone->at, clone->bytes, clone->length);
	if (clone->shares_memory)
		clone->length = 0;
}

/* Puts bytes into memory of a caller, and keeps what is there; false where that cannot be. */
static bool change_memory(struct clone *clone, u64 at, const void *bytes, u64 length)
{
	clone->at = at;
	clone->length = 0;
	clone->bytes = realloc(clone->bytes, length);
	if (!clone->bytes)
		die("there is no more memory");
	if (fetch(clone->caller, at, clone->bytes, length) &&
	    store(clone->caller, at, bytes, length))
		clone->length = length;
	return clone->length;
}

/* The arguments of a clone3(2) without the flag: a copy below the stack of the caller, where no
 * other thread looks. They are changed themselves where there is no room for one. */
static bool change_arguments(struct clone *clone, const struct call *call)
{
	u64 from = call->arguments[0], length = call->arguments[1], flags;
	u64 below = below_stack(call->thread);
	u8 *copy = allocate(length);
	bool is_changed = fetch(call->thread, from, copy, length);

	memcpy(&flags, copy, sizeof flags);
	flags &= ~(u64)CLONE_UNTRACED;
	memcpy(copy, &flags, sizeof flags);
	if (is_changed && below > length &&
	    change_memory(clone, (below - length) & ~(u64)(ALIGNMENT - 1), copy, length))
		is_changed = put_first_argument(call->thread, clone->at);
	else
		is_changed = is_changed && change_memory(clone, from, &flags, sizeof flags);
	free(copy);
	return is_changed;
}

/* The flags of a call; 0 where it is refused. */
static u64 flags_of(const struct call *call)
{
	u64 flags = 0;

	if (call->number == SYS_clone)
		return call->arguments[0];
	if (call->arguments[1] < LEAST_ARGUMENTS || call->arguments[1] > MOST_ARGUMENTS ||
	    !fetch(call->thread, call->arguments[0], &flags, sizeof flags))
		return 0;
	return flags;
}

bool clone_begins(const struct call *call)
{
	u64 flags = flags_of(call);

	if (!KNOWS_REGISTERS || !(flags & CLONE_UNTRACED))
		return false;
	struct clone *clone = allocate(sizeof *clone);
	*clone = (struct clone){ .caller = call->thread, .argument = call->arguments[0] };
	clone->shares_memory = flags & CLONE_VM;
	bool is_changed = call->number == SYS_clone
				  ? put_first_argument(call->thread, flags & ~(u64)CLONE_UNTRACED)
				  : change_arguments(clone, call);
	if (!is_changed)
		note("a child without a tracer, whose calls fail", NULL);
	clone->next = clones;
	clones = clone;
	return true;
}

void has_cloned(pid_t caller, pid_t child)
{
	struct clone *clone = clone_of(caller);

	if (!clone)
		return;
	clone->child = child;
	put_memory_back(clone, caller);
}

void clone_ended(pid_t caller)
{
	struct clone *clone = clone_of(caller);

	if (!clone)
		return;
	put_first_argument(caller, clone->argument);
	if (!clone->child)
		put_memory_back(clone, caller);
	caller_is_gone(caller);
}

void caller_is_gone(pid_t caller)
{
	struct clone *clone = clone_of(caller);

	if (!clone)
		return;
	clone->has_ended = true;
	clone->has_begun |= !clone->child;
	forget_clones();
}

bool waits_for_caller(pid_t thread)
{
	bool waits = false;

	for (const struct clone *it = clones; it; it = it->next) {
		if (it->child == thread && !it->has_begun)
			return false;
		waits |= !it->child;
	}
	return waits;
}

void child_begins(pid_t thread)
{
	for (struct clone *it = clones; it; it = it->next) {
		if (it->child != thread || it->has_begun)
			continue;
		put_first_argument(thread, it->argument);
		put_memory_back(it, thread);
		it->has_begun = true;
	}
	forget_clones();
}
