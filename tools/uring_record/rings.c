#include "rings.h"
#include "begun.h"
#include "made.h"
#include "memory.h"
#include "notes.h"
#include "paths.h"
#include "sets.h"
#include "start.h"
#include "table.h"

#include <errno.h>
#include <linux/kcmp.h>
#include <stdio.h>
#include <stdlib.h>
#include <string.h>
#include <sys/syscall.h>
#include <unistd.h>

struct ring **rings;
u32 ring_count;
static u64 ring_room;

static struct ring *ours;

/* A ring with the next number. */
static struct ring *new_ring(void)
{
	struct ring *ring = allocate(sizeof *ring);

	ring->number = ring_count;
	ring->descriptor = -1;
	GROW(rings, ring_count, ring_room);
	rings[ring_count++] = ring;
	return ring;
}

/* Rings that are in no trace, since it has no more. */
struct stranger {
	pid_t process;
	int descriptor;
};
static struct stranger *strangers;
static u64 stranger_count, stranger_room;

/* The stranger with a descriptor of a process, or NULL. */
static struct stranger *find_stranger(pid_t process, int descriptor)
{
	for (u64 at = 0; at < stranger_count; at++) {
		if (strangers[at].descriptor == descriptor && strangers[at].process == process)
			return &strangers[at];
	}
	return NULL;
}

/* A descriptor of a process leads to no ring from before any more. */
static void forget_descriptor(pid_t process, int descriptor)
{
	struct stranger *stranger = find_stranger(process, descriptor);

	if (stranger)
		*stranger = strangers[--stranger_count];
	for (u32 at = 0; at < ring_count; at++) {
		if (rings[at]->process == process && rings[at]->descriptor == descriptor)
			rings[at]->descriptor = -1;
	}
}

/* Lets go of a ring, and of the copies of what is in its slots. */
static void close_ring(struct ring *ring)
{
	ring->descriptor = -1;
	ring->sq = ring->cq = ring->sqes = 0;
	for (u32 slot = 0; slot < ring->slot_count; slot++) {
		if (options.format == 3) /* (what else holds it keeps it) */
			ring->now[slot] = release(ring->now[slot]);
		else if (ring->now[slot])
			let_go_of(ring->now[slot]);
	}
	end_ring(ring);
}

void let_go_of_process(pid_t process)
{
	for (u32 at = 0; at < ring_count; at++) {
		if (rings[at]->process == process && !rings[at]->is_ours)
			close_ring(rings[at]);
	}
	for (u64 at = stranger_count; at--;) {
		if (strangers[at].process == process)
			strangers[at] = strangers[--stranger_count];
	}
	let_go_of_numbers(process);
	if (ours && ours->now[0])
		ours->now[0] = leave_opened(ours->now[0]);
	for (u64 at = 0; is_started() && process == home_process() && at < trace.description_count;
	     at++)
		let_go_of(trace.descriptions[at].opened);
}

void let_go_of_closed_files(void)
{
	for (u32 at = 0; at < ring_count; at++) {
		struct ring *ring = rings[at];
		if (ring->descriptor >= 0 && !is_ring(ring->process, ring->descriptor))
			close_ring(ring);
	}
	if (ours && ours->now[0])
		ours->now[0] = leave_opened(ours->now[0]);
	let_go_of_closed();
	for (u64 at = 0; at < trace.description_count; at++) {
		if (trace.descriptions[at].opened && trace.descriptions[at].opened->holders == 1)
			let_go_of(trace.descriptions[at].opened);
	}
}

struct ring *our_ring(void)
{
	if (!ours) {
		ours = new_ring();
		ours->is_ours = true;
		ours->slot_count = 1;
	}
	return ours;
}

struct ring *call_ring(void)
{
	static struct ring *calls;

	if (!calls)
		calls = allocate(sizeof *calls);
	return calls;
}

/* Whether two descriptors lead to one description: 1 and 0, or -1 where one of them is not open. */
static int is_same_in(pid_t process, int descriptor, const struct ring *ring)
{
	long order =
		syscall(SYS_kcmp, process, ring->process, KCMP_FILE, descriptor, ring->descriptor);

	return order < 0 ? -1 : order == 0;
}

struct ring *find_ring(pid_t process, int descriptor)
{
	if (descriptor < 0)
		return NULL;
	for (u32 at = ring_count; at--;) {
		struct ring *ring = rings[at];
		if (ring->descriptor == descriptor && ring->process == process)
			return ring;
	}
	if (find_stranger(process, descriptor))
		return NULL;
	/* A child has the rings of its parent, and a ring may have another number too. */
	for (u32 at = ring_count; at--;) {
		struct ring *ring = rings[at];
		if (ring->descriptor < 0)
			continue;
		int same = is_same_in(process, descriptor, ring);
		if (same > 0 || (same < 0 && ring->descriptor == descriptor))
			return ring;
	}
	return NULL;
}

bool is_ring(pid_t process, int descriptor)
{
	char *target = descriptor_target(process, descriptor);
	bool leads = target && !strcmp(target, "anon_inode:[io_uring]");

	free(target);
	return leads;
}

bool kernel_count(const struct ring *ring, const char *word, u32 *count)
{
	char name[64], line[256];
	size_t length = strlen(word);
	bool is_told = false;

	snprintf(name, sizeof name, "/proc/%d/fdinfo/%d", ring->process, ring->descriptor);
	FILE *info = ring->descriptor < 0 ? NULL : fopen(name, "re");
	while (info && !is_told && fgets(line, sizeof line, info)) {
		is_told = !strncmp(line, word, length) && line[length] == ':';
		if (is_told)
			*count = (u32)strtoul(line + length + 1, NULL, 0);
	}
	if (info)
		fclose(info);
	return is_told;
}

void slot_holds(struct ring *ring, u32 slot, struct opened *opened)
{
	release(ring->now[slot]);
	ring->now[slot] = opened;
	ring->foreign[slot] = release(ring->foreign[slot]);
	ring->taken[slot] = false;
}

/* A slot has what is no file of the tree. */
static void fill_with_foreign(struct ring *ring, u32 slot, int copy)
{
	if (is_started())
		note("a registered file that is no file of the root", NULL);
	ring->foreign[slot] = new_foreign(copy);
}

/* Opens the file of a descriptor of the recorder in a slot, or gives NULL. */
static struct opened *open_in_slot(struct ring *ring, u32 slot, int copy)
{
	struct opened *opened = NULL;

	if (options.format == 3) {
		opened = set_opened(of_slot(ring, slot), copy);
		ring->taken[slot] = ring->taken[slot] && !opened;
		return opened;
	}
	char *name = name_of(copy);
	if (name)
		opened = make_again(ring, slot + 1, name, copy, 0);
	free(name);
	return opened;
}

/* Puts a file of the tree into a slot: at the start of the trace where that is the same, else by an
 * entry or a set. */
static void fill_slot(struct ring *ring, u32 slot, int copy)
{
	ring->foreign[slot] = release(ring->foreign[slot]);
	if (!is_file_or_directory(copy)) {
		fill_with_foreign(ring, slot, copy);
		return;
	}
	if (!is_started()) {
		ring->now[slot] = new_opened(copy, 0);
		return;
	}
	i64 known = description_of(copy, false);
	if (known >= 0 && !ring->is_begun) {
		ring->slots[slot] = (u32)known + 1;
		ring->now[slot] = hold(trace.descriptions[known].opened);
		close(copy);
		return;
	}
	ring->now[slot] = open_in_slot(ring, slot, copy);
	if (!ring->now[slot])
		fill_with_foreign(ring, slot, copy);
}

/* Empties a slot: at the start where that is the same, else by an entry or a set. */
void empty_slot(struct ring *ring, u32 slot)
{
	if (!is_started() || !ring->is_begun)
		ring->slots[slot] = 0;
	else if (options.format == 3 && (ring->now[slot] || ring->taken[slot]))
		set_nothing(of_slot(ring, slot));
	else if (ring->now[slot])
		make_close(ring, slot + 1, 0);
	ring->taken[slot] = false;
	ring->now[slot] = release(ring->now[slot]);
	ring->foreign[slot] = release(ring->foreign[slot]);
}

void give_up_slot(struct ring *ring, u32 slot)
{
	if (options.format == 3) {
		set_taken(of_slot(ring, slot));
		ring->taken[slot] = true;
	} else {
		make_close(ring, slot + 1, 0);
	}
}

void slot_is_unknown(struct ring *ring, u32 slot, u64 sequence, u64 renewals)
{
	if (ring->renewals != renewals || ring->changed[slot].sequence != sequence)
		return;
	release(ring->foreign[slot]);
	ring->foreign[slot] = new_unknown();
}

u32 most_slots(void)
{
	return options.format == 1 ? VERSION_ONE_SLOTS : MOST_SLOTS;
}

/* Keeps which file comes into a slot that a trace does not have. */
static void keep_beyond(struct ring *ring, int descriptor)
{
	int copy = copy_descriptor(ring->process, descriptor);
	struct opened *file = copy < 0 ? NULL : new_foreign(copy);

	if (!file)
		return;
	note("a slot beyond the last that can be recorded", NULL);
	for (u64 at = 0; file && at < ring->beyond_count; at++) {
		if (ring->beyond[at]->inode == file->inode &&
		    ring->beyond[at]->device == file->device)
			file = release(file);
	}
	if (!file)
		return;
	GROW(ring->beyond, ring->beyond_count, ring->beyond_room);
	ring->beyond[ring->beyond_count++] = file;
}

/* In version 3, buffers that are registered anew are those of another ring: the others are let go.
 * (None is registered now.) */
static void forget_buffers(struct ring *ring)
{
	for (u32 at = 0; options.format == 3 && at < ring->buffer_count; at++) {
		free(ring->buffers[at].values);
		free(ring->buffers[at].unknown);
		ring->buffers[at] = (struct buffer){ 0 };
	}
	if (options.format == 3)
		ring->buffer_count = 0;
}

/* Whether a ring is closed, and nothing of it is left that a later one in its place would find. */
static bool is_closed(const struct ring *ring, bool looks)
{
	if (ring->is_ours || ring->first || ring->has_quiet || ring->has_index)
		return false;
	return ring->descriptor < 0 || (looks && !is_ring(ring->process, ring->descriptor));
}

/* A ring that is known to be closed, or with `looks` is found to be, or NULL. */
static struct ring *find_closed_ring(bool looks)
{
	for (u32 at = 0; at < ring_count; at++) {
		if (is_closed(rings[at], looks))
			return rings[at];
	}
	return NULL;
}

/* Empties the slots of a ring for a new one: in version 3 that has none of them. */
static void empty_slots(struct ring *ring)
{
	end_ring(ring);
	for (u32 slot = 0; slot < ring->slot_count; slot++) {
		if (ring->now[slot] || ring->foreign[slot] || ring->slots[slot])
			empty_slot(ring, slot);
	}
	if (options.format != 3)
		return;
	ring->slot_count = ring->registered = 0;
	forget_buffers(ring);
}

/* A closed ring for a new one, which goes on in its place: its slots are emptied. NULL where there
 * is none. */
static struct ring *take_closed_ring(bool looks)
{
	struct ring *ring = find_closed_ring(looks);

	if (!ring)
		return NULL;
	empty_slots(ring);
	memset(ring->mapped, 0, ring->index_count * sizeof *ring->mapped);
	ring->sq = ring->cq = ring->sqes = 0;
	ring->index_count = ring->seen = ring->claimed = ring->callers = 0;
	ring->user = 0;
	ring->is_shared = false;
	if (options.format != 3)
		note("a ring goes on with the number of one that is closed", NULL);
	return ring;
}

/* A ring of version 3 for a new one. Whether older ones are closed is looked at where there are
 * twice as many as at the last look. */
static struct ring *ring_of_any_number(void)
{
	static u32 next_look = MOST_RINGS;
	bool looks = ring_count >= next_look;
	struct ring *ring = take_closed_ring(looks);

	if (looks && !ring)
		next_look = 2 * ring_count;
	return ring ? ring : new_ring();
}

struct ring *add_ring(pid_t process, int descriptor)
{
	forget_descriptor(process, descriptor);
	/* One place is kept for the ring of ordinary calls. */
	struct ring *ring = options.format == 3		      ? ring_of_any_number()
			    : ring_count + !ours < MOST_RINGS ? new_ring()
							      : take_closed_ring(true);
	if (!ring) {
		GROW(strangers, stranger_count, stranger_room);
		strangers[stranger_count++] = (struct stranger){ process, descriptor };
		note("a ring beyond the 64th is left out", NULL);
		return NULL;
	}
	ring->process = ring->submitter = process;
	ring->descriptor = descriptor;
	return ring;
}

/* Puts what a descriptor of the command leads to into a slot. */
static void set_slot(struct ring *ring, u32 slot, int descriptor)
{
	if (slot >= most_slots()) {
		keep_beyond(ring, descriptor);
		return;
	}
	if (descriptor == IORING_REGISTER_FILES_SKIP)
		return;
	int copy = copy_descriptor(ring->process, descriptor);
	if (copy >= 0) {
		put_into_slot(ring, slot, copy);
		return;
	}
	ring->changed[slot] = (struct change){ ring->sequence, NO_CHAIN };
	empty_slot(ring, slot);
}

void put_into_slot(struct ring *ring, u32 slot, int copy)
{
	bool is_there = !ring->foreign[slot] && ring->now[slot] &&
			is_same(ring->now[slot]->descriptor, copy) &&
			!has_other_append(ring->now[slot]);

	ring->changed[slot] = (struct change){ ring->sequence, NO_CHAIN };
	if (options.format == 3 && (is_there || slot >= ring->slot_count)) {
		close(copy);
		return;
	}
	bool was_full = ring->now[slot] && is_started() && ring->is_begun;
	ring->now[slot] = release(ring->now[slot]);
	fill_slot(ring, slot, copy);
	if (was_full && ring->foreign[slot])
		give_up_slot(ring, slot);
}

/* Puts a list of descriptors into slots; without a list the slots are emptied. */
static void set_slots(struct ring *ring, pid_t thread, u32 from, u64 list, u32 count)
{
	for (u32 at = 0; at < count; at++)
		set_slot(ring, from + at, list ? (int)fetch_word(thread, list + 4ULL * at) : -1);
}

/* Empties the slot of the descriptor of a list at which the kernel stopped. */
static void empty_failed(struct ring *ring, pid_t thread, u32 slot, u64 address)
{
	int number;

	if (slot >= ring->slot_count || !fetch(thread, address, &number, sizeof number) ||
	    number == -1 || number == IORING_REGISTER_FILES_SKIP)
		return;
	ring->changed[slot] = (struct change){ ring->sequence, NO_CHAIN };
	empty_slot(ring, slot);
}

void update_slots(struct ring *ring, pid_t thread, u32 from, u64 list, u32 count, i64 done)
{
	if (options.format != 3) {
		set_slots(ring, thread, from, list, done < 0 ? 0 : count);
		return;
	}
	u32 put = done < 0 ? 0 : (u32)done;
	set_slots(ring, thread, from, list, put);
	if (put < count && (done > 0 || done == -EBADF))
		empty_failed(ring, thread, from + put, list + 4ULL * put);
}

void updated_files(struct ring *ring, pid_t thread, u32 operation, u64 argument, u32 count,
		   i64 done)
{
	struct io_uring_rsrc_update2 update = { 0 };
	bool has_count = operation == IORING_REGISTER_FILES_UPDATE2;

	if (fetch(thread, argument, &update, has_count ? sizeof update : 16))
		update_slots(ring, thread, update.offset, update.data,
			     has_count ? update.nr : count, done);
}

/* Registers a list of descriptors, which says how many slots there are. */
static void add_slots(struct ring *ring, pid_t thread, u64 list, u32 count)
{
	renew_ring(ring);
	ring->registered = count;
	if (count > ring->slot_count)
		ring->slot_count = count < MOST_SLOTS ? count : MOST_SLOTS;
	set_slots(ring, thread, 0, list, count);
}

void start_slots(struct ring *ring)
{
	for (u32 slot = 0; slot < ring->slot_count; slot++) {
		if (ring->foreign[slot])
			note("a registered file that is no file of the root", NULL);
		if (!ring->now[slot])
			continue;
		i64 known = description_of(ring->now[slot]->descriptor, true);
		if (known < 0) {
			note("a registered file that is no file of the root", NULL);
			ring->foreign[slot] = let_go_of(ring->now[slot]);
			ring->now[slot] = NULL;
			continue;
		}
		release(ring->now[slot]);
		ring->slots[slot] = (u32)known + 1;
		ring->now[slot] = hold(trace.descriptions[known].opened);
	}
}

/* An index of the command whose buffer is not in the trace. */
enum { LEFT_OUT = -1 };

/* The buffer of the trace with such a range, from 1: one that is there, else a new one, or
 * LEFT_OUT.
 */
static i32 buffer_of(struct ring *ring, u32 index, u64 address, u64 length)
{
	for (u32 at = 0; at < ring->buffer_count; at++) {
		const struct buffer *it = &ring->buffers[at];
		if (it->length == length && it->address == address)
			return (i32)at + 1;
		if (overlap(address, address + length, it->address, it->address + it->length)) {
			note("a registered buffer that overlaps an earlier one is left out", NULL);
			return LEFT_OUT;
		}
	}
	u32 free_index = index;
	if (index >= MOST_BUFFERS || ring->buffers[index].length) {
		free_index = 0;
		while (free_index < MOST_BUFFERS && ring->buffers[free_index].length)
			free_index++;
	}
	if (free_index == MOST_BUFFERS || length > MOST_BYTES) {
		note("a registered buffer beyond the 1,024th or 1 GiB is left out", NULL);
		return LEFT_OUT;
	}
	renew_ring(ring);
	if (ring->buffer_count <= free_index)
		ring->buffer_count = free_index + 1;
	ring->buffers[free_index] = (struct buffer){ .address = address, .length = length };
	return (i32)free_index + 1;
}

/* Puts a range of memory at an index of the command. */
static void set_buffer(struct ring *ring, u32 index, u64 address, u64 length)
{
	if (index >= MOST_INDEXES)
		return;
	if (index >= ring->index_count)
		ring->index_count = index + 1;
	ring->mapped[index] = length ? buffer_of(ring, index, address, length) : 0;
}

/* Puts a list of ranges at indexes; without a list they are emptied. */
static void set_buffers(struct ring *ring, pid_t thread, u32 from, u64 list, u32 count)
{
	for (u32 at = 0; at < count; at++) {
		struct iovec vector = { NULL, 0 };
		if (list)
			fetch(thread, list + 16ULL * at, &vector, sizeof vector);
		set_buffer(ring, from + at, address_of(&vector), vector.iov_len);
	}
}

/* Puts the buffers of another ring at indexes of this one. */
static void clone_buffers(struct ring *ring, const struct ring *from, pid_t thread, u64 argument)
{
	struct {
		u32 source, flags, from, to, count;
	} clone;

	if (!from || !fetch(thread, argument, &clone, sizeof clone)) {
		note("buffers are cloned from a ring that is not known", NULL);
		return;
	}
	u32 count = clone.count ? clone.count : from->index_count;
	for (u32 at = 0; at < count && clone.from + at < MOST_INDEXES; at++) {
		i32 index = from->mapped[clone.from + at];
		const struct buffer *buffer = index <= 0 ? NULL : &from->buffers[index - 1];
		set_buffer(ring, clone.to + at, buffer ? buffer->address : 0,
			   buffer ? buffer->length : 0);
	}
}

/* The operations on slots. */
static void registered_files(struct ring *ring, pid_t thread, u32 operation, u64 argument,
			     u32 count)
{
	struct io_uring_rsrc_register all = { 0 };

	switch (operation) {
	case IORING_REGISTER_FILES:
		add_slots(ring, thread, argument, count);
		break;
	case IORING_UNREGISTER_FILES:
		renew_ring(ring);
		set_slots(ring, thread, 0, 0, ring->slot_count);
		ring->registered = 0;
		break;
	case IORING_REGISTER_FILES2:
		fetch(thread, argument, &all, sizeof all);
		add_slots(ring, thread, all.data, all.nr);
		break;
	}
}

/* The operations on buffers. */
static void registered_buffers(struct ring *ring, pid_t thread, u32 operation, u64 argument,
			       u32 count)
{
	struct io_uring_rsrc_register all = { 0 };
	struct io_uring_rsrc_update2 update = { 0 };

	switch (operation) {
	case IORING_REGISTER_BUFFERS:
		forget_buffers(ring);
		set_buffers(ring, thread, 0, argument, count);
		break;
	case IORING_UNREGISTER_BUFFERS:
		memset(ring->mapped, 0, ring->index_count * sizeof *ring->mapped);
		break;
	case IORING_REGISTER_BUFFERS2:
		fetch(thread, argument, &all, sizeof all);
		forget_buffers(ring);
		set_buffers(ring, thread, 0, all.data, all.nr);
		break;
	case IORING_REGISTER_BUFFERS_UPDATE:
		fetch(thread, argument, &update, sizeof update);
		set_buffers(ring, thread, update.offset, update.data, update.nr);
		break;
	}
}

void registered(struct ring *ring, const struct ring *from, pid_t thread, u32 operation,
		u64 argument, u32 count)
{
	registered_files(ring, thread, operation, argument, count);
	registered_buffers(ring, thread, operation, argument, count);
	switch (operation) {
	case REGISTER_CLONE_BUFFERS:
		clone_buffers(ring, from, thread, argument);
		break;
	case REGISTER_RESIZE_RINGS:
		note("a ring is resized: what it submits from then on may be missed", NULL);
		break;
	case IORING_REGISTER_PERSONALITY:
		note("a personality is registered", NULL);
		break;
	case IORING_REGISTER_RESTRICTIONS:
		note("restrictions are registered, and the replay has none", NULL);
		break;
	case REGISTER_PBUF_RING:
		note("a ring of provided buffers is registered, and the replay has none", NULL);
		break;
	}
}
