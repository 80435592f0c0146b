#include "completions.h"
#include "ahead.h"
#include "aside.h"
#include "given.h"
#include "meetings.h"
#include "memory.h"
#include "notes.h"
#include "others.h"
#include "positions.h"
#include "start.h"
#include "sums.h"
#include "table.h"

#include <errno.h>
#include <stdlib.h>
#include <string.h>
#include <sys/stat.h>

/* The kinds that a STATX tells. */
enum { TOLD_DIRECTORY = 1, TOLD_FILE = 2 };

/* Whether what an entry put into the memory of the program is there still, and may be told. */
static bool is_there_still(struct flight *flight, pid_t thread, bool is_fresh)
{
	struct entry *entry = flight->entry;

	if (options.no_data || is_given(entry))
		return false;
	if (is_fresh && !is_filled_by_others(flight) && others_slept(flight->process, thread))
		return true;
	note(is_fresh ? "a read while another thread ran, or another read filled its "
			"memory: its bytes are not told"
		      : "a read whose completion was seen at a later call: its bytes are "
			"not told (--wait tells them)",
	     entry);
	return false;
}

static int by_address(const void *one, const void *other)
{
	u64 a = address_of(one), b = address_of(other);

	return (a > b) - (a < b);
}

/* Whether two vectors of a read share memory: then not all that it brought is there. */
static bool shares_memory(const struct flight *flight)
{
	u32 count = flight->vector_count;
	u64 end = 0;
	bool is_shared = false;

	if (count < 2)
		return false;
	struct iovec *sorted = allocate(count * sizeof *sorted);
	memcpy(sorted, vectors_of(flight), count * sizeof *sorted);
	qsort(sorted, count, sizeof *sorted, by_address);
	for (u32 at = 0; at < count; at++) {
		u64 from = address_of(&sorted[at]), to = from + sorted[at].iov_len;
		is_shared |= overlap(0, end, from, to);
		end = to > end ? to : end;
	}
	free(sorted);
	return is_shared;
}

/* Has what was read summed, for the results. */
static void sum_read(struct flight *flight, i32 result)
{
	struct entry *entry = flight->entry;

	if (options.no_read_sums || entry->sum || is_told(entry))
		return;
	entry->sum = begin_sum(vectors_of(flight), flight->vector_count, (u64)result);
	if (!entry->sum)
		note("a read of more bytes than can wait to be summed: they have no sum", entry);
}

/* Takes the first bytes of what was read, for the results. */
static void read_came(struct flight *flight, pid_t thread, i32 result, bool is_fresh)
{
	struct entry *entry = flight->entry;
	u64 shown = min64((u64)result, DATA_SHOWN);

	if (!is_there_still(flight, thread, is_fresh))
		return;
	if (shares_memory(flight)) {
		note("a read whose vectors share memory: its bytes are not told", entry);
		return;
	}
	entry->data_length = (u64)result;
	fetch_gathered(thread, vectors_of(flight), flight->vector_count, entry->data, shown);
	if (result > DATA_SHOWN)
		sum_read(flight, result);
}

/* What a STATX told: a kind in a byte, and the size of a file in eight. */
static void told_came(struct flight *flight, pid_t thread, bool is_fresh)
{
	struct entry *entry = flight->entry;
	struct statx told;

	if (!is_there_still(flight, thread, is_fresh) ||
	    !fetch(thread, flight->asked_for.addr2, &told, sizeof told))
		return;
	bool is_directory = S_ISDIR(told.stx_mode);
	u64 size = is_directory ? 0 : told.stx_size;
	entry->data_length = 1 + sizeof size;
	entry->data[0] = is_directory ? TOLD_DIRECTORY : TOLD_FILE;
	memcpy(entry->data + 1, &size, sizeof size);
}

/* What a fixed read puts into its buffer is not known to the replay of writes from there. */
static void fixed_read_came(struct flight *flight, pid_t thread, i32 result, bool is_fresh)
{
	if (flight->buffer == NO_BUFFER)
		return;
	struct buffer *buffer = &flight->ring->buffers[flight->buffer];
	u64 from = flight->entry->sqe.addr - buffer->address;
	if (flight->entry->sqe.addr < buffer->address || from + (u64)result > buffer->length)
		return;
	if (!buffer->unknown) {
		buffer->values = allocate(buffer->length);
		buffer->unknown = allocate(buffer->length);
	}
	memset(buffer->unknown + from, 1, (size_t)result);
	if (is_there_still(flight, thread, is_fresh))
		sum_read(flight, result);
}

/* How many bytes of lengths stand before those of a write. */
static u32 lengths_of(const struct entry *entry)
{
	return entry->opcode == OP_WRITEV ? 8 * entry->sqe.len : 0;
}

/* Takes the bytes of a write again from memory, whose bytes came late. */
static void take_again(struct flight *flight, pid_t thread)
{
	struct entry *entry = flight->entry;
	u32 lengths = lengths_of(entry);

	if (!is_fixed(entry->opcode) && lengths < entry->side_length)
		fetch_gathered(thread, vectors_of(flight), flight->vector_count,
			       entry->side + lengths, entry->side_length - lengths);
}

/* Whether a write put all its bytes where they still are: its place is known, and nothing else has
 * written there since. */
static bool is_in_file(struct flight *flight, i32 result)
{
	const struct entry *entry = flight->entry;
	const struct opened *file = flight->used;

	return entry->outside == OUTSIDE_LATE && !entry->is_aside && flight->has_ended &&
	       !is_fixed(entry->opcode) && result > 0 && file && !file->appends &&
	       entry->sqe.off != AT_POSITION &&
	       entry->side_length == lengths_of(entry) + (u32)result &&
	       unsettled_by(file->device, file->inode) == INSIDE && !is_written_by_others(flight);
}

/* Takes the bytes of a write that came late from its file; false where they may be others. */
static bool take_written(struct flight *flight, i32 result)
{
	struct entry *entry = flight->entry;

	return is_in_file(flight, result) &&
	       (options.no_data || read_back(flight->used, entry->side + lengths_of(entry),
					     (u64)result, entry->sqe.off));
}

/* A write whose bytes came late has ended: they are in its file, or still in memory, or the file is
 * not told. */
static void late_write_came(struct flight *flight, pid_t thread, i32 result, bool is_fresh)
{
	if (take_written(flight, result)) {
		put_inside(flight->entry);
		return;
	}
	note_late(flight->entry);
	take_again(flight, thread);
	bool is_there =
		is_fresh && !is_filled_by_others(flight) && others_slept(flight->process, thread);
	if (result > 0 && flight->used && !is_there)
		unsettle(flight->used, OUTSIDE_LATE);
}

void put_back_place(struct flight *flight)
{
	const struct io_uring_sqe *sqe = &flight->entry->sqe;

	if (!flight->takes_place)
		return;
	if (flight->slot) {
		struct opened **slot = &flight->ring->now[flight->slot - 1];
		if (!flight->is_outside) {
			release(*slot);
			*slot = flight->before;
			flight->ring->taken[flight->slot - 1] =
				flight->was_taken && flight->renewals == flight->ring->renewals;
		}
		slot = &flight->ring->foreign[flight->slot - 1];
		release(*slot);
		*slot = flight->foreign_before;
		flight->foreign_before = NULL;
	} else if (sqe->opcode == OP_CLOSE) {
		if (flight->before || flight->was_taken)
			table_surprised();
		give_back_number(sqe->fd, flight->before, flight->was_taken);
	}
	flight->before = NULL;
	flight->takes_place = false;
}

/* A result that has no form in the replay. What failed changes nothing there; of what did not, the
 * kernel knows more than the replay. */
static void result_is_outside(struct flight *flight, i32 result, enum outside why)
{
	static const char text[] = "a result that the profile does not have";

	if (reason_of(flight->entry) == INSIDE)
		note(text, flight->entry);
	if (why == OUTSIDE_THREAD && result >= 0 && !flight->used)
		lose("an entry on a number that another thread opened meanwhile");
	put_aside(flight->entry, why);
}

/* Whether a slot has been changed behind an entry that is seen to have filled it: which came first
 * is told where one chain has both. */
static bool is_behind_change(const struct flight *flight, u32 slot)
{
	const struct ring *ring = flight->ring;
	const struct change *change = &ring->changed[slot];

	if (flight->renewals != ring->renewals)
		return true;
	if (change->sequence > flight->sequence)
		return change->chain != flight->chain;
	return ring->now[slot] || ring->foreign[slot];
}

/* The slot of an OPENAT that the kernel chose: the trace asks for it. */
static void slot_came(struct flight *flight, i32 result)
{
	struct entry *entry = flight->entry;
	struct ring *ring = flight->ring;
	u32 slot = (u32)result;

	if (result < 0) { /* (it fails by its path, whatever the slot is) */
		entry->sqe.file_index = 1;
		return;
	}
	if (slot >= ring->slot_count || is_behind_change(flight, slot)) {
		note("a slot that the kernel chose, and the replay has otherwise", entry);
		put_aside(entry, OUTSIDE_SLOT);
		return;
	}
	entry->sqe.file_index = entry->chosen = slot + 1;
	entry->result = 0;
	look_at_direct(flight->used);
	if (ring->changed[slot].sequence <= flight->sequence)
		slot_holds(ring, slot, hold(flight->used));
}

/* Whether the replay gives another number to an open, or none. */
static bool is_numbered_otherwise(const struct flight *flight, i32 result)
{
	bool is_known = flight->surprises == count_surprises();

	if (result >= 0)
		return flight->meets_table || flight->is_unsure || !is_known ||
		       result != flight->number;
	return (result == -EMFILE) != (flight->number < 0);
}

/* An open to which the replay may give another number is given: the number that it got is set where
 * it is used. */
static void look_at_number(struct flight *flight, i32 result)
{
	struct entry *entry = flight->entry;
	bool is_other = is_numbered_otherwise(flight, result);

	bool is_marked = entry->outside != INSIDE || is_doubtful(entry);

	if (!flight->opens || entry->is_aside || !(is_other || is_marked))
		return;
	if (is_other && !flight->meets_table)
		note("an open that got another number than the replay gives it", entry);
	bool is_beyond = result >= 0 && (u32)result >= trace.table_size;
	put_aside(entry, is_beyond ? OUTSIDE_DESCRIPTOR : OUTSIDE_ORDER);
}

/* The member before one in its chain, but for a timeout that did not fire, or NULL. */
static struct entry *member_before(struct entry *entry)
{
	for (struct entry *it = entry; entry->head && it > entry->head;) {
		it--;
		if (it->opcode != IORING_OP_LINK_TIMEOUT || it->result != -ECANCELED)
			return it;
	}
	return NULL;
}

/* An entry ran behind one that failed: Linux lets a chain go on so, and the profile does not. */
static void look_at_link(struct entry *entry, i32 result)
{
	struct entry *before = result == -ECANCELED ? NULL : member_before(entry);

	if (!before || before->state != ENTRY_POSTED || before->result >= 0 || before->is_aside ||
	    before->sqe.flags & FLAG_HARD || !fails_alone(&before->sqe))
		return;
	note("an entry that failed, behind which Linux lets its chain go on", before);
	put_aside(before, OUTSIDE_LINKS);
}

/* What follows from the result of an entry. */
static void completed(struct flight *flight, pid_t thread, i32 result, bool is_fresh)
{
	struct entry *entry = flight->entry;
	u8 opcode = entry->sqe.opcode;

	entry->state = ENTRY_POSTED;
	entry->result = result;
	entry->completed = time_now();
	look_at_number(flight, result);
	look_at_link(entry, result);
	enum outside why =
		entry->replaced && result < 0 ? OUTSIDE_OPCODE : outside_by_result(flight, result);
	if (why == OUTSIDE_OPCODE)
		put_outside(entry, why);
	else if (why != INSIDE && entry->outside != OUTSIDE_OPCODE && !is_given(entry))
		result_is_outside(flight, result, why);
	if (awaits_slot(entry))
		slot_came(flight, result);
	if (flight->is_late)
		late_write_came(flight, thread, result, is_fresh);
	if (result > 0 && (opcode == OP_READ || opcode == OP_READV))
		read_came(flight, thread, result, is_fresh);
	if (!result && opcode == OP_STATX)
		told_came(flight, thread, is_fresh);
	if (result > 0 && opcode == OP_READ_FIXED)
		fixed_read_came(flight, thread, result, is_fresh);
	if (flight->meets_maker)
		doubt_touched(flight, OUTSIDE_ORDER);
	if (flight->meets_name)
		doubt_names(flight, result);
	if (is_doubtful(entry) || flight->changes || entry->outside == OUTSIDE_OPCODE)
		outside_ended(flight, thread, result);
	if (result < 0)
		put_back_place(flight);
	else if (entry->is_aside)
		;
	else if (opcode == OP_OPENAT && !entry->sqe.file_index)
		number_opened(flight->process, result, is_doubtful(entry));
	else if (opcode == OP_OPENAT && flight->used)
		look_at_direct(flight->used);
	if (flight->moves && !entry->is_aside)
		position_moved(flight->moves, result);
	else if (is_given(entry))
		given_moved(flight, result);
}

/* Lets go of one that has ended well and posted nothing. */
static void land_silent(struct flight *flight, pid_t thread)
{
	struct entry *entry = flight->entry;

	if (entry->state == ENTRY_UNSEEN) {
		entry->state = ENTRY_SILENT;
		if (flight->opens || awaits_slot(entry)) /* (nobody is told which it got) */
			put_aside(entry, OUTSIDE_SLOT);
		/* (one that fails silently has changed nothing) */
		bool has_failed = reason_of(entry) == OUTSIDE_LINKS;
		if ((entry->is_aside && !has_failed) || entry->outside == OUTSIDE_OPCODE)
			outside_ended(flight, thread, 0);
	}
	if (flight->is_late)
		note_late(entry);
	land(flight);
}

/* Lets go of flights without a completion that have ended once this one has: those before it in its
 * chain, and those that a drain puts before it. */
static void land_quiet_before(const struct flight *flight, pid_t thread)
{
	struct flight *next;

	for (struct flight *it = flight->ring->first; it && it->sequence < flight->barrier;
	     it = next) {
		next = it->next;
		if (is_quiet(it) && it != flight)
			land_silent(it, thread);
	}
	struct flight *first = flight->previous;
	while (first && first->previous && first->previous->chain == flight->chain)
		first = first->previous;
	for (struct flight *it = first; it && it != flight && it->chain == flight->chain;
	     it = next) {
		next = it->next;
		if (is_quiet(it))
			land_silent(it, thread);
	}
}

/* Finds the entry of a completion, and lets it go. */
static void completion_came(struct ring *ring, pid_t thread, const struct io_uring_cqe *cqe,
			    bool is_fresh)
{
	bool is_sure;
	struct flight *flight = flight_of(ring, cqe->user_data, cqe->res, &is_sure);

	if (!flight) {
		note("a completion of no entry that is known", NULL);
		return;
	}
	bool is_last = !(cqe->flags & IORING_CQE_F_MORE);
	if (is_last)
		land_quiet_before(flight, thread);
	flight->is_unsure = !is_sure;
	completed(flight, thread, cqe->res, is_fresh && is_sure);
	if (is_last)
		land(flight);
	else
		note("an entry with several completions: the last one is recorded", flight->entry);
}

/* The tail of a queue where it moved further than entries are in flight: the kernel's own, since
 * the program may have written there, and never more behind what was seen than the queue holds. */
static u32 doubted_tail(struct ring *ring, u32 tail)
{
	kernel_count(ring, "CachedCqTail", &tail);
	if (tail - ring->seen <= ring->cq_entries)
		return tail;
	note("completions are written over before they are seen", NULL);
	ring->seen = tail;
	while (ring->first) {
		leave(ring->first);
		land(ring->first);
	}
	return tail;
}

static void reap_new(struct ring *ring, pid_t thread, bool is_fresh)
{
	u32 tail, mask = ring->cq_entries - 1;
	unsigned shift = ring->flags & IORING_SETUP_CQE32 ? 5 : 4;

	if (trace.is_ended || !ring->cq)
		return;
	if (is_fresh)
		read_completions_ahead(ring, thread);
	is_fresh = is_fresh && !ring->overflows;
	if (!fetch(thread, ring->cq + ring->cq_offsets.tail, &tail, sizeof tail))
		return;
	if (tail - ring->seen > ring->in_flight)
		tail = doubted_tail(ring, tail);
	for (; ring->seen != tail; ring->seen++) {
		u64 at = ring->cq + ring->cq_offsets.cqes + ((u64)(ring->seen & mask) << shift);
		struct io_uring_cqe cqe;
		if (!fetch(thread, at, &cqe, 16))
			return;
		completion_came(ring, thread, &cqe, is_fresh);
	}
}

void reap(struct ring *ring, pid_t thread, bool is_fresh)
{
	reap_new(ring, thread, is_fresh);
	take_summed(thread);
}

void reap_all(pid_t process, pid_t thread)
{
	for (u32 at = 0; at < ring_count; at++) {
		if (rings[at]->process == process && rings[at]->first)
			reap(rings[at], thread, false);
	}
}

/* Whether a part of the memory of a process, at an address of a ring (0 for none), is in a range.
 */
static bool is_within(u64 address, u64 from, u64 to)
{
	return address && address >= from && address < to;
}

/* Whether a ring of a process has a queue in a range of its memory. */
static bool has_queue(const struct ring *ring, pid_t process, u64 from, u64 to)
{
	return ring->process == process &&
	       (is_within(ring->cq, from, to) || is_within(ring->sq, from, to) ||
		is_within(ring->sqes, from, to));
}

bool reap_unmapped(pid_t process, pid_t thread, u64 from, u64 to)
{
	bool is_any = false;

	for (u32 at = 0; at < ring_count; at++) {
		if (!has_queue(rings[at], process, from, to))
			continue;
		reap(rings[at], thread, false);
		is_any = true;
	}
	return is_any;
}

void unmapped(pid_t process, u64 from, u64 to)
{
	for (u32 at = 0; at < ring_count; at++) {
		struct ring *ring = rings[at];
		if (!has_queue(ring, process, from, to))
			continue;
		if (is_within(ring->cq, from, to) || is_within(ring->sq, from, to))
			ring->cq = ring->sq = 0;
		if (is_within(ring->sqes, from, to))
			ring->sqes = 0;
	}
}
