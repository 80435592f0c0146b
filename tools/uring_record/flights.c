#include "flights.h"
#include "aside.h"
#include "given.h"
#include "meetings.h"
#include "memory.h"
#include "notes.h"
#include "paths.h"
#include "start.h"
#include "table.h"

#include <errno.h>
#include <fcntl.h>
#include <stdlib.h>
#include <string.h>
#include <unistd.h>

/* So many flights that post nothing are kept in a ring. */
enum { MOST_QUIET = 4096, MOST_LOOKS = 64, MOST_ALIKE = 65536 };

static u64 quiet_count;
static u32 opens_in_flight, takers_in_flight, walks_in_flight, link_changes_in_flight;

u32 count_opens_in_flight(void)
{
	return opens_in_flight;
}

u32 count_takers_in_flight(void)
{
	return takers_in_flight;
}

u32 count_walks_in_flight(void)
{
	return walks_in_flight;
}

u32 count_link_changes_in_flight(void)
{
	return link_changes_in_flight;
}

void meets_in_table(struct flight *flight)
{
	flight->meets_table = true;
	takers_in_flight -= flight->takes_number;
	flight->takes_number = false;
}

void give_up_numbers(void)
{
	for (u32 at = 0; takers_in_flight && at < ring_count; at++) {
		for (struct flight *it = rings[at]->first; it; it = it->next) {
			if (it->takes_number)
				meets_in_table(it);
		}
	}
}

bool is_quiet(const struct flight *flight)
{
	return flight->entry->sqe.flags & FLAG_SKIP;
}

/* The chain of flights of a ring whose user_data may be this one. */
static unsigned chain_of(u64 user_data)
{
	return (user_data ^ user_data >> 10 ^ user_data >> 20) % DATA_CHAINS;
}

/* Puts a flight at the end of its chain. */
static void join_chain(struct flight *flight)
{
	struct ring *ring = flight->ring;
	unsigned chain = chain_of(flight->entry->sqe.user_data);
	struct flight *last = ring->by_data_last[chain];

	flight->previous_same = last;
	*(last ? &last->next_same : &ring->by_data[chain]) = flight;
	ring->by_data_last[chain] = flight;
}

/* Takes a flight out of its chain. */
static void leave_chain(struct flight *flight)
{
	struct ring *ring = flight->ring;
	unsigned chain = chain_of(flight->entry->sqe.user_data);
	struct flight *before = flight->previous_same, *behind = flight->next_same;

	*(before ? &before->next_same : &ring->by_data[chain]) = behind;
	*(behind ? &behind->previous_same : &ring->by_data_last[chain]) = before;
}

/* Flights that have ended, whose memory is used again. */
static struct flight *spare;

struct flight *new_flight(struct ring *ring, struct entry *entry, pid_t process)
{
	struct flight *flight = spare;

	if (flight)
		spare = flight->next;
	else
		flight = allocate(sizeof *flight);
	/* (the last members have their counts) */
	memset(flight, 0, offsetof(struct flight, touches));
	flight->entry = entry;
	flight->ring = ring;
	flight->renewals = ring->renewals;
	flight->process = process;
	flight->buffer = NO_BUFFER;
	return flight;
}

/* The earliest flight of a ring that posts nothing is let go. What a given one did is not told. */
static void land_a_quiet_one(struct ring *ring)
{
	for (struct flight *it = ring->first; it; it = it->next) {
		if (is_quiet(it)) {
			if (it->entry->is_aside)
				leave(it);
			land(it);
			return;
		}
	}
}

/* Whether an entry fills slots in a way that is told behind it: those of a FILES_UPDATE, or such as
 * the kernel chooses. */
static bool fills_slots(const struct flight *flight)
{
	const struct io_uring_sqe *sqe = &flight->asked_for;

	switch (sqe->opcode) {
	case IORING_OP_FILES_UPDATE:
		return true;
	case IORING_OP_OPENAT:
		return flight->entry->is_aside && sqe->file_index == IORING_FILE_INDEX_ALLOC;
	case IORING_OP_OPENAT2:
	case IORING_OP_ACCEPT:
	case IORING_OP_SOCKET:
		return sqe->file_index == IORING_FILE_INDEX_ALLOC;
	default:
		return false;
	}
}

void launch(struct flight *flight)
{
	struct ring *ring = flight->ring;

	flight->previous = ring->last;
	if (ring->last)
		ring->last->next = flight;
	else
		ring->first = flight;
	ring->last = flight;
	join_chain(flight);
	keep_spans(flight);
	flight->opens = opens_in_table(&flight->entry->sqe);
	flight->takes_number = flight->opens && !flight->entry->is_aside && !flight->meets_table;
	opens_in_flight += flight->opens;
	takers_in_flight += flight->takes_number;
	walks_in_flight += flight->walks;
	link_changes_in_flight += flight->changes_link;
	ring->in_flight++;
	flight->fills = fills_slots(flight);
	ring->updating += flight->fills;
	if (is_quiet(flight) && ++quiet_count > MOST_QUIET)
		land_a_quiet_one(ring);
}

bool is_updating(const struct ring *ring, u32 slot)
{
	for (const struct flight *it = ring->updating ? ring->first : NULL; it; it = it->next) {
		const struct io_uring_sqe *sqe = &it->asked_for;
		u32 from = sqe->opcode == IORING_OP_FILES_UPDATE ? (u32)sqe->off
								 : IORING_FILE_INDEX_ALLOC;
		/* (the kernel chooses empty ones) */
		bool is_any = from == IORING_FILE_INDEX_ALLOC && !ring->now[slot];
		if (it->fills && (is_any || (slot >= from && slot - from < sqe->len)))
			return true;
	}
	return false;
}

/* Whether an entry that asks for so many bytes may have a result, as far as its opcode tells. */
static bool may_give(const struct io_uring_sqe *sqe, u64 asked, i32 result)
{
	bool is_chosen = !sqe->file_index || sqe->file_index == IORING_FILE_INDEX_ALLOC;

	if (sqe->opcode == OP_NOP && !sqe->rw_flags)
		return result == 0 || result == -ECANCELED;
	if (result < 0 || !is_served(sqe->opcode) || sqe->opcode == OP_NOP)
		return sqe->opcode != IORING_OP_TIMEOUT || result <= 0;
	if (moves_bytes(sqe->opcode))
		return (u64)result <= asked;
	return result == 0 || (sqe->opcode == OP_OPENAT && is_chosen);
}

/* What an entry asked for and may have changed whose result may be another's. */
struct changes {
	struct io_uring_sqe asked_for;
	u64 asked;
	struct opened *files[2];
	char *names[2];
	struct ring *ring; /* whose slot, from 1, it may have filled or emptied */
	u32 slot;
	u64 sequence, renewals;
};

/* Keeps it while the flight is there. */
static struct changes *changes_of(const struct flight *flight)
{
	struct changes *changes = allocate(sizeof *changes);
	u32 names = 0;

	*changes = (struct changes){ .asked_for = flight->asked_for,
				     .asked = flight->asked,
				     .ring = flight->ring,
				     .sequence = flight->sequence,
				     .renewals = flight->renewals };
	changes->slot = flight->takes_place ? flight->slot : 0;
	for (u32 at = 0; at < flight->touch_count; at++) {
		const struct touch *touch = &flight->touches[at];
		if (touch->kind == TOUCH_FILE && touch->writes && !changes->files[0])
			changes->files[0] = hold(touch->file);
		if (touch->kind == TOUCH_NAME && touch->writes && names < 2)
			changes->names[names++] =
				copy_bytes((const char *)touch->path, touch->length);
	}
	changes->files[1] = flight->changes ? hold(flight->changes) : NULL;
	return changes;
}

/* Lets go of it; where there is a reason, it is not told from here on what is there. */
static void leave_changes(struct changes *changes, enum outside why)
{
	bool is_marked = why != INSIDE;

	for (u32 at = 0; at < 2; at++) {
		struct opened *file = changes->files[at];
		const char *name = changes->names[at];
		if (is_marked && file) {
			look_at_direct(file);
			unsettle(file, why);
		}
		if (is_marked && name)
			doubt_name((const u8 *)name, (u32)strlen(name), why);
		release(file);
		free(changes->names[at]);
	}
	if (is_marked && changes->slot)
		slot_is_unknown(changes->ring, changes->slot - 1, changes->sequence,
				changes->renewals);
	free(changes);
}

/* The same of what an entry keeps. */
static void leave_changes_of(struct entry *entry, enum outside why)
{
	if (entry->changes)
		leave_changes(entry->changes,
			      entry->is_left && why == INSIDE ? OUTSIDE_CHAIN : why);
	entry->changes = NULL;
}

/* The next member of the chain of an entry, or NULL. */
static struct entry *next_member(struct entry *entry)
{
	struct entry *end = entry->record->entries + entry->record->count;

	return goes_on(&entry->sqe) && entry + 1 < end ? entry + 1 : NULL;
}

/* Lets go of an entry that may have had another's result, and of those behind it in its chain. */
static void leave_alike_one(struct entry *entry, bool is_marked)
{
	struct entry *head = entry->head, *next = next_member(entry);

	entry->is_alike = false;
	leave_changes_of(entry, is_marked ? OUTSIDE_USER : INSIDE);
	bool is_first = head->alike_from == entry;
	/* (those behind one that is marked are left once, and others when no earlier one may be) */
	while (next && !(is_marked ? next->is_left : next->is_alike || !is_first)) {
		next->is_left |= is_marked;
		if (!next->is_alike)
			leave_changes_of(next, is_marked ? OUTSIDE_CHAIN : INSIDE);
		next = next_member(next);
	}
	while (is_first && next && !next->is_alike)
		next = next_member(next);
	if (is_first)
		head->alike_from = next;
}

/* Lets go of entries that may have had each other's results: these are marked, or known to be one.
 */
static void leave_alike(struct entry *entry, bool is_marked)
{
	for (struct entry *next; entry; entry = next) {
		next = entry->alike;
		entry->alike = NULL;
		if (is_marked)
			put_outside(entry, OUTSIDE_USER);
		leave_alike_one(entry, is_marked);
	}
}

void mark_alike(struct entry *entry)
{
	leave_alike(entry, true);
}

/* Whether an entry stands in its chain behind one that may have another's result. */
static bool is_behind_alike(const struct entry *entry)
{
	const struct entry *head = entry->head;

	return !entry->changes && head && head->alike_from && head->alike_from < entry;
}

/* Closes the copies that a flight has of descriptors. */
static void let_go_of_copies(struct flight *flight)
{
	for (u32 at = 0; at < flight->copy_count; at++) {
		if (flight->copies[at] >= 0)
			close(flight->copies[at]);
	}
	free(flight->copies);
}

/* Whether an open took its number in the replay as in the command. */
static bool is_opened(const struct entry *entry)
{
	return entry->state == ENTRY_POSTED && entry->result >= 0 && !entry->is_aside;
}

void land(struct flight *flight)
{
	struct ring *ring = flight->ring;
	struct record *record = flight->entry->record;

	flight->entry->is_landed = true;
	if (is_behind_alike(flight->entry))
		flight->entry->changes = changes_of(flight);
	forget_spans(flight);
	leave_chain(flight);
	if (flight->previous)
		flight->previous->next = flight->next;
	else
		ring->first = flight->next;
	if (flight->next)
		flight->next->previous = flight->previous;
	else
		ring->last = flight->previous;
	if (flight->moves)
		flight->moves->moving--;
	if (flight->takes_place && closes_in_table(&flight->entry->sqe))
		number_closed(flight->entry->sqe.fd);
	opens_in_flight -= flight->opens;
	takers_in_flight -= flight->takes_number;
	walks_in_flight -= flight->walks;
	link_changes_in_flight -= flight->changes_link;
	if (flight->takes_number && !is_opened(flight->entry))
		table_surprised();
	mark_alike(flight->alike);
	release(flight->moves);
	release(flight->used);
	release(flight->before);
	release(flight->foreign_before);
	release(flight->changes);
	for (unsigned at = 0; at < 2; at++) {
		free(flight->names[at]);
		free(flight->unresolved[at]);
	}
	free(flight->more_vectors);
	let_go_of_copies(flight);
	quiet_count -= is_quiet(flight);
	ring->in_flight--;
	ring->updating -= flight->fills;
	flight->next = spare;
	spare = flight;
	if (record && record->is_gone) {
		record->flying--;
		leave_record(record);
	}
}

/* The next flight behind one (or from the start of its chain on) that a completion may be of. So
 * many are looked at. */
static struct flight *next_of(struct flight *from, u64 user_data, i32 result, u32 *looks)
{
	for (struct flight *it = from; it && *looks; it = it->next_same) {
		bool is_silent = is_quiet(it) && result >= 0; /* (it posts where it fails) */
		if (it->entry->sqe.user_data != user_data)
			continue;
		if (!is_silent && may_give(&it->asked_for, it->asked, result))
			return it;
		--*looks;
	}
	return NULL;
}

/* The entries that may have had the result of a flight are marked, and so will it be. */
static void give_up(struct flight *flight)
{
	mark_alike(flight->alike);
	flight->alike = NULL;
	flight->alike_count = 0;
	flight->is_mixed = true;
}

void give_up_alike(void)
{
	for (u32 at = 0; at < ring_count; at++) {
		for (struct flight *it = rings[at]->first; it; it = it->next) {
			if (it->alike)
				give_up(it);
		}
	}
}

/* Whether one of some entries may have a result. */
static bool may_one_give(const struct entry *entry, i32 result)
{
	for (; entry; entry = entry->alike) {
		const struct changes *its = entry->changes;
		if (!its || may_give(&its->asked_for, its->asked, result))
			return true;
	}
	return false;
}

/* A completion may be of two flights or more, and is taken for one: they are marked unless all have
 * one result. */
static void take_for(struct flight *taken, struct flight *other, i32 result)
{
	struct entry *entry = taken->entry;

	note("a completion whose user_data several entries in flight have is taken for the first",
	     entry);
	if (taken->alike_result != result && !may_one_give(taken->alike, result)) {
		leave_alike(taken->alike, false); /* (none of these has this one) */
		taken->alike = NULL;
	}
	if (taken->is_mixed || is_told(entry) || (taken->alike && taken->alike_result != result) ||
	    (other && other->alike && other->alike_result != result)) {
		mark_alike(taken->alike);
		mark_alike(other ? other->alike : NULL);
		taken->alike = NULL;
		put_outside(entry, OUTSIDE_USER);
		leave_changes(changes_of(taken), OUTSIDE_USER);
		if (other) {
			other->alike = NULL;
			other->is_mixed = true;
		}
		return;
	}
	entry->alike = taken->alike;
	taken->alike = NULL;
	if (!other || other->is_mixed) {
		leave_alike(entry, false);
		return;
	}
	entry->is_alike = true;
	entry->changes = changes_of(taken);
	if (!entry->head->alike_from || entry->head->alike_from > entry)
		entry->head->alike_from = entry;
	if (other->alike) { /* (both lists had this result) */
		struct entry *last = entry;
		while (last->alike)
			last = last->alike;
		last->alike = other->alike;
	}
	other->alike = entry;
	other->alike_result = result;
	other->alike_count += taken->alike_count + 1;
	if (options.format == 3 && other->alike_count > MOST_ALIKE) {
		/* (these are kept, and so are all entries behind the first of them) */
		give_up(other);
	}
}

/* How likely an entry has a result that others may have: one that the profile has for it, before
 * one that is given, and any other. */
static unsigned likelihood(const struct flight *flight, i32 result)
{
	if (is_given(flight->entry))
		return 1;
	return options.format != 3 || !is_undecided(flight, result) ? 2 : 0;
}

struct flight *flight_of(struct ring *ring, u64 user_data, i32 result, bool *is_sure)
{
	struct flight *first = ring->by_data[chain_of(user_data)];
	u32 looks = MOST_LOOKS;
	struct flight *found = next_of(first, user_data, result, &looks);
	struct flight *other = found ? next_of(found->next_same, user_data, result, &looks) : NULL;
	unsigned likely = other ? likelihood(found, result) : 2;
	u32 more_looks = MOST_LOOKS;

	for (struct flight *it = other; it && likely < 2 && more_looks;
	     it = next_of(it->next_same, user_data, result, &more_looks)) {
		more_looks -= more_looks > 0;
		if (likelihood(it, result) <= likely)
			continue;
		likely = likelihood(it, result);
		other = found;
		found = it;
	}
	*is_sure = found && !other && looks && !found->alike && !found->is_mixed;
	if (found)
		found->has_ended = !other && looks && !found->is_mixed;
	if (*is_sure)
		return found;
	for (struct flight *it = first; it && !found; it = it->next_same)
		found = it->entry->sqe.user_data == user_data ? it : NULL;
	if (found && (!looks || !may_give(&found->asked_for, found->asked, result)))
		found->is_mixed = true;
	if (found)
		take_for(found, other, result);
	return found;
}

struct touch *add_touch(struct flight *flight, enum touch_kind kind, bool writes)
{
	/* The last one is written over where there is no more room: vectors are put together
	 * before. */
	u32 at = flight->touch_count < MOST_TOUCHES ? flight->touch_count++ : MOST_TOUCHES - 1;
	struct touch *touch = &flight->touches[at];

	*touch = (struct touch){ .kind = kind, .writes = writes };
	return touch;
}

void touch_file(struct flight *flight, struct opened *file, u64 from, u64 to, bool writes)
{
	struct touch *touch = add_touch(flight, TOUCH_FILE, writes);

	touch->file = file;
	touch->from = from;
	touch->to = to;
	touch->extends = writes;
}

void touch_name(struct flight *flight, const u8 *path, u32 length, bool writes)
{
	struct touch *touch = add_touch(flight, TOUCH_NAME, writes);

	touch->path = path;
	touch->length = length;
}

/* Adds a range of the memory of the process. */
static void touch_memory(struct flight *flight, u64 from, u64 to, bool writes)
{
	struct touch *touch = add_touch(flight, TOUCH_MEMORY, writes);

	touch->process = flight->process;
	touch->from = from;
	touch->to = to;
}

/* The bytes of memory that it reads or writes; many vectors are taken as one range. */
static void touch_vectors(struct flight *flight, bool writes)
{
	u64 from = UINT64_MAX, to = 0;

	for (u32 at = 0; at < flight->vector_count; at++) {
		const struct iovec *it = &vectors_of(flight)[at];
		u64 start = address_of(it), end = start + it->iov_len;
		if (flight->vector_count <= 4)
			touch_memory(flight, start, end, writes);
		from = start < from ? start : from;
		to = end > to ? end : to;
	}
	if (flight->vector_count > 4)
		touch_memory(flight, from, to, writes);
}

/* The bytes of the file that a read or write moves. */
static void touch_moved(struct flight *flight)
{
	const struct io_uring_sqe *sqe = &flight->entry->sqe;
	struct opened *file = flight->used;
	bool writes = !reads_bytes(sqe->opcode);
	u64 from = sqe->off == AT_POSITION ? file->position : sqe->off;

	if ((writes && file->appends) || (sqe->off == AT_POSITION && file->moving))
		touch_file(flight, file, 0, UINT64_MAX, writes);
	else
		touch_file(flight, file, from, from + min64(flight->asked, UINT64_MAX - from),
			   writes);
	if (sqe->off == AT_POSITION)
		add_touch(flight, TOUCH_POSITION, true)->owner = file;
}

/* The bytes of the file that FALLOCATE changes. */
static void touch_allocated(struct flight *flight)
{
	const struct io_uring_sqe *sqe = &flight->entry->sqe;
	u64 end = sqe->off + min64(sqe->addr, UINT64_MAX - sqe->off);

	if (sqe->len == 0) /* (nothing is written over, but the file may grow) */
		touch_file(flight, flight->used, end, end, true);
	else if (sqe->len != FALLOC_FL_KEEP_SIZE)
		touch_file(flight, flight->used, sqe->off, end, true);
}

/* The slot or number that an entry uses, opens or closes. */
static void touch_place(struct flight *flight)
{
	const struct io_uring_sqe *sqe = &flight->entry->sqe;
	bool has_index = sqe->opcode == OP_OPENAT || sqe->opcode == OP_CLOSE;
	bool is_slot = has_index ? sqe->file_index != 0 : sqe->flags & FLAG_FIXED;
	struct touch *touch = add_touch(flight, is_slot ? TOUCH_SLOT : TOUCH_TABLE, has_index);

	touch->owner = flight->ring;
	if (has_index && is_slot)
		touch->from = sqe->file_index - 1;
	else
		touch->from = sqe->opcode == OP_OPENAT ? ANY_NUMBER : (u64)(u32)sqe->fd;
}

/* A file whose name an entry moves, or to which it gives another one, is one that the command uses.
 */
static void touch_file_named(const u8 *path, u32 length)
{
	char *name = copy_bytes((const char *)path, length), *full = outside_path(name);

	is_touched_by_name(full);
	free(name);
	free(full);
}

/* A name of an entry: as the tree has it, where that is known. */
static void touch_its_name(struct flight *flight, u32 which, bool writes)
{
	const char *name = flight->names[which];

	if (name)
		touch_name(flight, (const u8 *)name, (u32)strlen(name), writes);
}

void touch_opened(struct flight *flight)
{
	bool makes = flight->open_flags & O_CREAT && flight->used && !flight->used->inode;

	touch_its_name(flight, 0, makes);
	if (flight->used && flight->open_flags & O_TRUNC)
		touch_file(flight, flight->used, 0, UINT64_MAX, true);
}

/* The names of an entry, and what an open cuts. */
static void touch_names(struct flight *flight)
{
	const struct entry *entry = flight->entry;
	u16 first = 0;

	switch (entry->sqe.opcode) {
	case OP_OPENAT:
		touch_opened(flight);
		break;
	case OP_STATX:
		touch_its_name(flight, 0, false);
		if (flight->used)
			touch_file(flight, flight->used, size_now(flight->used), UINT64_MAX, false);
		break;
	case OP_UNLINKAT:
	case OP_MKDIRAT:
		touch_its_name(flight, 0, true);
		break;
	case OP_RENAMEAT:
	case OP_LINKAT:
		memcpy(&first, entry->side, 2);
		if (options.touched) {
			touch_file_named(entry->side + 2, first);
			touch_file_named(entry->side + 2 + first, entry->side_length - 2 - first);
		}
		touch_its_name(flight, 0, entry->sqe.opcode == OP_RENAMEAT);
		touch_its_name(flight, 1, true);
		break;
	}
}

void look_at_touches(struct flight *flight)
{
	const struct entry *entry = flight->entry;
	u8 opcode = entry->sqe.opcode;

	if (entry->replaced || !is_served(opcode))
		return;
	touch_names(flight);
	if (uses_file(&entry->sqe) || opcode == OP_OPENAT || opcode == OP_CLOSE)
		touch_place(flight);
	if (moves_bytes(opcode) || opcode == OP_STATX)
		touch_vectors(flight, fills_memory(opcode));
	if (!flight->used)
		return;
	if (moves_bytes(opcode))
		touch_moved(flight);
	else if (opcode == OP_FALLOCATE)
		touch_allocated(flight);
	else if (opcode == OP_FTRUNCATE)
		touch_file(flight, flight->used, 0, UINT64_MAX, true);
}

void lose(const char *what)
{
	note(what, NULL);
	if (trace.is_lost)
		return;
	trace.is_lost = true;
	for (u32 at = 0; at < ring_count; at++) {
		for (struct flight *it = rings[at]->first; it; it = it->next)
			put_outside(it->entry, OUTSIDE_CHANGED);
	}
}

enum outside unsettled_by(dev_t device, ino_t inode)
{
	return doubt_of(device, inode);
}

void unsettle(const struct opened *file, enum outside why)
{
	if (file->inode)
		set_doubt(file->device, file->inode, why);
}

/* Names of which it is not told what is there: few, since the program knows as little. */
struct doubt *doubts;
u64 doubt_count;
static u64 doubt_room;
enum { MOST_DOUBTS = 1024 };

enum outside doubted_by(const char *path, u32 length)
{
	for (u64 at = 0; at < doubt_count; at++) {
		size_t upper = strlen(doubts[at].path);
		if (upper <= length && !memcmp(doubts[at].path, path, upper) &&
		    (upper == length || path[upper] == '/'))
			return doubts[at].why;
	}
	return INSIDE;
}

void doubt_name(const u8 *path, u32 length, enum outside why)
{
	if (!length || *path != '/' || doubted_by((const char *)path, length) != INSIDE)
		return;
	if (doubt_count == MOST_DOUBTS) { /* (then nothing is told of any name) */
		doubts[0] = (struct doubt){ copy_text(""), why };
		return;
	}
	GROW(doubts, doubt_count, doubt_room);
	doubts[doubt_count++] = (struct doubt){ copy_bytes((const char *)path, length), why };
}
