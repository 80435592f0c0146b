#include "submissions.h"
#include "ahead.h"
#include "aside.h"
#include "begun.h"
#include "completions.h"
#include "given.h"
#include "meetings.h"
#include "memory.h"
#include "notes.h"
#include "others.h"
#include "positions.h"
#include "sides.h"
#include "start.h"
#include "table.h"

#include <fcntl.h>
#include <string.h>

/* The flags of OPENAT that the profile knows. */
#define KNOWN_OPEN_FLAGS 0x1fdfc3U

/* The chain that entries are being taken of. */
struct chain {
	u64 head;
	struct entry *first;
	bool is_broken; /* a member fails in the replay, so that later ones do not run */
	bool is_drained;
	bool goes_on;
	bool may_fill; /* a member that is given may put bytes into the memory of the program */
};

/* Whether a priority of a read or write is one: a class of 1 to 3, or 0 without a level. */
static bool is_priority(u16 priority)
{
	return priority >> 13 <= 3 && (priority >> 13 || !priority);
}

/* Whether fields are set that the opcode does not use: the kernel refuses them. */
static bool has_other_fields(const struct io_uring_sqe *sqe)
{
	bool has_index = sqe->buf_index || sqe->splice_fd_in;

	switch (sqe->opcode) {
	case OP_OPENAT:
		return sqe->buf_index;
	case OP_CLOSE:
		return sqe->off || sqe->addr || sqe->len || sqe->rw_flags || sqe->buf_index;
	case OP_FSYNC:
	case OP_SYNC_FILE_RANGE:
		return has_index || sqe->addr;
	case OP_FADVISE:
	case OP_STATX:
		return has_index;
	case OP_FALLOCATE:
		return has_index || sqe->rw_flags;
	case OP_FTRUNCATE:
		return has_index || sqe->rw_flags || sqe->addr || sqe->len || sqe->addr3;
	case OP_MKDIRAT:
		return has_index || sqe->rw_flags || sqe->off;
	case OP_UNLINKAT:
		return has_index || sqe->off || sqe->len;
	case OP_RENAMEAT:
	case OP_LINKAT:
		return has_index;
	default:
		return false;
	}
}

/* Whether a STATX has flags, or a mask, that the kernel refuses once it runs. */
static bool has_other_stat_flags(const struct io_uring_sqe *sqe)
{
	u32 both = AT_STATX_FORCE_SYNC | AT_STATX_DONT_SYNC;
	u32 served = both | AT_SYMLINK_NOFOLLOW | AT_NO_AUTOMOUNT | AT_EMPTY_PATH;

	return sqe->statx_flags & ~served || (sqe->statx_flags & both) == both || sqe->len >> 31;
}

/* Whether an entry opens or closes a slot that the trace cannot tell: in version 3 one that the
 * kernel chooses is told once it is known. */
static bool has_other_slot(const struct ring *ring, const struct io_uring_sqe *sqe)
{
	if (sqe->opcode != OP_OPENAT && sqe->opcode != OP_CLOSE)
		return false;
	if (sqe->file_index == IORING_FILE_INDEX_ALLOC)
		return options.format != 3 || sqe->opcode != OP_OPENAT || !ring->registered;
	return sqe->file_index > ring->registered || sqe->file_index > most_slots();
}

/* Why an entry asks for what lies outside the profile by its fields, and the replay may answer
 * otherwise. */
static enum outside outside_by_fields(const struct ring *ring, const struct io_uring_sqe *sqe)
{
	u8 opcode = sqe->opcode;

	if (!is_served(opcode))
		return OUTSIDE_OPCODE;
	if (sqe->flags & FLAG_SELECT)
		return OUTSIDE_SELECTION;
	if (sqe->personality || has_other_fields(sqe) ||
	    (sqe->ioprio && !(moves_bytes(opcode) && is_priority(sqe->ioprio))))
		return OUTSIDE_FLAGS;
	u32 served = moves_bytes(opcode) && options.format == 3 ? SERVED_RW_FLAGS : 0;
	if ((moves_bytes(opcode) || opcode == OP_NOP) && (u32)sqe->rw_flags & ~served)
		return OUTSIDE_FLAGS;
	if (opcode == OP_FALLOCATE && sqe->len & (0x08 | 0x20 | 0x40 | 0x80))
		return OUTSIDE_FLAGS;
	if (opcode == OP_FSYNC && sqe->off > INT64_MAX)
		return OUTSIDE_FLAGS;
	if (opcode == OP_RENAMEAT &&
	    (sqe->rename_flags & ~(options.format == 1 ? 1U : 3U) || sqe->rename_flags == 3))
		return OUTSIDE_FLAGS;
	if (opcode == OP_LINKAT && sqe->hardlink_flags & ~0x400U)
		return OUTSIDE_FLAGS;
	if (opcode == OP_STATX && has_other_stat_flags(sqe))
		return OUTSIDE_FLAGS;
	if (has_other_slot(ring, sqe))
		return OUTSIDE_SLOT;
	if (opcode == OP_OPENAT) {
		u32 made = O_CREAT | O_DIRECTORY;
		if (sqe->open_flags & ~KNOWN_OPEN_FLAGS ||
		    (sqe->open_flags & O_ACCMODE) == O_ACCMODE || (sqe->open_flags & made) == made)
			return OUTSIDE_FLAGS;
	}
	return INSIDE;
}

static const char *const outside_notes[OUTSIDE_COUNT] = {
	[OUTSIDE_OPCODE] = "an entry whose opcode the profile does not serve",
	[OUTSIDE_SELECTION] = "an entry with buffer selection",
	[OUTSIDE_FLAGS] = "an entry with flags or fields outside the profile",
	[OUTSIDE_SLOT] = "an entry whose slot the kernel chooses, or the trace cannot have",
};

/* Counts an entry for the summary. */
static void count_entry(const struct io_uring_sqe *sqe)
{
	counts.opcodes[sqe->opcode]++;
	for (unsigned bit = 0; bit < 8; bit++)
		counts.flags[bit] += sqe->flags >> bit & 1U;
	if (!uses_file(sqe))
		return;
	counts.by_slot += !!(sqe->flags & FLAG_FIXED);
	counts.by_descriptor += !(sqe->flags & FLAG_FIXED);
	counts.at_position += moves_bytes(sqe->opcode) && sqe->off == AT_POSITION;
}

/* Makes an entry a NOP with the same links and user_data. */
static void replace_by_nop(struct entry *entry)
{
	struct io_uring_sqe nop = { .opcode = OP_NOP, .user_data = entry->sqe.user_data };

	nop.flags = (u8)(entry->sqe.flags & ~(FLAG_FIXED | FLAG_SELECT));
	entry->sqe = nop;
	entry->replaced = true;
}

/* Notes and marks an entry whose descriptor is no file of the tree. */
static void leads_elsewhere(struct entry *entry, bool goes_aside)
{
	note("an entry on a descriptor that is no file of the root", entry);
	if (goes_aside || entry->is_aside)
		put_aside(entry, OUTSIDE_DESCRIPTOR);
	else
		put_outside(entry, OUTSIDE_DESCRIPTOR);
}

/* What is no file of the tree, and the command has in a slot, or NULL. */
static struct opened *foreign_in(const struct ring *ring, u32 slot)
{
	return slot < ring->slot_count ? ring->foreign[slot] : NULL;
}

/* Whether an entry on what is no file of the tree is written so that its replay changes nothing: in
 * version 3 also one on a number. */
static bool goes_aside(const struct io_uring_sqe *sqe)
{
	return sqe->flags & FLAG_FIXED || options.format == 3;
}

/* The same for a slot: what the entry writes there is not told. */
static void slot_leads_elsewhere(struct flight *flight, struct opened *foreign)
{
	struct entry *entry = flight->entry;

	leads_elsewhere(entry, goes_aside(&entry->sqe));
	if (!changes_file(entry->sqe.opcode))
		return;
	unsettle(foreign, OUTSIDE_CHANGED);
	flight->changes = hold(foreign); /* (a file that is not there yet is known at the end) */
}

/* The same for a slot beyond those that a trace has. What is there is not known. */
static void slot_is_beyond(struct ring *ring, struct entry *entry)
{
	leads_elsewhere(entry, true);
	for (u64 at = 0; at < ring->beyond_count; at++)
		unsettle(ring->beyond[at], OUTSIDE_CHANGED);
}

/* The same for a number. */
static void number_leads_elsewhere(struct flight *flight)
{
	const struct io_uring_sqe *sqe = &flight->entry->sqe;
	int copy = copy_descriptor(flight->process, sqe->fd);

	if (copy < 0) {
		leads_elsewhere(flight->entry, options.format == 3);
		return;
	}
	struct opened *foreign = new_foreign(copy);
	slot_leads_elsewhere(flight, foreign);
	release(foreign);
}

/* Whether an entry in flight puts something into a slot that is no file of the tree. */
static bool is_filled_in_flight(const struct ring *ring, u32 slot)
{
	for (const struct flight *it = ring->first; it; it = it->next) {
		if (it->takes_place && it->is_outside && it->slot == slot + 1)
			return true;
	}
	return false;
}

/* Whether the replay decides a CLOSE of a slot that has what is no file of the tree: it is taken
 * there, too. */
static bool closes_foreign(struct flight *flight)
{
	struct ring *ring = flight->ring;
	u32 slot = flight->entry->sqe.file_index - 1;

	if (options.format != 3 || flight->entry->is_aside || is_filled_in_flight(ring, slot))
		return false;
	if (!ring->taken[slot])
		give_up_slot(ring, slot);
	return true;
}

/* An entry on a slot of which it is not known yet what another one in flight puts there: that is
 * told behind it. */
static void slot_is_updated(struct flight *flight)
{
	leads_elsewhere(flight->entry, true);
	flight->is_blind = true;
}

/* Whether the slot of an entry is one that another one in flight may fill so. */
static bool is_updated(struct flight *flight)
{
	struct ring *ring = flight->ring;
	const struct io_uring_sqe *sqe = &flight->entry->sqe;
	bool uses = uses_file(sqe) && sqe->flags & FLAG_FIXED;
	bool closes = sqe->opcode == OP_CLOSE && sqe->file_index;
	u32 slot = uses ? (u32)sqe->fd : sqe->file_index - 1;

	if (options.format != 3 || !(uses || closes) || slot >= ring->slot_count)
		return false;
	bool is_any = is_updating(ring, slot);
	if (is_any)
		slot_is_updated(flight);
	return is_any;
}

/* Makes the descriptor or slot of an entry lead in the replay where it leads in the command. */
static void ensure_place(struct flight *flight)
{
	struct ring *ring = flight->ring;
	struct entry *entry = flight->entry;
	struct io_uring_sqe *sqe = &entry->sqe;
	bool closes = closes_in_table(sqe);

	if (is_updated(flight))
		return;
	if (uses_file(sqe) && sqe->flags & FLAG_FIXED) {
		u32 slot = (u32)sqe->fd;
		if (slot < ring->slot_count && ring->now[slot] && has_other_append(ring->now[slot]))
			put_into_slot(ring, slot,
				      fcntl(ring->now[slot]->descriptor, F_DUPFD_CLOEXEC, 0));
		struct opened *foreign = foreign_in(ring, slot);
		if (foreign)
			slot_leads_elsewhere(flight, foreign);
		else if (slot >= most_slots() && slot < ring->registered)
			slot_is_beyond(ring, entry);
		return;
	}
	if (sqe->opcode == OP_CLOSE && foreign_in(ring, sqe->file_index - 1) &&
	    !closes_foreign(flight))
		leads_elsewhere(entry, true);
	if (!uses_file(sqe) && !closes)
		return;
	enum leads leads = (options.format == 1) ? ensure_slot(ring, flight->process, sqe->fd)
						 : ensure_number(flight->process, sqe->fd);
	/* (where the replay has the root at a number, to close it is the same) */
	bool is_decided = options.format == 3 && closes && !entry->is_aside;
	if (leads == LEADS_ELSEWHERE && !(is_decided && take_as_other(sqe->fd)))
		number_leads_elsewhere(flight);
	if (options.format != 1 || leads != LEADS_TO_FILE)
		return;
	if (closes) {
		sqe->file_index = VERSION_ONE_SLOTS + (u32)sqe->fd + 1;
		sqe->fd = 0;
	} else {
		sqe->fd += VERSION_ONE_SLOTS;
		sqe->flags |= FLAG_FIXED;
	}
}

/* What a slot or number leads to once an OPENAT or CLOSE has run; it is put back where that fails.
 */
static void take_place(struct flight *flight)
{
	const struct io_uring_sqe *sqe = &flight->entry->sqe;
	u32 slot = sqe->file_index - 1;

	if (sqe->opcode == OP_OPENAT && flight->entry->is_aside) {
		take_outside_slot(flight, sqe->file_index, hold(flight->used));
	} else if (flight->is_blind || (closes_in_table(sqe) && flight->entry->is_aside)) {
		return; /* (that it is closed is seen when the number is looked at, or at its end)
			 */
	} else if (sqe->file_index && slot < flight->ring->slot_count) {
		flight->takes_place = true;
		flight->slot = sqe->file_index;
		flight->before = flight->ring->now[slot];
		flight->foreign_before = flight->ring->foreign[slot];
		flight->was_taken = flight->ring->taken[slot];
		flight->ring->now[slot] = sqe->opcode == OP_OPENAT ? hold(flight->used) : NULL;
		flight->ring->foreign[slot] = NULL;
		flight->ring->taken[slot] = false;
		flight->ring->changed[slot] = (struct change){ flight->sequence, flight->chain };
	} else if (closes_in_table(sqe)) {
		flight->takes_place = true;
		flight->before = take_number(sqe->fd, &flight->was_taken);
	}
}

/* Finds the description that an entry works on, with its position made right, or makes one for an
 * open. */
static void find_description(struct flight *flight)
{
	struct entry *entry = flight->entry;
	u8 opcode = entry->sqe.opcode;

	if (opcode == OP_OPENAT) {
		flight->open_flags = entry->sqe.open_flags;
		flight->used = new_direct(flight->names[0] ? flight->names[0] : "/",
					  entry->sqe.open_flags);
		if (options.format == 1 && !entry->sqe.file_index) {
			note("an OPENAT to a descriptor, which version 1 does not have", entry);
			put_aside(entry, OUTSIDE_DESCRIPTOR);
		}
	}
	if (opcode == OP_STATX && flight->names[0] && !flight->is_link[0])
		flight->used = new_direct(flight->names[0], O_RDONLY);
	if (!uses_file(&entry->sqe))
		return;
	bool moves = moves_bytes(opcode) && entry->sqe.off == AT_POSITION;
	if (moves)
		correct_position(flight->ring, entry);
	struct opened *opened = opened_of(flight->ring, &entry->sqe);
	if (opened)
		flight->used = hold(opened);
}

/* The buffer of the trace that a fixed read or write names. */
static void find_buffer(struct flight *flight)
{
	struct entry *entry = flight->entry;
	i32 index = flight->ring->mapped[entry->sqe.buf_index];

	if (index < 0) {
		note("an entry with a registered buffer that is left out", entry);
		put_aside(entry, OUTSIDE_BUFFER);
	}
	flight->buffer = index <= 0 ? NO_BUFFER : (u32)index - 1;
	if (!is_given(entry))
		entry->sqe.buf_index = (u16)flight->buffer;
}

/* Whether the kernel gives an operation to a thread of its own, which looks for its file only then.
 */
static bool begins_later(u8 opcode)
{
	return opcode == OP_FSYNC || opcode == OP_SYNC_FILE_RANGE || opcode == OP_FADVISE ||
	       opcode == OP_FALLOCATE || opcode == OP_FTRUNCATE;
}

/* An entry of an opcode that is not served: what it will change. */
static void take_unserved(struct flight *flight, pid_t thread)
{
	struct entry *entry = flight->entry;

	note(outside_notes[OUTSIDE_OPCODE], entry);
	look_at_unserved(flight, thread);
	meet_others(flight);
	if (options.replace)
		replace_by_nop(entry);
	if (options.format == 3)
		put_aside(entry, OUTSIDE_OPCODE);
	else
		put_outside(entry, OUTSIDE_OPCODE);
}

/* A write behind a member of its chain that may put bytes into its memory, which the replay does
 * not: they are taken when its completion is seen. A fill would come too late. */
static void take_filled(struct flight *flight)
{
	struct entry *entry = flight->entry;
	u8 opcode = entry->sqe.opcode;

	if (!moves_bytes(opcode) || reads_bytes(opcode) || entry->is_aside)
		return;
	if (is_fixed(opcode)) {
		note("a fixed write of what an entry before it in its chain may have put there",
		     entry);
		put_aside(entry, OUTSIDE_LATE);
	} else {
		put_outside(entry, OUTSIDE_LATE);
	}
	flight->is_late = !is_fixed(opcode);
}

/* Whether an opcode makes, moves or takes away the link that it names. */
static bool changes_link(u8 opcode)
{
	return opcode == OP_UNLINKAT || opcode == OP_RENAMEAT || opcode == OP_LINKAT;
}

/* An entry whose names rest on what one in flight makes, which is told at its end, is put aside. */
static void look_at_names_in_flight(struct flight *flight)
{
	struct entry *entry = flight->entry;

	flight->changes_link =
		changes_link(entry->sqe.opcode) && (flight->is_link[0] || flight->is_link[1]);
	flight->rests = rests_on_given(flight);
	if (!flight->rests)
		return;
	note("an entry on a name that another one in flight changes, whose result is given", entry);
	put_aside(entry, OUTSIDE_CHAIN);
}

/* Whether an entry puts bytes into the queues of its ring: what the kernel takes there is not what
 * was read before. */
static bool fills_queues(const struct flight *flight)
{
	const struct ring *ring = flight->ring;
	u64 entries = (u64)ring->sq_entries << (ring->flags & IORING_SETUP_SQE128 ? 7 : 6);
	u64 completions = (u64)ring->cq_entries << (ring->flags & IORING_SETUP_CQE32 ? 5 : 4);

	for (u32 at = 0; at < flight->touch_count; at++) {
		const struct touch *touch = &flight->touches[at];
		if (touch->kind != TOUCH_MEMORY || !touch->writes)
			continue;
		if (overlap(touch->from, touch->to, ring->sqes, ring->sqes + entries) ||
		    overlap(touch->from, touch->to, ring->cq,
			    ring->cq + ring->cq_offsets.cqes + completions))
			return true;
	}
	return false;
}

/* An entry of an opcode that is served: what it points to, what it works on, and what it meets. */
static void take_served(struct flight *flight, const struct chain *chain, pid_t thread)
{
	struct entry *entry = flight->entry;

	take_side(flight, thread);
	ensure_place(flight);
	find_description(flight);
	if (is_fixed(entry->sqe.opcode))
		find_buffer(flight);
	look_at_touches(flight);
	if (fills_queues(flight))
		lose("a read into the queues of its ring");
	look_at_names_in_flight(flight);
	if (!entry->is_aside && fails_silently(flight)) {
		note("an entry that fails, and that Linux lets post nothing and its chain go on",
		     entry);
		put_aside(entry, OUTSIDE_LINKS);
	}
	if (entry->sqe.opcode == OP_WRITE_FIXED)
		fill_buffer(flight, thread);
	meet_others(flight);
	if (chain->may_fill)
		take_filled(flight);
	take_place(flight);
	if (flight->used && moves_bytes(entry->sqe.opcode) && !entry->is_aside &&
	    entry->sqe.off == AT_POSITION) {
		flight->moves = hold(flight->used);
		flight->moves->moving++;
	}
}

/* Takes an entry, with what is known of it by its fields and its chain. */
static void take_entry(struct ring *ring, struct entry *entry, struct chain *chain, pid_t thread)
{
	struct flight *flight = new_flight(ring, entry, ring->submitter);
	enum outside why = outside_by_fields(ring, &entry->sqe);

	flight->sequence = ring->sequence++;
	flight->chain = chain->head;
	entry->head = chain->first;
	entry->submitted = time_now();
	flight->barrier = ring->barrier;
	flight->is_deferred = flight->sequence != chain->head || chain->is_drained ||
			      entry->sqe.flags & FLAG_ASYNC || begins_later(entry->opcode);
	count_entry(&entry->sqe);
	flight->asked_for = entry->sqe;
	if (trace.is_lost)
		put_outside(entry, OUTSIDE_CHANGED);
	if (why == OUTSIDE_OPCODE) {
		take_unserved(flight, thread);
	} else {
		if (why != INSIDE)
			note(outside_notes[why], entry);
		if (why != INSIDE || chain->is_broken)
			put_aside(entry, why != INSIDE ? why : OUTSIDE_CHAIN);
		take_served(flight, chain, thread);
	}
	/* (what is given breaks its chain as it did in the kernel) */
	chain->is_broken |=
		options.format != 3 && (entry->is_aside || entry->outside == OUTSIDE_DESCRIPTOR ||
					(why == OUTSIDE_OPCODE && !entry->replaced));
	chain->may_fill |= is_given(entry) && may_fill_memory(entry);
	if (opens_in_table(&entry->sqe)) {
		flight->number = lowest_free(count_takers_in_flight());
		flight->surprises = count_surprises();
	}
	launch(flight);
}

/* Where the entry at an index of the queue is, or 0 for none. */
static u64 entry_address(const struct ring *ring, pid_t thread, u32 index)
{
	u32 at = index & (ring->sq_entries - 1);
	unsigned shift = ring->flags & IORING_SETUP_SQE128 ? 7 : 6;

	if (!(ring->flags & SETUP_NO_SQARRAY)) {
		at = fetch_word(thread, ring->sq + ring->sq_offsets.array + 4ULL * at);
		if (at >= ring->sq_entries) {
			note("an index outside the queue", NULL);
			return 0;
		}
	}
	return ring->sqes + ((u64)at << shift);
}

/* Reads the entries of the queue as they are, up to an index that the kernel drops: there it ends
 * the call. */
static void read_entries(struct ring *ring, pid_t thread, struct record *record, u32 head,
			 u32 count)
{
	for (u32 at = 0; at < count; at++) {
		u64 address = entry_address(ring, thread, head + at);
		record->claimed++;
		if (!address)
			return;
		struct entry *entry = &record->entries[record->count];
		if (!fetch(thread, address, &entry->sqe, sizeof entry->sqe)) {
			lose("a queue that cannot be read");
			return;
		}
		entry->opcode = entry->sqe.opcode;
		entry->record = record;
		if (options.drain && entry->sqe.flags & FLAG_SKIP && !ring->has_quiet)
			note("a ring with CQE_SKIP_SUCCESS, which no kernel drains: --drain leaves "
			     "it alone from here on",
			     entry);
		ring->has_quiet |= entry->sqe.flags & FLAG_SKIP;
		record->count++;
	}
}

/* Whether the recorder has a ring drained: the kernel refuses IO_DRAIN behind an entry with
 * CQE_SKIP_SUCCESS. */
static bool drains(const struct ring *ring)
{
	return options.drain && !ring->has_quiet;
}

/* Puts the flags of the heads of a call into the queue: with IO_DRAIN for the kernel, which is not
 * recorded, and as they were when it has taken them. */
static void put_flags(const struct ring *ring, pid_t thread, const struct record *record, u8 more)
{
	for (u32 at = 0; at < record->count; at++) {
		const struct entry *entry = &record->entries[at];
		u8 flags = entry->sqe.flags | more;
		if (entry->sqe.flags & FLAG_DRAIN || (at && goes_on(&entry[-1].sqe)))
			continue;
		store(thread,
		      entry_address(ring, thread, record->from + at) +
			      offsetof(struct io_uring_sqe, flags),
		      &flags, 1);
	}
}

/* Whether the kernel drains a chain: any of its members asks for it, or the recorder does. */
static bool is_drained(const struct ring *ring, const struct entry *head, const struct entry *end)
{
	bool is_asked = drains(ring);

	for (const struct entry *it = head; it < end; it++) {
		is_asked |= it->sqe.flags & FLAG_DRAIN;
		if (!goes_on(&it->sqe))
			break;
	}
	return is_asked;
}

/* Whether no member of a chain runs in the replay, since one asks for what lies outside by its
 * fields. */
static bool is_doomed(const struct ring *ring, const struct entry *head, const struct entry *end)
{
	for (const struct entry *it = head; options.format != 3 && it < end; it++) {
		enum outside why = outside_by_fields(ring, &it->sqe);
		if (why != INSIDE && !(why == OUTSIDE_OPCODE && options.replace))
			return true;
		if (!goes_on(&it->sqe))
			break;
	}
	return false;
}

/* Takes the entries of a call one after another, chain by chain. */
static void take_entries(struct ring *ring, pid_t thread, struct record *record)
{
	const struct entry *end = record->entries + record->count;
	struct chain chain = { 0 };

	for (struct entry *it = record->entries; it < end; it++) {
		if (!chain.goes_on) {
			chain.head = ring->sequence;
			chain.first = it;
			chain.is_broken = is_doomed(ring, it, end);
			chain.may_fill = false;
			chain.is_drained = is_drained(ring, it, end);
			if (chain.is_drained)
				ring->barrier = chain.head;
		}
		chain.goes_on = goes_on(&it->sqe);
		take_entry(ring, it, &chain, thread);
		if (!chain.goes_on && chain.is_drained)
			ring->barrier = ring->sequence;
	}
}

/* Where a call begins to take entries: behind what other calls take. Where that is not the head
 * that the program's memory has, the kernel's own counts. */
static u32 first_entry(struct ring *ring, pid_t thread)
{
	u32 head = fetch_word(thread, ring->sq + ring->sq_offsets.head);

	if (head != ring->claimed && !ring->callers) {
		kernel_count(ring, "CachedSqHead", &head);
		ring->claimed = head;
	}
	return ring->claimed;
}

struct record *submission(struct ring *ring, pid_t thread, pid_t process, u32 wanted)
{
	ring->submitter = process;
	u32 head = first_entry(ring, thread);
	u32 count = fetch_word(thread, ring->sq + ring->sq_offsets.tail) - head, opens = 0;
	if (count > ring->sq_entries)
		count = ring->sq_entries;
	if (count > wanted)
		count = wanted;
	if (!count)
		return NULL;
	start(ring->submitter);
	begin_batch();
	struct record *record = new_record(ring, count);
	record->from = head;
	read_entries(ring, thread, record, head, count);
	record->is_drained = drains(ring);
	if (record->is_drained)
		put_flags(ring, thread, record, FLAG_DRAIN);
	read_sides_ahead(record, thread);
	ring->claimed += record->claimed;
	ring->callers++;
	for (u32 at = 0; at < record->count; at++) {
		const struct io_uring_sqe *sqe = &record->entries[at].sqe;
		opens += opens_in_table(sqe);
		trace.uses_table |=
			options.format != 1 && sqe->opcode == OP_RENAMEAT && sqe->rename_flags & 2;
	}
	if (options.format == 3) /* (with its slots as they are before these entries) */
		begin_ring(ring);
	/* (an open beside others that are not ordered is given, whatever it gets) */
	bool is_matched = record->is_drained || !count_opens_in_flight();
	if (opens && options.format != 1 && is_matched)
		match_lowest(ring->submitter, opens, count_opens_in_flight());
	take_entries(ring, thread, record);
	begin_batch();
	record->is_open = true;
	add_record(record);
	return record;
}

/* Marks what used a number that another thread has made lead elsewhere since it was looked at. */
static void look_at_numbers(struct ring *ring, const struct record *record)
{
	const struct entry *end = record->entries + record->count;

	for (struct flight *it = ring->last; it; it = it->previous) {
		struct entry *entry = it->entry;
		const struct io_uring_sqe *sqe = &it->asked_for;
		if (entry < record->entries || entry >= end)
			break;
		if (!it->used || !uses_file(sqe) || sqe->flags & FLAG_FIXED ||
		    opened_at(sqe->fd) != it->used || leads_to(it->process, sqe->fd, it->used))
			continue;
		note("a number that another thread changed meanwhile", entry);
		put_outside(entry, OUTSIDE_THREAD);
		if (!it->changes)
			it->changes = file_now(it);
	}
}

bool is_all_taken(const struct record *record)
{
	const struct ring *ring = record->of;
	u32 head;

	return ring->sq &&
	       fetch(ring->submitter, ring->sq + ring->sq_offsets.head, &head, sizeof head) &&
	       head - record->from >= record->claimed && head - record->from <= ring->sq_entries;
}

void submitted(struct ring *ring, pid_t thread, struct record *record, u32 taken)
{
	ring->callers--;
	record->is_open = false;
	if (record->is_drained && ring->sq && !ring->is_shared)
		put_flags(ring, thread, record, 0);
	if (record->is_gone) { /* (all of it was taken, and is written) */
		leave_record(record);
		reap(ring, thread, true);
		return;
	}
	if (has_others(ring->submitter, thread))
		look_at_numbers(ring, record);
	if (taken < record->count)
		ring->claimed -= record->claimed - taken;
	while (record->count > taken) {
		const struct entry *left = &record->entries[record->count - 1];
		drop_entry(record);
		struct flight *flight = ring->last;
		while (flight && flight->entry != left)
			flight = flight->previous;
		counts.not_taken++;
		if (flight) {
			put_back_place(flight);
			land(flight);
		}
	}
	reap(ring, thread, true);
}

void submitter_ended(struct ring *ring, pid_t thread, struct record *record)
{
	u32 head = record->from;

	if (!fetch(thread, ring->sq + ring->sq_offsets.head, &head, sizeof head) ||
	    head - record->from > record->claimed)
		kernel_count(ring, "CachedSqHead", &head);
	u32 taken = head - record->from;
	/* (a head behind the call's first entry is that of a call that took none) */
	submitted(ring, thread, record, taken > ring->sq_entries ? 0 : taken);
}

bool may_wait(struct ring *ring, pid_t thread, u32 *completions)
{
	u32 count = fetch_word(thread, ring->cq + ring->cq_offsets.tail) -
		    fetch_word(thread, ring->cq + ring->cq_offsets.head);

	for (const struct flight *it = ring->first; it; it = it->next) {
		enum outside why = reason_of(it->entry);
		if (why == OUTSIDE_OPCODE || why == OUTSIDE_DESCRIPTOR ||
		    it->entry->sqe.flags & FLAG_SKIP)
			return false;
		count++;
	}
	*completions = count;
	return count <= ring->cq_entries;
}
