#include "pieces.h"
#include "apart.h"
#include "brought.h"
#include "calls.h"
#include "chains.h"
#include "fill.h"
#include "keeper.h"
#include "mend.h"
#include "numbers.h"
#include "results.h"
#include "registered.h"
#include "rings.h"
#include "tree.h"
#include "uring.h"

#include <errno.h>
#include <fcntl.h>
#include <stdlib.h>
#include <string.h>

/* Nanoseconds without a word behind which a chain whose end is silent has ended. */
#define SILENCE 200000000ULL

struct counts counts;

static struct piece *pieces;
static u32 *free_pieces, free_count; /* numbers of those that are not in use */
static struct piece *ended;	     /* those that have ended and were not taken */
static u64 last_number;		     /* of the NOPs behind pieces */
static u64 began_at;		     /* by the clock */
static u64 heard_at;		     /* when completions were taken last */

void make_pieces(u32 count)
{
	began_at = now();
	pieces = allocate(count * sizeof *pieces);
	free_pieces = allocate(count * sizeof *free_pieces);
	for (free_count = 0; free_count < count; free_count++)
		free_pieces[free_count] = count - 1 - free_count;
}

u64 play_time(void)
{
	return now() - began_at;
}

/* --- Completions --------------------------------------------------------------------------------
 */

/* Whether a head that failed was refused with all its chain, so that nothing else is to come. */
static bool is_refused(const struct piece *piece)
{
	const struct entry *head = piece->first;
	i32 result = head->result;

	if (result == -ECANCELED)
		return true;
	return head->is_expected && (piece->is_doomed || piece->count == 1) &&
	       (result == -EINVAL || result == -EBADF || result == -EOPNOTSUPP ||
		result == -ENOENT || result == -ENAMETOOLONG);
}

static void end_if(struct piece *piece, bool is_over)
{
	if (!is_over || piece->is_over)
		return;
	piece->is_over = true;
	piece->next_ended = ended;
	ended = piece;
}

struct piece *take_ended(void)
{
	struct piece *piece = ended;

	if (piece)
		ended = piece->next_ended;
	return piece;
}

/* What a completion says of its piece. Where the member that breaks a chain may be silent, the
 * others are, and so is the NOP. */
static void hear(struct piece *piece, const struct entry *entry)
{
	bool is_last = entry->place == piece->first->place + piece->count - 1;
	bool may_be_silent = entry->sqe[1] & FLAG_SKIP;

	piece->posted++;
	piece->heard_at = heard_at;
	if (!piece->has_silent)
		end_if(piece, piece->posted == piece->count);
	if (!may_be_silent)
		return;
	bool is_soft = is_failure(entry, entry->result) && !is_last && !(entry->sqe[1] & FLAG_HARD);
	end_if(piece, is_soft && surely_breaks(entry));
	piece->is_heard |= is_soft || !entry->is_expected;
	end_if(piece, entry == piece->first && is_refused(piece));
}

/* The NOP behind a piece: its number has the piece's own in its low bits. */
static void hear_end(u64 number)
{
	struct piece *piece = &pieces[(number - OF_END) % MOST_AT_ONCE];

	end_if(piece, piece->first && piece->end_number == number);
}

static void take_completion(const struct io_uring_cqe *it)
{
	if (it->user_data >= OF_END) {
		hear_end(it->user_data);
		return;
	}
	if (it->user_data >= trace.places || !trace.by_place[it->user_data])
		return;
	struct entry *entry = trace.by_place[it->user_data];
	bool is_first = entry->state != ENTRY_POSTED;
	if (!is_first)
		say("place %u posted twice, %d and %d", entry->place, entry->result, it->res);
	if (it->flags)
		say("the completion of place %u has flags %u", entry->place, it->flags);
	entry->state = ENTRY_POSTED;
	entry->result = it->res;
	entry->completed = heard_at;
	if (is_first && entry->piece)
		hear(entry->piece, entry);
}

u32 hear_ring(u32 ring)
{
	heard_at = play_time();
	return take_completions(ring, take_completion);
}

/* --- What is known of an entry once it has ended ------------------------------------------------
 */

/* Whether an entry ended well, as far as it is known. */
static bool went_well(const struct entry *entry)
{
	if (entry->state == ENTRY_SILENT)
		return !entry->is_expected || entry->expected >= 0;
	return entry->state != ENTRY_UNPLAYED && entry->result >= 0;
}

static bool may_make_a_node(const struct entry *entry)
{
	u8 opcode = entry->sqe[0];

	return opcode == OP_MKDIRAT ||
	       (opcode == OP_OPENAT && fields_of(entry).own_flags & O_CREAT);
}

static void learn(const struct entry *entry)
{
	if (options.no_nodes)
		return;
	char *path = copy_bytes(entry->side, entry->side_length);
	/* What is kept apart takes no number, and may be learned while others are in flight. */
	if (!is_kept_apart())
		let_open();
	learn_node(path, entry->place);
	if (!is_kept_apart())
		let_none_open();
	free(path);
}

void look_at(struct entry *entry)
{
	bool is_played = entry->state != ENTRY_UNPLAYED;

	if (is_played && entry->state != ENTRY_SILENT && entry->apart == NOT_APART &&
	    entry->is_expected && entry->result != entry->expected && !options.strict)
		entry->apart = why_as_right(entry);
	if (went_well(entry)) {
		keep_data(entry);
		if (may_make_a_node(entry))
			learn(entry);
	}
	let_read_go(entry);
	counts.played += is_played;
	counts.unplayed += !is_played;
	counts.given += entry->is_given;
	if (is_to_mend(entry)) {
		mend(entry);
		counts.mended++;
	}
}

void give_up(void)
{
	for (u32 place = 0; place < trace.places; place++) {
		struct entry *it = trace.by_place[place];
		if (!it || it->state != ENTRY_UNPLAYED || it->apart != NOT_APART)
			continue;
		if (it->is_submitted)
			it->state = ENTRY_SILENT;
		else
			it->apart = APART_STUCK;
	}
	write_entries_alone();
	deliver_results();
	take_away();
	exit(STATUS_FAILED);
}

/* --- Pieces -------------------------------------------------------------------------------------
 */

/* A ring with both drains and skips is refused by Linux. In flight, drains are kept by what each
 * chain waits for. */
static bool has_no_drains(u32 ring)
{
	return options.depends || (trace.rings[ring].has_skip && !options.raw);
}

static void fill_end(struct piece *piece, struct io_uring_sqe *last, u32 filled)
{
	u64 number = (u64)(piece - pieces);

	last->flags |= FLAG_HARD;
	struct io_uring_sqe *sqe = next_sqe(piece->first->ring, filled);
	memset(sqe, 0, sizeof *sqe);
	piece->end_number = OF_END + ++last_number * MOST_AT_ONCE + number;
	sqe->user_data = piece->end_number;
	piece->sent++;
}

struct piece *fill_piece(struct entry *first, u32 count, bool is_doomed, u32 filled)
{
	struct piece *piece = &pieces[free_pieces[--free_count]];
	bool is_undrained = has_no_drains(first->ring);
	struct io_uring_sqe *sqe = NULL;

	*piece = (struct piece){ .first = first,
				 .count = count,
				 .sent = count,
				 .memory = hold_memory(),
				 .is_doomed = is_doomed,
				 .heard_at = play_time() };
	for (u32 at = 0; at < count; at++) {
		sqe = next_sqe(first->ring, filled + at);
		fill_entry(&first[at], sqe);
		first[at].piece = piece;
		first[at].submitted = piece->heard_at;
		piece->has_silent |= (sqe->flags & FLAG_SKIP) != 0;
		if (is_undrained)
			sqe->flags &= (u8)~FLAG_DRAIN;
	}
	sqe->flags &= (u8) ~(FLAG_LINK | FLAG_HARD);
	piece->has_end = piece->has_silent && filled + count < room_of(first->ring);
	if (piece->has_end)
		fill_end(piece, sqe, filled + count);
	return piece;
}

bool is_silent_long(const struct piece *piece, u64 time)
{
	bool may_be_over = piece->has_silent && (piece->is_heard || !piece->has_end);

	return may_be_over && time - piece->heard_at >= SILENCE;
}

/* Where a later member read over what an earlier one did, no sum of that is known. By the answers
 * none does (chains.c). */
static void drop_overwritten(struct entry *first, u32 count)
{
	forget_stretches();
	for (u32 at = count; at-- > 0;) {
		if (reads_over(&first[at], most_moved(&first[at])))
			let_read_go(&first[at]);
	}
}

void end_piece(struct piece *piece)
{
	struct entry *first = piece->first;

	for (u32 at = 0; at < piece->count; at++) {
		first[at].piece = NULL;
		if (first[at].state == ENTRY_UNPLAYED)
			first[at].state = ENTRY_SILENT;
	}
	drop_overwritten(first, piece->count);
	for (u32 at = 0; at < piece->count; at++)
		look_at(&first[at]);
	let_memory_go(piece->memory);
	piece->first = NULL;
	free_pieces[free_count++] = (u32)(piece - pieces);
}

static void put_bytes(const struct record *record)
{
	u8 *memory = trace.rings[record->ring].buffers[record->buffer].memory;

	if (record->length && record->bytes)
		memcpy(memory + record->offset, record->bytes, record->length);
	else if (record->length)
		memset(memory + record->offset, 0, record->length);
}

void play_record(const struct record *record)
{
	bool is_fill = record->kind == RECORD_FILL;

	if (record->call) {
		play_call(record);
		return;
	}
	/* In rounds a fill may come before its ring: that is there before, with empty slots. */
	if (!is_fill || !is_open(record->ring)) {
		let_open();
		make_ring(record->ring);
		if (!is_fill)
			fill_slots(record->ring);
		let_none_open();
	}
	if (is_fill)
		put_bytes(record);
}
