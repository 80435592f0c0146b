#include "play.h"
#include "apart.h"
#include "chains.h"
#include "fill.h"
#include "numbers.h"
#include "pieces.h"
#include "registered.h"
#include "rings.h"
#include "trace.h"
#include "uring.h"
#include "watch.h"

#include <errno.h>
#include <stdlib.h>
#include <string.h>

/* Milliseconds after which it is looked whether a piece has ended in silence. */
enum { LOOK_AGAIN = 201 };

/* --- One chain at a time ------------------------------------------------------------------------
 */

/* Waits until a piece has ended. Where nothing tells, a while without a word does. */
static void wait_for_piece(struct piece *piece)
{
	u32 ring = piece->first->ring, waited = 0;

	hear_ring(ring);
	while (!piece->is_over) {
		waited = wait_for(ring, 1, LOOK_AGAIN) ? 0 : waited + LOOK_AGAIN;
		hear_ring(ring);
		if (!piece->is_over && waited && is_silent_long(piece, play_time())) {
			counts.unsaid++;
			return;
		}
		if (!piece->is_over && waited >= options.patience * 1000) {
			say("place %u has not ended in %u seconds", piece->first->place,
			    options.patience);
			give_up();
		}
	}
}

/* Submits some members of a chain, waits for them, and looks at what came of them. */
static void play_members(struct entry *first, u32 count, bool is_left)
{
	if (is_left) {
		look_at(first);
		return;
	}
	struct piece *piece = fill_piece(first, count, is_doomed(first, count), 0);
	submit(first->ring, piece->sent);
	wait_for_piece(piece);
	take_ended();
	end_piece(piece);
}

void play_chains(void)
{
	make_pieces(1);
	for (u32 at = 0; at < trace.record_count; at++) {
		const struct record *record = &trace.records[at];
		if (is_step(record))
			play_record(record);
		if (record->kind == RECORD_RING_ENDS)
			end_ring(record->ring);
		for (u32 from = 0, count; from < record->count; from += count) {
			count = chain_length(record, from);
			plan_chain(record->entries + from, count, play_members);
		}
		go_on();
	}
}

/* --- In rounds ----------------------------------------------------------------------------------
 */

u32 widest_of(const u32 *rounds, u32 count)
{
	u32 *sizes = allocate(count * sizeof *sizes), widest = 0;

	for (u32 place = 0; place < trace.places; place++) {
		if (++sizes[rounds[place]] > widest)
			widest = sizes[rounds[place]];
	}
	free(sizes);
	return (u32)min64(widest, MOST_AT_ONCE);
}

/* The places of each round, in order: those of round r are from starts[r] on. */
static u32 *by_round(const u32 *rounds, u32 count, u32 *starts)
{
	u32 *places = allocate(trace.places * sizeof *places);
	u32 *next = allocate((count + 1) * sizeof *next);

	for (u32 place = 0; place < trace.places; place++)
		starts[rounds[place] + 1]++;
	for (u32 at = 0; at < count; at++)
		starts[at + 1] += starts[at];
	memcpy(next, starts, count * sizeof *next);
	for (u32 place = 0; place < trace.places; place++)
		places[next[rounds[place]]++] = place;
	free(next);
	return places;
}

/* Of each ring how many entries are in flight. */
static u32 *in_flight;

/* Waits for what is in flight on all rings. */
static void wait_for_all(void)
{
	for (u32 at = 0; at < live_count(); at++) {
		u32 ring = live_ring(at);
		while (in_flight[ring]) {
			bool came = wait_for(ring, in_flight[ring], options.patience * 1000);
			u32 taken = hear_ring(ring);
			in_flight[ring] -= (u32)min64(taken, in_flight[ring]);
			if (came || taken)
				continue;
			say("%u entries of ring %u have not ended in %u seconds", in_flight[ring],
			    ring, options.patience);
			give_up();
		}
	}
}

/* The ring of an entry may be of a later round: then it is there before, with empty slots. */
static void need_ring(u32 ring)
{
	if (is_open(ring))
		return;
	let_open();
	make_ring(ring);
	let_none_open();
}

/* Fills the queue of its ring with an entry; false where there is no room. */
static bool fill_alone(struct entry *entry)
{
	need_ring(entry->ring);
	if (in_flight[entry->ring] == room_of(entry->ring))
		return false;
	entry->apart =
		entry->expected == -ECANCELED && !entry->is_given ? APART_LINKS : why_apart(entry);
	if (entry->apart != NOT_APART)
		return true;
	struct io_uring_sqe *sqe = next_sqe(entry->ring, in_flight[entry->ring]++);
	fill_entry(entry, sqe);
	sqe->flags &= (u8) ~(FLAG_LINK | FLAG_HARD | FLAG_DRAIN | FLAG_SKIP);
	return true;
}

/* Fills the queues with places of a round, as many as there is room for; gives how many places were
 * taken. A new ring, a set and a seek are taken only where nothing is filled. */
static u32 fill_batch(const u32 *places, u32 count)
{
	bool is_filled = false;
	u32 at;

	for (at = 0; at < count && !is_crowded(); at++) {
		struct entry *entry = trace.by_place[places[at]];
		const struct record *record = trace.record_at[places[at]];
		if (record && is_quiet_step(record) && is_filled)
			break;
		if (record)
			play_record(record);
		else if (!fill_alone(entry))
			break;
		is_filled |= !record;
	}
	return at;
}

/* What is submitted by itself always posts. */
static void look_at_alone(struct entry *entry)
{
	bool may_be_silent = entry->sqe[1] & FLAG_SKIP || !entry->is_posted_expected;

	if (entry->state == ENTRY_POSTED && may_be_silent)
		entry->state = ENTRY_ALONE;
	look_at(entry);
}

static u32 play_batch(const u32 *places, u32 count)
{
	u32 memory = hold_memory();
	u32 taken = fill_batch(places, count);

	for (u32 at = 0; at < live_count(); at++) {
		if (in_flight[live_ring(at)])
			submit(live_ring(at), in_flight[live_ring(at)]);
	}
	wait_for_all();
	for (u32 at = 0; at < taken; at++) {
		if (trace.by_place[places[at]])
			look_at_alone(trace.by_place[places[at]]);
		leave_place(places[at]);
	}
	let_memory_go(memory);
	return taken;
}

void play_rounds(const u32 *rounds, u32 count)
{
	u32 *starts = allocate((count + 2) * sizeof *starts);
	u32 *places = by_round(rounds, count, starts);

	in_flight = allocate(trace.ring_count * sizeof *in_flight);
	count_uses();
	make_pieces(0);
	for (u32 at = 0; at < trace.places; go_on()) {
		u32 round = rounds[places[at]];
		at += play_batch(places + at, starts[round + 1] - at);
	}
	free(starts);
	free(places);
}
