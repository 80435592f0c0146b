#include "flight.h"
#include "answers.h"
#include "chains.h"
#include "fill.h"
#include "mend.h"
#include "pieces.h"
#include "registered.h"
#include "rings.h"
#include "trace.h"
#include "watch.h"

#include <stdlib.h>
#include <string.h>

/* Nanoseconds after which it is looked whether pieces have ended in silence, or something hangs. */
#define LOOK_AGAIN 100000000ULL
#define SECOND 1000000000ULL

/* Some members of a chain: they are submitted together, or one is left out. */
struct part {
	struct entry *first;
	u32 count;
	bool is_left;
};
/* What starts as a whole: a chain, in parts one after another, or a step that is no entry. */
struct unit {
	const struct record *record; /* of such a step, else NULL */
	u32 first, count;	     /* its places */
	u32 next_part, end_part;
	u64 due;	     /* when it starts at the soonest, from the start of the play */
	u32 waiting;	     /* for how many it still waits: each pair counts */
	struct piece *piece; /* what is in flight of it */
};

static struct unit *units;
static u32 unit_count, finished;
static struct part *parts;
static u32 part_count;
/* The units that wait for a unit: those of unit U are from later_from[U] on. */
static u64 *later_from, pair_count;
static u32 *later;
/* Those that wait for none any more: a heap, the first of the trace on top. */
static u32 *ready, ready_count;
/* What is in flight; and the units that go on only where nothing is. */
static struct piece **flying;
static u32 flying_count;
static u32 *quiet, quiet_count;
/* Of each ring: entries that are filled and not submitted, and those that may still post. */
static u32 *filled, *reserved;
static u64 looked_at, heard_last;
static u64 next_due; /* of the first that waits for its time alone; NO_TIME if there is none */

/* --- What there is to do ------------------------------------------------------------------------
 */

static void add_part(struct entry *first, u32 count, bool is_left)
{
	parts[part_count++] = (struct part){ first, count, is_left };
}

static void add_unit(u32 *unit_of, const struct record *record, u32 first, u32 count)
{
	units[unit_count] = (struct unit){
		.record = record, .first = first, .count = count, .next_part = part_count
	};
	for (u32 at = 0; at < count; at++)
		unit_of[first + at] = unit_count;
	unit_count++;
}

/* Makes the units, in the order of the trace; gives of each place its unit. */
static u32 *make_units(void)
{
	u32 *unit_of = allocate(trace.places * sizeof *unit_of);

	units = allocate(trace.places * sizeof *units);
	parts = allocate(trace.places * sizeof *parts);
	for (u32 number = 0; number < trace.record_count; number++) {
		const struct record *record = &trace.records[number];
		if (is_step(record))
			add_unit(unit_of, record, record->place, 1);
		for (u32 from = 0, count; from < record->count; from += count) {
			count = chain_length(record, from);
			add_unit(unit_of, NULL, record->place + from, count);
			plan_chain(record->entries + from, count, add_part);
			units[unit_count - 1].end_part = part_count;
		}
		go_on();
	}
	return unit_of;
}

/* Of a place that uses rings which the trace makes, the units that make them. */
static void each_maker(u32 place, const u32 *unit_of, void (*each)(u32 earlier, u32 unit))
{
	u32 ring = ring_of(place), unit = unit_of[place];
	const struct holder *it;

	if (ring != NO_RING && unit_of[trace.rings[ring].place] != unit)
		each(unit_of[trace.rings[ring].place], unit);
	for (u32 at = 0; (it = holder_at(place, at)); at++) {
		if (it->kind == OF_SLOT)
			each(unit_of[trace.rings[it->ring].place], unit);
	}
}

/* Each pair of units of which the later one waits for the earlier one. */
static void each_pair(const struct waits *waits, const u32 *unit_of,
		      void (*each)(u32 earlier, u32 unit))
{
	for (u32 place = 0; place < trace.places; place++) {
		if (has_ring_records())
			each_maker(place, unit_of, each);
		for (u64 at = waits->starts[place]; at < waits->starts[place + 1]; at++) {
			u32 earlier = unit_of[waits->earlier[at]];
			if (earlier != unit_of[place])
				each(earlier, unit_of[place]);
		}
	}
}

static void count_pair(u32 earlier, u32 unit)
{
	later_from[earlier + 1]++;
	units[unit].waiting++;
	pair_count++;
}

/* The last of each is put first, so that in the end each count is where it begins. */
static void put_pair(u32 earlier, u32 unit)
{
	later[--later_from[earlier + 1]] = unit;
}

/* Turns pairs around: of each unit those that wait for it. */
static void turn_around(const struct waits *waits, const u32 *unit_of)
{
	later_from = allocate((unit_count + 2ULL) * sizeof *later_from);
	each_pair(waits, unit_of, count_pair);
	later = allocate(pair_count * sizeof *later);
	for (u32 at = 0; at < unit_count; at++)
		later_from[at + 1] += later_from[at];
	later_from[unit_count + 1] = later_from[unit_count];
	each_pair(waits, unit_of, put_pair);
	later_from++;
}

/* --- The heap of those that may start -----------------------------------------------------------
 */

/* Whether a unit starts before another: it is due earlier, or is earlier in the trace. */
static bool is_before(u32 one, u32 other)
{
	u64 due = units[one].due, other_due = units[other].due;

	return due != other_due ? due < other_due : one < other;
}

static void swap(u32 *one, u32 *other)
{
	u32 it = *one;

	*one = *other;
	*other = it;
}

static void add_ready(u32 unit)
{
	u32 at = ready_count++;

	ready[at] = unit;
	for (; at && is_before(ready[at], ready[(at - 1) / 2]); at = (at - 1) / 2)
		swap(&ready[at], &ready[(at - 1) / 2]);
}

static void drop_first_ready(void)
{
	u32 at = 0;

	ready[0] = ready[--ready_count];
	while (2 * at + 1 < ready_count) {
		u32 below = 2 * at + 1;
		if (below + 1 < ready_count && is_before(ready[below + 1], ready[below]))
			below++;
		if (!is_before(ready[below], ready[at]))
			return;
		swap(&ready[at], &ready[below]);
		at = below;
	}
}

/* --- Going on -----------------------------------------------------------------------------------
 */

static void finish(u32 number)
{
	finished++;
	for (u32 at = 0; at < units[number].count; at++)
		leave_place(units[number].first + at);
	for (u64 at = later_from[number]; at < later_from[number + 1]; at++) {
		if (!--units[later[at]].waiting)
			add_ready(later[at]);
	}
}

/* Whether the rings and the memory have room for a part. A ring never has more to post than its
 * queue of completions takes. */
static bool has_room(const struct part *part)
{
	u32 ring = part->first->ring, most = part->count + 1;

	return filled[ring] + most <= room_of(ring) &&
	       reserved[ring] + most <= completion_room_of(ring) &&
	       flying_count < options.in_flight && has_memory();
}

static void fly(u32 number, const struct part *part)
{
	u32 ring = part->first->ring;
	bool is_without = is_doomed(part->first, part->count);
	struct piece *piece = fill_piece(part->first, part->count, is_without, filled[ring]);

	units[number].piece = piece;
	piece->owner = number;
	piece->index = flying_count;
	filled[ring] += piece->sent;
	reserved[ring] += piece->sent;
	flying[flying_count++] = piece;
}

/* Goes on with a unit, of which nothing is in flight, as far as that can be; false where there is
 * no room. What is made up for is so where nothing else is in flight, and so are rings, sets and
 * seeks. */
static bool advance(u32 number)
{
	struct unit *unit = &units[number];

	if (unit->record && is_quiet_step(unit->record) && flying_count) {
		quiet[quiet_count++] = number;
		return true;
	}
	if (unit->record)
		play_record(unit->record);
	while (unit->next_part < unit->end_part) {
		const struct part *part = &parts[unit->next_part];
		if (!part->is_left && !has_room(part))
			return false;
		if (part->is_left && is_to_mend(part->first) && flying_count) {
			quiet[quiet_count++] = number;
			return true;
		}
		unit->next_part++;
		if (!part->is_left) {
			fly(number, part);
			return true;
		}
		look_at(part->first);
	}
	finish(number);
	return true;
}

/* Starts what may start. Nothing does while something waits for a moment without anything in
 * flight. */
static void start_some(void)
{
	next_due = NO_TIME;
	while (ready_count && !quiet_count) {
		u32 number = ready[0];
		if (units[number].due && units[number].due > play_time()) {
			next_due = units[number].due;
			return;
		}
		drop_first_ready();
		if (!advance(number)) {
			add_ready(number);
			return;
		}
	}
}

static void submit_filled(void)
{
	for (u32 at = 0; at < live_count(); at++) {
		u32 ring = live_ring(at);
		if (filled[ring])
			submit(ring, filled[ring]);
		filled[ring] = 0;
	}
}

/* --- What has ended -----------------------------------------------------------------------------
 */

static bool is_any_to_mend(const struct piece *piece)
{
	for (u32 at = 0; at < piece->count; at++) {
		if (is_to_mend(&piece->first[at]))
			return true;
	}
	return false;
}

/* What has ended of a unit is looked at, and it may go on. */
static void land(u32 number)
{
	struct unit *unit = &units[number];

	end_piece(unit->piece);
	unit->piece = NULL;
	add_ready(number);
}

/* Takes a piece that has ended from what is in flight. */
static void bring_down(struct piece *piece)
{
	reserved[piece->first->ring] -= piece->sent;
	flying[piece->index] = flying[--flying_count];
	flying[piece->index]->index = piece->index;
	piece->is_over = true;
	if (is_any_to_mend(piece))
		quiet[quiet_count++] = piece->owner;
	else
		land(piece->owner);
}

/* Takes those that have ended from what is in flight; true where there were some. */
static bool bring_down_ended(void)
{
	struct piece *piece = take_ended();
	bool is_any = piece != NULL;

	for (; piece; piece = take_ended())
		bring_down(piece);
	return is_any;
}

/* Takes those that have ended in silence, now and then. As long as anything comes, what is not
 * heard may only be waiting. */
static void bring_down_silent(void)
{
	u64 time = play_time();

	if (time - looked_at < LOOK_AGAIN || time - heard_last < 2 * LOOK_AGAIN)
		return;
	looked_at = time;
	for (u32 at = flying_count; at-- > 0;) {
		if (!is_silent_long(flying[at], time))
			continue;
		counts.unsaid++;
		bring_down(flying[at]);
	}
}

/* Where nothing is in flight, does all that waited for such a moment. */
static void use_quiet(void)
{
	while (quiet_count && !flying_count) {
		u32 number = quiet[--quiet_count];
		struct unit *unit = &units[number];
		if (unit->piece) {
			land(number);
		} else if (unit->record) {
			play_record(unit->record);
			finish(number);
		} else {
			look_at(parts[unit->next_part++].first);
			add_ready(number);
		}
	}
}

static void hear_all(void)
{
	u32 taken = 0;

	for (u32 at = 0; at < live_count(); at++) {
		if (reserved[live_ring(at)])
			taken += hear_ring(live_ring(at));
	}
	if (taken)
		heard_last = play_time();
}

/* How long is waited at most: until something is due, or it is looked whether something hangs. */
static u64 until_due(void)
{
	u64 time = play_time();

	return next_due > time ? min64(next_due - time, LOOK_AGAIN) : 0;
}

/* Takes what has come, or waits until something has; gives up where nothing comes. */
static void wait_for_some(void)
{
	hear_all();
	if (bring_down_ended() || (!flying_count && next_due == NO_TIME))
		return;
	wait_for_any(reserved, until_due());
	hear_all();
	bring_down_ended();
	bring_down_silent();
	if (!flying_count)
		heard_last = play_time();
	if (play_time() - heard_last >= options.patience * SECOND) {
		say("place %u has not ended in %u seconds", flying[0]->first->place,
		    options.patience);
		give_up();
	}
}

/* A unit is due when the first of its entries was submitted that has a time. */
static void set_times(const u64 *times, const u32 *unit_of)
{
	for (u32 place = trace.places; place-- > 0;) {
		if (times[place] != NO_TIME)
			units[unit_of[place]].due = times[place];
	}
}

void play_in_flight(const struct waits *waits, const u64 *times)
{
	u32 *unit_of = make_units();

	turn_around(waits, unit_of);
	if (times)
		set_times(times, unit_of);
	free(unit_of);
	ready = allocate(unit_count * sizeof *ready);
	flying = allocate(options.in_flight * sizeof *flying);
	quiet = allocate(unit_count * sizeof *quiet);
	filled = allocate(trace.ring_count * sizeof *filled);
	reserved = allocate(trace.ring_count * sizeof *reserved);
	count_uses();
	make_pieces(options.in_flight);
	for (u32 number = 0; number < unit_count; number++) {
		if (!units[number].waiting)
			add_ready(number);
	}
	while (finished < unit_count) {
		start_some();
		submit_filled();
		wait_for_some();
		use_quiet();
		go_on();
	}
}
