#include "meetings.h"
#include "aside.h"
#include "memory.h"
#include "notes.h"
#include "spans.h"

#include <fcntl.h>
#include <stdlib.h>
#include <string.h>

/* Whether two descriptions are of one file, as far as that is known. */
static bool is_one_file(const struct opened *one, const struct opened *other)
{
	if (one->inode && other->inode)
		return one->inode == other->inode && one->device == other->device;
	return one->name && other->name && !strcmp(one->name, other->name);
}

/* Whether a write may change where a read behind the end of the file stops. */
static bool moves_end(const struct touch *write, const struct touch *read)
{
	u64 size = size_now(write->file);

	return write->extends && write->to > size && read->to > min64(size, write->from);
}

/* Whether two accesses to files, one of them a write, depend on their order. */
static bool files_meet(const struct touch *one, const struct touch *other)
{
	if (!is_one_file(one->file, other->file))
		return false;
	if (overlap(one->from, one->to, other->from, other->to))
		return true;
	if (one->writes && other->writes)
		return false;
	return one->writes ? moves_end(one, other) : moves_end(other, one);
}

/* Whether a path is another, or above it. */
static bool is_above(const struct touch *upper, const struct touch *lower)
{
	return upper->length <= lower->length && !memcmp(upper->path, lower->path, upper->length) &&
	       (upper->length == lower->length || lower->path[upper->length] == '/');
}

/* Whether a touch is that of an open that gets a number of the table. */
static bool opens_any(const struct touch *touch)
{
	return touch->kind == TOUCH_TABLE && touch->from == ANY_NUMBER;
}

/* Whether two uses of the table, one of them an open or a close, depend on their order. */
static bool numbers_meet(const struct touch *one, const struct touch *other)
{
	if (opens_any(one) || opens_any(other))
		return one->writes && other->writes;
	return one->from == other->from;
}

/* Whether two touches depend on their order. */
static bool touches_meet(const struct touch *earlier, const struct touch *later, bool is_deferred)
{
	bool is_use = !earlier->writes && !is_deferred;

	if (earlier->kind != later->kind || !(earlier->writes || later->writes))
		return false;
	switch (earlier->kind) {
	case TOUCH_FILE:
		return files_meet(earlier, later);
	case TOUCH_NAME:
		return (earlier->writes && is_above(earlier, later)) ||
		       (later->writes && is_above(later, earlier));
	case TOUCH_SLOT: /* (what uses a slot and begins at once has its file before another changes
			    it) */
		return !is_use && earlier->owner == later->owner && earlier->from == later->from;
	case TOUCH_TABLE:
		return !is_use && numbers_meet(earlier, later);
	case TOUCH_MEMORY:
		return earlier->process == later->process &&
		       overlap(earlier->from, earlier->to, later->from, later->to);
	case TOUCH_POSITION:
		return earlier->owner == later->owner;
	}
	return false;
}

/* Whether a chain or a drain has the kernel run one behind the other. */
static bool is_ordered(const struct flight *earlier, const struct flight *later)
{
	return earlier->ring == later->ring &&
	       (earlier->chain == later->chain || earlier->sequence < later->barrier);
}

/* Spaces and spans */

/* The numbers of the table that are not known yet stand behind all others. */
enum { WHOLE, PARTS, KIND_NAME_OF_FILE = 16 };
#define NOT_KNOWN (1ULL << 32)

/* Flights by the names that they make, move or take away: those that are decided, and those that
 * are not. */
static struct span *naming[2];

/* Reads in flight by the memory that they fill: plain ones, and those into registered buffers. */
static struct span *filling[2];

/* A number for a kind and what it is of; another one has the same by chance alone, which does no
 * harm. */
static u64 space_of(unsigned kind, u64 one, u64 other)
{
	u64 mixed = one * 0x9e3779b97f4a7c15ULL + kind;

	mixed = (mixed ^ mixed >> 29) + other;
	mixed *= 0xbf58476d1ce4e5b9ULL;
	return mixed ^ mixed >> 32;
}

/* A number for a text. */
static u64 number_of(const void *text, u64 length)
{
	const u8 *bytes = text;
	u64 number = 0xcbf29ce484222325ULL;

	for (u64 at = 0; at < length; at++)
		number = (number ^ bytes[at]) * 0x100000001b3ULL;
	return number;
}

/* The space of a file by its inode, or by its name; 0 where that is not known. */
static u64 space_of_file(const struct opened *file, bool is_by_name)
{
	if (is_by_name)
		return file->name ? space_of(KIND_NAME_OF_FILE,
					     number_of(file->name, strlen(file->name)), 0)
				  : 0;
	return file->inode ? space_of(TOUCH_FILE, file->device, file->inode) : 0;
}

/* The space of a touch that has one alone. */
static u64 space_of_touch(const struct touch *touch)
{
	switch (touch->kind) {
	case TOUCH_MEMORY:
		return space_of(TOUCH_MEMORY, (u64)touch->process, 0);
	case TOUCH_TABLE:
		return space_of(TOUCH_TABLE, 0, 0);
	default:
		return space_of(touch->kind, (u64)(uintptr_t)touch->owner, 0);
	}
}

/* The range of a touch in its space, at least one long. */
static void range_of(const struct touch *touch, u64 *from, u64 *to)
{
	*from = touch->from;
	*to = touch->to;
	if (touch->kind == TOUCH_POSITION)
		*from = 0;
	if (opens_any(touch))
		*from = NOT_KNOWN;
	if (touch->kind == TOUCH_SLOT || touch->kind == TOUCH_TABLE ||
	    touch->kind == TOUCH_POSITION || *to <= *from)
		*to = *from + (*from < UINT64_MAX);
	if (*to == *from)
		--*from;
}

/* Adds a span of a flight to a tree. */
static void put_span(struct span **root, struct flight *flight, const struct touch *touch,
		     u64 space, u64 from, u64 to)
{
	struct span *span = allocate(sizeof *span);

	*span = (struct span){ .space = space, .from = from, .to = to };
	span->flight = flight;
	span->touch = touch;
	span->next_of_flight = flight->spans;
	flight->spans = span;
	add_span(root, span);
}

/* Adds the spans of a name: its own, and one of each directory above it. */
static void put_name(struct span **root, struct flight *flight, const struct touch *touch)
{
	put_span(root, flight, touch,
		 space_of(TOUCH_NAME, number_of(touch->path, touch->length), 0), WHOLE, WHOLE + 1);
	for (u32 length = 1; length < touch->length; length++) {
		if (touch->path[length] == '/')
			put_span(root, flight, touch,
				 space_of(TOUCH_NAME, number_of(touch->path, length), 0), PARTS,
				 PARTS + 1);
	}
}

/* Adds the spans of a touch. */
static void put_touch(struct span **root, struct flight *flight, const struct touch *touch)
{
	u64 from, to;

	range_of(touch, &from, &to);
	if (touch->kind == TOUCH_NAME) {
		put_name(root, flight, touch);
	} else if (touch->kind == TOUCH_FILE) {
		for (unsigned by_name = 0; by_name < 2; by_name++) {
			u64 space = space_of_file(touch->file, by_name);
			if (space)
				put_span(root, flight, touch, space, from, to);
		}
	} else {
		put_span(root, flight, touch, space_of_touch(touch), from, to);
	}
}

/* Puts the spans of a flight into the trees of its ring. */
static void put_flight(struct flight *flight)
{
	for (u32 at = 0; at < flight->touch_count; at++) {
		const struct touch *touch = &flight->touches[at];
		put_touch(&flight->ring->spans[0][touch->writes], flight, touch);
	}
}

void forget_spans(struct flight *flight)
{
	struct ring *ring = flight->ring;

	if (ring->unsorted == flight)
		ring->unsorted = flight->next;
	if (ring->behind == flight)
		ring->behind = flight->next;
	while (flight->spans) {
		struct span *span = flight->spans;
		flight->spans = span->next_of_flight;
		remove_span(span);
		free(span);
	}
}

void keep_spans(struct flight *flight)
{
	struct ring *ring = flight->ring;
	u8 opcode = flight->entry->sqe.opcode;

	/* (a chain comes into the trees once it is whole: its members do not meet) */
	if (!ring->unsorted)
		ring->unsorted = flight;
	if (!ring->behind)
		ring->behind = flight;
	for (u32 at = 0; at < flight->touch_count; at++) {
		const struct touch *touch = &flight->touches[at];
		u64 from, to;
		range_of(touch, &from, &to);
		if (touch->kind == TOUCH_MEMORY && fills_memory(opcode))
			put_span(&filling[is_fixed(opcode)], flight, touch, space_of_touch(touch),
				 from, to);
	}
	bool is_untold = flight->entry->is_aside || flight->entry->outside == OUTSIDE_OPCODE;
	for (u32 at = 0; at < flight->touch_count; at++) {
		const struct touch *touch = &flight->touches[at];
		if (touch->kind == TOUCH_NAME && touch->writes)
			put_name(&naming[is_untold], flight, touch);
	}
}

/* Finds a flight whose place is before what comes into the trace now. */
static bool look_at_naming(struct search *search, const struct span *span)
{
	const struct record *record = span->flight->entry->record;

	if (!record || record->is_added) {
		search->is_met = true;
		search->from = UINT64_MAX; /* (one is enough) */
	}
	return false;
}

/* Finds any one. */
static bool look_at_any(struct search *search, const struct span *span)
{
	(void)span;
	search->is_met = true;
	search->from = UINT64_MAX;
	return false;
}

/* Searches for what changes a name in flight, or one above it, and maybe one below. */
static void search_naming(bool is_untold, struct search *search, const u8 *path, u64 length,
			  bool is_below)
{
	for (u64 at = 1; naming[is_untold] && at <= length && !search->is_met; at++) {
		if (at < length && path[at] != '/')
			continue;
		search->space = space_of(TOUCH_NAME, number_of(path, at), 0);
		search->from = WHOLE;
		search->to = at == length && is_below ? PARTS + 1 : WHOLE + 1;
		search_spans(naming[is_untold], search);
	}
}

bool rests_on_given(const struct flight *flight)
{
	struct search search = { .look = look_at_any };

	if (flight->walks && count_link_changes_in_flight())
		return true;
	for (u32 at = 0; at < flight->touch_count && !search.is_met; at++) {
		const struct touch *touch = &flight->touches[at];
		if (touch->kind == TOUCH_NAME)
			search_naming(true, &search, touch->path, touch->length, touch->writes);
	}
	return search.is_met;
}

/* A flight changes a link: what goes through links, and is in flight, may have gone another way. */
static void meet_walks(const struct flight *flight)
{
	for (u32 at = 0; count_walks_in_flight() && at < ring_count; at++) {
		for (struct flight *it = rings[at]->first; it; it = it->next) {
			if (it->walks && !is_ordered(it, flight))
				put_outside(it->entry, OUTSIDE_ORDER);
		}
	}
}

char *name_in_replay(int descriptor)
{
	char *name = name_of(descriptor);

	u32 length = name ? (u32)strlen(name) : 0;
	struct search search = { .look = look_at_naming };

	for (unsigned is_untold = 0; name && is_untold < 2; is_untold++)
		search_naming(is_untold, &search, (const u8 *)name, length, false);
	if (!name || (doubted_by(name, length) == INSIDE && !search.is_met))
		return name;
	free(name);
	return NULL;
}

/* Sorts the flights of a ring that are not in its trees. */
static void sort_flights(struct ring *ring)
{
	for (struct flight *it = ring->unsorted; it; it = it->next)
		put_flight(it);
	ring->unsorted = NULL;
}

/* Sorts the flights of the ring of a flight that are no members of its chain, and puts aside those
 * that end before it begins: later ones of the ring do not meet them either. */
static void sort_own(const struct flight *flight)
{
	struct ring *ring = flight->ring;

	if (ring->unsorted && ring->unsorted->chain != flight->chain)
		sort_flights(ring);
	for (; ring->behind && ring->behind->sequence < flight->barrier;
	     ring->behind = ring->behind->next) {
		for (struct span *it = ring->behind->spans; it; it = it->next_of_flight) {
			bool writes = it->touch->writes;
			if (it->root != &ring->spans[0][writes])
				continue;
			remove_span(it);
			add_span(&ring->spans[1][writes], it);
		}
	}
}

/* Marks an entry with a name of which it is not told what is there. What it changes is in doubt
 * from then on, too, and what it opens is not known. */
static void look_at_names(struct flight *flight)
{
	for (u32 at = 0; doubt_count && at < flight->touch_count; at++) {
		const struct touch *touch = &flight->touches[at];
		enum outside why = touch->kind == TOUCH_NAME
					   ? doubted_by((const char *)touch->path, touch->length)
					   : INSIDE;
		if (why == INSIDE)
			continue;
		if (flight->asked_for.opcode == IORING_OP_OPENAT)
			put_aside(flight->entry, why);
		else
			put_outside(flight->entry, why);
		doubt_touched(flight, why);
		note("a name of which it is not told what is there", flight->entry);
		return;
	}
}

/* Marks a read of a file whose bytes are not told. */
static void look_at_settled(struct flight *flight)
{
	const struct opened *file = flight->used;

	look_at_names(flight);
	if (!file || !fills_memory(flight->entry->sqe.opcode))
		return;
	enum outside why = unsettled_by(file->device, file->inode);
	if (why == INSIDE)
		return;
	put_outside(flight->entry, why);
	note("a read of a file whose bytes are not told from some earlier place on", flight->entry);
}

static const char *const meeting_notes[] = {
	[TOUCH_FILE] = "requests in flight at once touch the same bytes of a file",
	[TOUCH_NAME] = "requests in flight at once touch the same name",
	[TOUCH_SLOT] = "requests in flight at once touch the same slot",
	[TOUCH_TABLE] = "requests in flight at once touch the descriptor table",
	[TOUCH_MEMORY] = "requests in flight at once touch the same memory",
	[TOUCH_POSITION] = "requests in flight at once move the position of one description",
};

/* A flight that is compared with others, one touch of it, and whether a pair is noted. */
struct meeting {
	struct flight *flight;
	const struct touch *touch;
	const struct touch *sized; /* the touch whose file's size is known */
	u64 size;
	bool is_noted;
};

/* Whether two flights change one name, and what it is then depends on which comes first. */
static bool make_one_name(const struct flight *one, const struct touch *touch,
			  const struct flight *other, const struct touch *other_touch)
{
	bool is_one = touch->kind == TOUCH_NAME && touch->length == other_touch->length;
	bool are_opens = one->asked_for.opcode == IORING_OP_OPENAT &&
			 other->asked_for.opcode == IORING_OP_OPENAT;

	return is_one && touch->writes && other_touch->writes && !are_opens;
}

/* What follows where two touches meet. */
static void have_met(struct meeting *meeting, struct flight *earlier, const struct touch *touch)
{
	if (opens_any(touch) || opens_any(meeting->touch)) {
		/* (a close closes its number, whatever an open beside it gets) */
		if (opens_any(touch))
			meets_in_table(earlier);
		if (opens_any(meeting->touch))
			meets_in_table(meeting->flight);
	} else {
		put_outside(earlier->entry, OUTSIDE_ORDER);
		put_outside(meeting->flight->entry, OUTSIDE_ORDER);
	}
	if (touch->kind == TOUCH_FILE && touch->writes && meeting->touch->writes)
		unsettle(touch->file, OUTSIDE_ORDER);
	if (touch->kind == TOUCH_NAME)
		earlier->meets_name = meeting->flight->meets_name = true;
	if (make_one_name(earlier, touch, meeting->flight, meeting->touch))
		earlier->meets_maker = meeting->flight->meets_maker = true;
	if (!meeting->is_noted)
		note_pair(meeting_notes[touch->kind], earlier->entry, meeting->flight->entry);
	meeting->is_noted = true;
}

/* Looks at a span that the touch of a flight may meet. */
static bool look_at_span(struct search *search, const struct span *span)
{
	struct meeting *meeting = search->context;
	struct flight *earlier = span->flight;
	bool is_name = span->touch->kind == TOUCH_NAME;

	if (!is_ordered(earlier, meeting->flight) &&
	    touches_meet(span->touch, meeting->touch, earlier->is_deferred)) {
		have_met(meeting, earlier, span->touch);
		search->is_met = true;
		if (opens_any(meeting->touch) && !opens_any(span->touch))
			search->from = UINT64_MAX; /* (no close is marked: one is enough) */
	}
	if (opens_any(span->touch))
		return earlier->meets_table;
	return earlier->entry->outside != INSIDE && earlier->entry->outside != OUTSIDE_LATE &&
	       (!is_name || earlier->meets_name);
}

/* Searches a range in the trees of a ring. */
static void search_ring(struct meeting *meeting, struct ring *ring, u64 space, u64 from, u64 to,
			bool in_reads, bool in_writes)
{
	for (unsigned old = 0; old < (ring == meeting->flight->ring ? 1U : 2U); old++) {
		for (unsigned writes = !in_reads; writes < (in_writes ? 2U : 1U); writes++) {
			struct search search = { .space = space, .from = from, .to = to };
			search.look = look_at_span;
			search.context = meeting;
			search_spans(ring->spans[old][writes], &search);
		}
	}
}

/* Searches for a name: those that are the same, above it, and below it. */
static void search_name(struct meeting *meeting, struct ring *ring)
{
	const struct touch *touch = meeting->touch;
	u64 space = space_of(TOUCH_NAME, number_of(touch->path, touch->length), 0);

	search_ring(meeting, ring, space, WHOLE, WHOLE + 1, touch->writes, true);
	if (touch->writes)
		search_ring(meeting, ring, space, PARTS, PARTS + 1, true, true);
	for (u32 length = 1; length < touch->length; length++) {
		if (touch->path[length] == '/')
			search_ring(meeting, ring,
				    space_of(TOUCH_NAME, number_of(touch->path, length), 0), WHOLE,
				    WHOLE + 1, false, true);
	}
}

/* Searches for a range of a file. Behind its end, where a read stops depends on each write there.
 */
static void search_file(struct meeting *meeting, struct ring *ring)
{
	const struct touch *touch = meeting->touch;
	u64 from, to, size = meeting->size;

	if (meeting->sized != touch)
		size = meeting->size = size_now(touch->file);
	meeting->sized = touch;
	range_of(touch, &from, &to);
	u64 start = touch->to > size ? min64(from, size) : from,
	    end = touch->to > size ? UINT64_MAX : to;
	for (unsigned by_name = 0; by_name < 2; by_name++) {
		u64 space = space_of_file(touch->file, by_name);
		if (!space)
			continue;
		search_ring(meeting, ring, space, touch->writes ? from : start,
			    touch->writes ? to : end, false, true);
		if (touch->writes)
			search_ring(meeting, ring, space, start, end, true, false);
	}
}

/* Searches for a slot, a number, memory or a position. */
static void search_plain(struct meeting *meeting, struct ring *ring)
{
	const struct touch *touch = meeting->touch;
	u64 space = space_of_touch(touch), from, to;
	bool is_any = opens_any(touch);

	range_of(touch, &from, &to);
	search_ring(meeting, ring, space, from, to, touch->writes && !is_any, true);
	if (is_any && !meeting->flight->meets_table)
		search_ring(meeting, ring, space, 0, NOT_KNOWN, false, true);
	if (touch->kind == TOUCH_TABLE && touch->writes && !is_any)
		search_ring(meeting, ring, space, NOT_KNOWN, NOT_KNOWN + 1, false, true);
}

/* Compares a flight with those of a ring. */
static void meet_ring(struct meeting *meeting, struct ring *ring)
{
	const struct flight *flight = meeting->flight;

	if (ring != flight->ring)
		sort_flights(ring);
	for (u32 at = 0; at < flight->touch_count; at++) {
		const struct touch *touch = meeting->touch = &flight->touches[at];
		if (touch->kind == TOUCH_NAME)
			search_name(meeting, ring);
		else if (touch->kind == TOUCH_FILE)
			search_file(meeting, ring);
		else
			search_plain(meeting, ring);
	}
}

/* Searches the reads in flight for ones that fill memory which a flight touches: those into
 * registered buffers, and the others where these are asked for, too. */
static void search_touched_memory(const struct flight *flight, struct search *search,
				  bool has_plain)
{
	for (u32 at = 0; at < flight->touch_count && !search->is_met; at++) {
		const struct touch *touch = &flight->touches[at];
		if (touch->kind != TOUCH_MEMORY || touch->from >= touch->to)
			continue;
		search->space = space_of_touch(touch);
		search->from = touch->from;
		search->to = touch->to;
		search_spans(filling[0], search);
		if (has_plain)
			search_spans(filling[1], search);
	}
}

/* Finds a read that fills memory. */
static bool look_at_filling(struct search *search, const struct span *span)
{
	(void)span;
	search->is_met = true;
	return true;
}

/* Whether a write takes bytes that a read in flight puts there, and the replay does not. */
static bool takes_late(const struct flight *flight)
{
	u8 opcode = flight->entry->sqe.opcode;
	struct search search = { .look = look_at_filling };

	if (!moves_bytes(opcode) || reads_bytes(opcode))
		return false;
	search_touched_memory(flight, &search, !is_fixed(opcode));
	return search.is_met;
}

/* Finds a read of another flight that fills memory. */
static bool look_at_other_filling(struct search *search, const struct span *span)
{
	if (span->flight == search->context)
		return span->is_closed;
	search->is_met = true;
	return true;
}

bool is_filled_by_others(struct flight *flight)
{
	struct search search = { .look = look_at_other_filling, .context = flight };

	search_touched_memory(flight, &search, true);
	return search.is_met;
}

/* Finds a write of another flight. */
static bool look_at_other_writing(struct search *search, const struct span *span)
{
	search->is_met |= span->flight != search->context;
	return span->is_closed;
}

/* Searches a range of a space in what the flights of a ring write. */
static void search_writing(struct ring *ring, struct search *search)
{
	sort_flights(ring);
	for (unsigned old = 0; old < 2 && !search->is_met; old++)
		search_spans(ring->spans[old][1], search);
}

bool is_written_by_others(struct flight *flight)
{
	struct search search = { .look = look_at_other_writing, .context = flight };

	sort_flights(flight->ring);
	for (const struct span *it = flight->spans; it && !search.is_met; it = it->next_of_flight) {
		if (it->touch->kind != TOUCH_FILE || !it->touch->writes)
			continue;
		search.space = it->space;
		search.from = it->from;
		search.to = it->to;
		search_writing(call_ring(), &search);
		for (u32 at = 0; at < ring_count && !search.is_met; at++)
			search_writing(rings[at], &search);
	}
	return search.is_met;
}

void search_fillings(pid_t process, struct search *search)
{
	const struct touch touch = { .kind = TOUCH_MEMORY, .process = process };

	search->space = space_of_touch(&touch);
	search_spans(filling[1], search);
}

void meet_others(struct flight *flight)
{
	struct meeting meeting = { .flight = flight };

	if (flight->changes_link)
		meet_walks(flight);
	if (!flight->touch_count)
		return;
	sort_own(flight);
	for (u32 at = 0; at < ring_count; at++) {
		if (rings[at]->first)
			meet_ring(&meeting, rings[at]);
	}
	if (call_ring()->first)
		meet_ring(&meeting, call_ring());
	look_at_settled(flight);
	flight->is_late = takes_late(flight);
	if (flight->is_late)
		put_outside(flight->entry, OUTSIDE_LATE);
}
