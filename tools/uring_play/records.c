#include "records.h"
#include "entry.h"
#include "parts.h"
#include "text.h"
#include "uring.h"

#include <stdlib.h>
#include <string.h>

enum {
	MOST_ITEMS = 1 << 24,
	MOST_NUMBERS = 1 << 20,
	MOST_BUFFERS = 16384,
	RECORD_END = 7,
	LEAST_REFUSAL = -4095,
};
enum form { FORM_STORED, FORM_ZEROS, FORM_GIVEN, FORM_REFUSED };
#define MOST_PLACES (1U << 31)
/* The queue of a ring that continues no other. */
#define NO_QUEUE UINT32_MAX
/* The most bytes of a record. */
#define MOST_OF_RECORD ((u64)UINT32_MAX)

static u64 ring_room, record_room;
/* Which rings have ended so far. */
static bool *is_over;
static u64 over_count, over_room;

u32 take_records_header(void)
{
	trace.item_count = take_limited(4, MOST_ITEMS, "Limit");
	trace.description_count = take_limited(4, MOST_NUMBERS, "Limit");
	trace.table_size = take_limited(4, MOST_NUMBERS, "Limit");
	u32 full = take_limited(4, trace.table_size, "Limit");
	take_limited(4, 0, "Limit");
	return full;
}

void take_ranges(struct item *item)
{
	u32 count = (u32)take_number(4);
	u64 end = 0, room = 0;

	for (; item->range_count < count; item->range_count++) {
		GROW(item->ranges, item->range_count, room);
		struct range *it = &item->ranges[item->range_count];
		it->offset = take_between(8, end, item->size, "Limit");
		it->length = (u32)take_between(4, 1, item->size - it->offset, "Limit");
		it->bytes = take(it->length);
		end = it->offset + it->length;
	}
}

/* A number of something that is there: one below an end. */
static u32 take_below(u32 end)
{
	u64 at = text_at(), number = take_number(4);

	if (number >= end)
		refuse("Reference", at);
	return (u32)number;
}

/* The next one of numbers that rise from `low` on, below an end. */
static u32 take_rising(u32 low, u32 end)
{
	u64 at = text_at(), number = take_number(4);

	if (number < low || number >= end)
		refuse("Limit", at);
	return (u32)number;
}

static void take_descriptors(u32 full)
{
	trace.table = allocate(trace.table_size * sizeof *trace.table);
	for (u32 low = 0; full; full--) {
		u32 number = take_rising(low, trace.table_size);
		trace.table[number] = take_below(trace.description_count) + 1;
		low = number + 1;
	}
}

/* The number of a ring that is there. */
static u32 take_ring_number(void)
{
	u64 at = text_at(), number = take_number(4);

	if (number >= trace.ring_count || is_over[number])
		refuse("Reference", at);
	return (u32)number;
}

/* --- Rings --------------------------------------------------------------------------------------
 */

/* What holds something, of a kind up to one. */
static void take_holder(struct holder *it, enum holder_kind most)
{
	it->kind = (u8)take_limited(1, most, "Limit");
	if (it->kind == OF_SLOT) {
		it->ring = take_ring_number();
		it->number = take_below(trace.rings[it->ring].slot_count);
		return;
	}
	it->ring = take_limited(4, 0, "Limit");
	it->number =
		take_below(it->kind == OF_DESCRIPTOR ? trace.table_size : trace.description_count);
}

/* A queue decides alone what a drained entry waits for. So it is read, and not kept: the player
 * keeps drains by the order in which it plays. */
static void take_queue(void)
{
	u64 at = text_at(), queue = take_number(4);

	if (queue != NO_QUEUE && queue >= trace.ring_count)
		refuse("Reference", at);
}

static void take_new_ring(void)
{
	struct ring_of_trace ring = { .place = trace.places };
	u32 low = 0;

	take_queue();
	ring.slot_count = take_limited(4, MOST_NUMBERS, "Limit");
	u32 count = take_limited(4, ring.slot_count, "Limit");
	ring.full = allocate(count * sizeof *ring.full);
	for (; ring.full_count < count; ring.full_count++) {
		struct full_slot *it = &ring.full[ring.full_count];
		it->slot = take_rising(low, ring.slot_count);
		low = it->slot + 1;
		take_holder(&it->source, OF_START);
	}
	take_buffers(&ring, MOST_BUFFERS);
	GROW(trace.rings, trace.ring_count, ring_room);
	GROW(is_over, over_count, over_room);
	is_over[over_count++] = false;
	trace.rings[trace.ring_count++] = ring;
}

/* --- Entries and fills --------------------------------------------------------------------------
 */

/* An entry whose side bytes are there. */
static void take_stored_entry(struct entry *entry, u64 begin)
{
	u64 at = text_at(), count = take_number(4);

	if (text_at() + count - begin > MOST_OF_RECORD)
		refuse("Limit", at);
	entry->side_length = (u32)count;
	entry->side = take(count);
	if (!fits(entry))
		refuse("Side", at);
}

/* An entry that writes zeros: of its side bytes those of its lengths alone are there. */
static void take_entry_of_zeros(struct entry *entry)
{
	u64 at = text_at(), count = take_number(4);

	entry->is_zeros = true;
	entry->side_length = (u32)min64(count, lengths_of(entry));
	entry->side = take(entry->side_length);
	if (!fits_count(entry, count))
		refuse("Side", at);
	if (trace.most_zeros < count)
		trace.most_zeros = count;
}

/* An entry whose result stands here. */
static void take_given(struct entry *entry, bool is_refused)
{
	u64 at = text_at();
	i32 result = (i32)take_number(4);

	entry->is_given = true;
	entry->given = result;
	entry->is_refused = is_refused;
	if (!is_refused)
		entry->fails = take_limited(1, 1, "Limit");
	else if (result < LEAST_REFUSAL || result > -1)
		refuse("Limit", at);
}

static void take_entry(struct entry *entry, u64 begin)
{
	u64 at;

	entry->sqe = take(64);
	at = text_at();
	bool is_write = entry->sqe[0] == OP_WRITE || entry->sqe[0] == OP_WRITEV;
	u32 form = take_limited(1, FORM_REFUSED, "Limit");
	if (form == FORM_ZEROS && !is_write)
		refuse("Limit", at);
	if (form == FORM_STORED)
		take_stored_entry(entry, begin);
	else if (form == FORM_ZEROS)
		take_entry_of_zeros(entry);
	else
		take_given(entry, form == FORM_REFUSED);
}

static void take_entries(struct record *record, u64 begin)
{
	record->ring = take_ring_number();
	record->count = take_limited(2, MOST_ENTRIES, "Limit");
	if (record->count > MOST_PLACES - trace.places)
		refuse("Limit", text_at() - 2);
	make_entries(record);
	for (u32 at = 0; at < record->count; at++) {
		take_entry(&record->entries[at], begin);
		add_entry(record, &record->entries[at]);
	}
}

static void take_fill(struct record *record)
{
	record->ring = take_ring_number();
	take_number_of_buffer(record);
	bool is_zeros = take_limited(1, 1, "Limit");
	take_part(record);
	record->bytes = is_zeros ? NULL : take(record->length);
}

/* --- Sets and seeks -----------------------------------------------------------------------------
 */

/* A path that is opened, with flags that openat takes. No such path leads out of the directory. */
static void take_opened(struct call *call)
{
	u64 at = text_at();

	call->flags = (u32)take_number(4);
	if ((call->flags & 3) == 3 || call->flags & ~KNOWN_OPEN_FLAGS ||
	    (call->flags & CREATED_DIRECTORY) == CREATED_DIRECTORY)
		refuse("Limit", at);
	call->position = take_between(8, 0, INT64_MAX, "Limit");
	u64 length = take_number(2);
	at = text_at();
	struct span path = { take(length), length };
	if (!length || length > MOST_PATH || is_odd(path) || memchr(path.bytes, 0, length))
		refuse("Path", at);
	call->path = copy_bytes(path.bytes, length);
}

static void take_call(struct record *record)
{
	struct call *call = allocate(sizeof *call);

	record->call = call;
	take_holder(&call->file, OF_DESCRIPTOR);
	if (record->kind == RECORD_SEEK) {
		call->position = take_between(8, 0, INT64_MAX, "Limit");
		return;
	}
	call->content = (u8)take_limited(1, CONTENT_TAKEN, "Limit");
	if (call->content == CONTENT_COPY)
		take_holder(&call->source, OF_DESCRIPTOR);
	if (call->content == CONTENT_PATH)
		take_opened(call);
}

/* --- Records ------------------------------------------------------------------------------------
 */

/* The kind of a record; one that there is no more room for is refused. */
static u8 take_kind(void)
{
	u64 at = text_at();
	u8 kind = (u8)take_number(1);
	bool is_kind = kind >= RECORD_ENTRIES && kind <= RECORD_END;
	bool has_place = kind >= RECORD_FILL && kind <= RECORD_RING;

	if (!is_kind || (has_place && trace.places == MOST_PLACES) ||
	    (kind == RECORD_RING && trace.ring_count == MOST_NUMBERS))
		refuse("Limit", at);
	return kind;
}

static bool take_record(struct record *record)
{
	u64 begin = text_at();

	*record = (struct record){ .kind = take_kind(), .place = trace.places };
	switch (record->kind) {
	case RECORD_ENTRIES:
		take_entries(record, begin);
		return true;
	case RECORD_FILL:
		take_fill(record);
		break;
	case RECORD_SET:
	case RECORD_SEEK:
		take_call(record);
		break;
	case RECORD_RING:
		record->ring = trace.ring_count;
		take_new_ring();
		break;
	case RECORD_RING_ENDS:
		record->ring = take_ring_number();
		is_over[record->ring] = true;
		trace.rings[record->ring].has_ended = true;
		return true;
	default:
		return false;
	}
	trace.places++;
	return true;
}

void take_records(u32 full)
{
	take_descriptors(full);
	do
		GROW(trace.records, trace.record_count, record_room);
	while (take_record(&trace.records[trace.record_count++]));
	trace.record_count--;
	free(is_over);
}
