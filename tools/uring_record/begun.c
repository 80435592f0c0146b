#include "begun.h"

#include <stdlib.h>
#include <string.h>

enum { OF_SLOT = 0, OF_DESCRIPTION = 2, OWN_QUEUE = -1 };
/* The bytes of a ring without its slots and buffers, of a full slot, and of a buffer. */
enum { RING_BYTES = 14, SLOT_BYTES = 13, BUFFER_BYTES = 12 };

void add_number(struct record *record, u64 number, u32 bytes)
{
	for (u32 at = 0; at < bytes; at++)
		record->bytes[record->length++] = (u8)(number >> (8 * at));
}

/* Whether a ring has something in a slot where it begins. */
static bool is_full(const struct ring *ring, u32 slot)
{
	return ring->slots[slot] || (ring->has_number && ring->now[slot]);
}

/* Adds what comes into a full slot: a description of the start, or what the ring had there under
 * its number before. */
static void add_slot(struct record *record, const struct ring *ring, u32 slot)
{
	u32 known = ring->slots[slot];

	add_number(record, slot, 4);
	add_number(record, known ? OF_DESCRIPTION : OF_SLOT, 1);
	add_number(record, known ? 0 : ring->number, 4);
	add_number(record, known ? known - 1 : slot, 4);
}

/* The record of a ring that begins. */
static struct record *record_of(struct ring *ring)
{
	struct record *record = new_record(ring, 0);
	u32 full = 0;

	for (u32 slot = 0; slot < ring->slot_count; slot++)
		full += is_full(ring, slot);
	record->kind = RECORD_RING;
	record->bytes = allocate(RING_BYTES + (u64)SLOT_BYTES * full +
				 (u64)BUFFER_BYTES * ring->buffer_count);
	add_number(record, ring->has_number ? ring->number : (u32)OWN_QUEUE, 4);
	add_number(record, ring->slot_count, 4);
	add_number(record, full, 4);
	for (u32 slot = 0; slot < ring->slot_count; slot++) {
		if (is_full(ring, slot))
			add_slot(record, ring, slot);
	}
	add_number(record, ring->buffer_count, 2);
	for (u32 at = 0; at < ring->buffer_count; at++) {
		add_number(record, ring->buffers[at].address, 8);
		add_number(record, ring->buffers[at].length, 4);
	}
	return record;
}

/* Adds that a ring with a number ends. */
static void add_end(struct ring *ring)
{
	struct record *record = new_record(ring, 0);

	record->kind = RECORD_RING_ENDS;
	append_record(record);
}

/* The slots and buffers of the replay's ring are those of the record now: buffers are zeros. */
static void has_begun(struct ring *ring)
{
	memset(ring->slots, 0, sizeof ring->slots);
	for (u32 at = 0; at < ring->buffer_count; at++) {
		struct buffer *buffer = &ring->buffers[at];
		if (!buffer->unknown)
			continue;
		memset(buffer->values, 0, buffer->length);
		memset(buffer->unknown, 0, buffer->length);
	}
}

void begin_ring(struct ring *ring)
{
	if (ring->is_begun)
		return;
	ring->is_begun = true;
	if (options.format != 3)
		return;
	if (trace.ring_numbers == MOST_RINGS_3)
		end_recording("the trace has 1,048,576 rings, as many as it may have");
	append_record(record_of(ring));
	if (ring->has_number)
		add_end(ring);
	ring->number = trace.ring_numbers++;
	ring->has_number = true;
	has_begun(ring);
}

void renew_ring(struct ring *ring)
{
	if (options.format != 3 || !ring->is_begun)
		return;
	ring->is_begun = false;
	memset(ring->taken, 0, sizeof ring->taken);
	ring->renewals++;
}

void end_ring(struct ring *ring)
{
	if (options.format != 3)
		return;
	if (ring->has_number)
		add_end(ring);
	ring->has_number = ring->is_begun = false;
	memset(ring->taken, 0, sizeof ring->taken);
}
