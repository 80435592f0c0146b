#include "trace.h"
#include "entry.h"
#include "parts.h"
#include "records.h"
#include "text.h"
#include "uring.h"

#include <stdlib.h>
#include <string.h>

struct trace trace;

/* Of versions 1 and 2. */
enum {
	MOST_ITEMS = 65535,
	MOST_RINGS = 64,
	MOST_REGISTERED = 1024,
	MOST_RECORDS = 1 << 20,
	MOST_PLACES = 1 << 20,
};

/* The numbers of items by their paths: 0 is a free place. */
static u32 *by_path, path_places;

/* The place of a path among those of items: that of an item which has it, or a free one. */
static u32 *place_of(const char *path, size_t length)
{
	u64 hash = 0xcbf29ce484222325ULL;

	for (size_t at = 0; at < length; at++)
		hash = (hash ^ (u8)path[at]) * 0x100000001b3ULL;
	for (u32 at = (u32)(hash ^ hash >> 32);; at++) {
		u32 *place = &by_path[at & (path_places - 1)];
		const char *there = *place ? trace.items[*place].path : NULL;
		if (!there || (!strncmp(there, path, length) && !there[length]))
			return place;
	}
}

static void make_places(u64 count)
{
	for (path_places = 64; path_places < 2 * count;)
		path_places *= 2;
	by_path = allocate(path_places * sizeof *by_path);
}

/* Whether the parent of a path is the root, or a directory that is there. */
static bool has_parent(const char *path)
{
	size_t length = (size_t)(strrchr(path, '/') - path);
	u32 parent = length ? *place_of(path, length) : 0;

	return !length || (parent && trace.items[parent].kind == ITEM_DIRECTORY);
}

static void take_path(struct item *item)
{
	u32 length = (u32)take_number(2);
	u64 at = text_at();
	const u8 *path = take(length);
	char *copy = copy_bytes(path, length);

	item->path = copy;
	if (!length || length > 4095 || path[0] != '/' || strlen(copy) != length)
		refuse("Path", at);
	/* Nothing may lead out of the directory. */
	for (const char *name = copy; *name == '/';) {
		const char *end = strchr(name + 1, '/');
		size_t size = end ? (size_t)(end - name - 1) : strlen(name + 1);
		if (!size || size > 255 || (size == 1 && name[1] == '.') ||
		    (size == 2 && name[1] == '.' && name[2] == '.'))
			refuse("Path", at);
		name += size + 1;
	}
	if (!has_parent(copy))
		refuse("NoParent", at);
	u32 *place = place_of(copy, length);
	if (*place)
		refuse("Exists", at);
	*place = (u32)(item - trace.items);
}

/* The first bytes of a file are one range. */
static void take_stored(struct item *item)
{
	u32 stored = take_limited(4, item->size, "Limit");

	item->range_count = stored ? 1 : 0;
	item->ranges = allocate(sizeof *item->ranges);
	*item->ranges = (struct range){ 0, stored, take(stored) };
}

static void take_item(u32 number)
{
	struct item *item = &trace.items[number];

	item->kind = (u8)take_between(1, ITEM_DIRECTORY, ITEM_NAME, "Limit");
	take_path(item);
	if (item->kind == ITEM_FILE) {
		item->size = take_between(8, 0, GREATEST_SIZE, "Limit");
		if (has_ring_records())
			take_ranges(item);
		else
			take_stored(item);
	}
	if (item->kind == ITEM_NAME) {
		item->of = (u32)take_between(4, 1, number - 1, "Reference");
		if (trace.items[item->of].kind != ITEM_FILE)
			refuse("Reference", text_at() - 4);
	}
}

static void take_description(struct description *it)
{
	it->node = take_limited(4, trace.item_count, "Reference");
	u8 kind = it->node ? trace.items[it->node].kind : ITEM_DIRECTORY;
	if (kind == ITEM_NAME)
		refuse("Reference", text_at() - 4);
	it->access = (u8)take_limited(1, kind == ITEM_FILE ? 2 : 0, "Limit");
	it->append = (u8)take_limited(1, 1, "Limit");
	it->position = take_between(8, 0, INT64_MAX, "Limit");
}

static bool overlap(const struct buffer *one, const struct buffer *other)
{
	return one->length && other->length && one->address < other->address + other->length &&
	       other->address < one->address + one->length;
}

static void take_buffer(struct ring_of_trace *ring, u32 number)
{
	struct buffer *it = &ring->buffers[number];
	u64 at = text_at();

	it->address = take_number(8);
	it->length = take_limited(4, 1U << 30, "Limit");
	if (it->length > UINT64_MAX - it->address)
		refuse("Limit", at + 8);
	for (u32 before = 0; before < number; before++) {
		if (overlap(it, &ring->buffers[before]))
			refuse("Overlap", at);
	}
}

void take_buffers(struct ring_of_trace *ring, u32 most)
{
	ring->buffer_count = take_limited(2, most, "Limit");
	ring->buffers = allocate(ring->buffer_count * sizeof *ring->buffers);
	for (u32 at = 0; at < ring->buffer_count; at++)
		take_buffer(ring, at);
}

static void take_ring(struct ring_of_trace *ring)
{
	ring->slot_count = take_limited(2, MOST_REGISTERED, "Limit");
	ring->full = allocate(ring->slot_count * sizeof *ring->full);
	for (u32 at = 0; at < ring->slot_count; at++) {
		u32 held = take_limited(4, trace.description_count, "Reference");
		if (held)
			ring->full[ring->full_count++] =
				(struct full_slot){ at, { OF_START, 0, held - 1 } };
	}
	take_buffers(ring, MOST_REGISTERED);
}

void make_entries(struct record *record)
{
	struct ring_of_trace *ring = &trace.rings[record->ring];

	record->entries = allocate(record->count * sizeof *record->entries);
	if (record->count > ring->longest)
		ring->longest = record->count;
}

void add_entry(const struct record *record, struct entry *entry)
{
	entry->place = trace.places++;
	entry->ring = record->ring;
	if (entry->sqe[1] & FLAG_SKIP && !entry->is_given)
		trace.rings[record->ring].has_skip = true;
}

static void take_entries(struct record *record)
{
	record->count = take_limited(2, MOST_ENTRIES, "Limit");
	if (trace.places + record->count > MOST_PLACES)
		refuse("Limit", text_at() - 2);
	make_entries(record);
	for (u32 at = 0; at < record->count; at++) {
		struct entry *entry = &record->entries[at];
		entry->sqe = take(64);
		u64 from = text_at();
		entry->side_length = (u32)take_number(4);
		entry->side = take(entry->side_length);
		if (!fits(entry))
			refuse("Side", from);
		add_entry(record, entry);
	}
}

void take_part(struct record *record)
{
	const struct ring_of_trace *ring = &trace.rings[record->ring];
	u64 at = text_at();

	record->offset = (u32)take_number(4);
	record->length = (u32)take_number(4);
	if ((u64)record->offset + record->length > ring->buffers[record->buffer].length)
		refuse("Reference", at);
}

void take_number_of_buffer(struct record *record)
{
	record->buffer = (u32)take_number(2);
	if (record->buffer >= trace.rings[record->ring].buffer_count)
		refuse("Reference", text_at() - 2);
}

static void take_fill(struct record *record)
{
	if (trace.places == MOST_PLACES)
		refuse("Limit", text_at() - 2);
	take_number_of_buffer(record);
	take_part(record);
	record->bytes = take(record->length);
	trace.places++;
}

bool is_quiet_step(const struct record *record)
{
	return record->kind == RECORD_RING || record->kind == RECORD_SET ||
	       record->kind == RECORD_SEEK;
}

bool is_step(const struct record *record)
{
	return record->kind == RECORD_FILL || is_quiet_step(record);
}

static void number_places(void)
{
	trace.by_place = allocate(trace.places * sizeof(struct entry *));
	trace.record_at = allocate(trace.places * sizeof(struct record *));
	for (u32 at = 0; at < trace.record_count; at++) {
		struct record *record = &trace.records[at];
		if (is_step(record))
			trace.record_at[record->place] = record;
		for (u32 in = 0; in < record->count; in++)
			trace.by_place[record->place + in] = &record->entries[in];
	}
}

u32 ring_of(u32 place)
{
	const struct record *record = trace.record_at[place];

	if (!record)
		return trace.by_place[place]->ring;
	return record->call ? NO_RING : record->ring;
}

const struct holder *holder_at(u32 place, u32 at)
{
	const struct record *record = trace.record_at[place];

	if (!record || record->kind == RECORD_FILL)
		return NULL;
	if (record->kind == RECORD_RING) {
		const struct ring_of_trace *ring = &trace.rings[record->ring];
		return at < ring->full_count ? &ring->full[at].source : NULL;
	}
	if (at && record->call->content != CONTENT_COPY)
		return NULL;
	return at > 1 ? NULL : at ? &record->call->source : &record->call->file;
}

static void take_record(struct record *record)
{
	record->kind = (u8)take_between(1, RECORD_ENTRIES, RECORD_FILL, "Limit");
	record->ring = (u32)take_number(1);
	if (record->ring >= trace.ring_count)
		refuse("Reference", text_at() - 1);
	record->place = trace.places;
	if (record->kind == RECORD_ENTRIES)
		take_entries(record);
	else
		take_fill(record);
}

static void take_header(void)
{
	trace.item_count = take_limited(4, MOST_ITEMS, "Limit");
	trace.description_count = take_limited(4, MOST_ITEMS, "Limit");
	trace.ring_count = take_limited(4, MOST_RINGS, "Limit");
	trace.record_count = take_limited(4, MOST_RECORDS, "Limit");
	trace.table_size = take_limited(4, trace.version == 1 ? 0 : 1024, "Limit");
}

static void take_items(void)
{
	/* The shortest has five bytes, so that there are no more however many are told. */
	u64 most = min64(trace.item_count, text_left() / 5 + 1);

	trace.items = allocate((most + 1) * sizeof *trace.items);
	make_places(most);
	for (u32 at = 1; at <= trace.item_count; at++)
		take_item(at);
	free(by_path);
	trace.descriptions = allocate(trace.description_count * sizeof *trace.descriptions);
	for (u32 at = 0; at < trace.description_count; at++)
		take_description(&trace.descriptions[at]);
}

/* What stands behind the items and descriptions in versions 1 and 2. */
static void take_rest(void)
{
	trace.table = allocate(trace.table_size * sizeof *trace.table);
	for (u32 at = 0; at < trace.table_size; at++)
		trace.table[at] = take_limited(4, trace.description_count, "Reference");
	trace.rings = allocate(trace.ring_count * sizeof *trace.rings);
	for (u32 at = 0; at < trace.ring_count; at++)
		take_ring(&trace.rings[at]);
	trace.records = allocate(trace.record_count * sizeof *trace.records);
	for (u32 at = 0; at < trace.record_count; at++)
		take_record(&trace.records[at]);
}

bool has_ring_records(void)
{
	return trace.version == 3;
}

void read_trace(const u8 *bytes, u64 length)
{
	u32 full = 0;

	open_text(bytes, length);
	if (length > MOST_BYTES)
		refuse("Limit", MOST_BYTES);
	if (memcmp(take(8), "URINGTRC", 8))
		refuse("Magic", 0);
	trace.version = (u32)take_between(4, 1, 3, "Version");
	if (has_ring_records())
		full = take_records_header();
	else
		take_header();
	take_items();
	if (has_ring_records())
		take_records(full);
	else
		take_rest();
	if (text_left())
		refuse("Trailing", text_at());
	number_places();
}
