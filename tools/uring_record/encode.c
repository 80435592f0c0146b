#include "encode.h"
#include "aside.h"
#include "given.h"
#include "start.h"

#include <stdlib.h>
#include <string.h>

/* Bytes are given to the file when there are so many. Version 3 cuts a record where a chain ends
 * behind so many bytes. A write of so many zeros has a short form there. */
enum { BUFFER = 1 << 20, ENOUGH = 1 << 22, LEAST_ZEROS = 64, MOST_LENGTHS = 1024 };
/* More bytes no record of version 3 has, and no entry more beside its side bytes. */
#define MOST_OF_RECORD UINT32_MAX
enum { BESIDE = 69, RECORD_HEAD = 7 };
enum form { FORM_STORED = 0, FORM_ZEROS = 1, FORM_GIVEN = 2, FORM_REFUSED = 3 };

static struct sink file = { .descriptor = -1 };
static bool is_counting;
static u64 written;

void open_trace(void)
{
	open_sink(&file, options.trace);
}

bool is_trace_open(void)
{
	return file.descriptor >= 0;
}

struct sink *trace_file(void)
{
	return &file;
}

u64 bytes_put(void)
{
	return written;
}

void count_from(u64 bytes)
{
	written = bytes;
}

void count_only(bool is_on)
{
	is_counting = is_on;
}

void put(const void *bytes, u64 length)
{
	written += length;
	if (file.descriptor < 0 || is_counting)
		return;
	if (file.used + length > BUFFER)
		flush_sink(&file);
	put_into(&file, bytes, length);
}

void put_zeros(u64 length)
{
	static const u8 zeros[4096];

	for (u64 left = length; left; left -= min64(left, sizeof zeros))
		put(zeros, min64(left, sizeof zeros));
}

void put_number(u64 number, unsigned bytes)
{
	u8 spelled[8];

	for (unsigned at = 0; at < bytes; at++)
		spelled[at] = (u8)(number >> (8 * at));
	put(spelled, bytes);
}

void put_item(const struct item *item)
{
	u64 length = strlen(item->path);

	put_number(item->kind, 1);
	put_number(length, 2);
	put(item->path, length);
	if (item->kind == ITEM_NAME) {
		put_number(item->of, 4);
	} else if (item->kind == ITEM_FILE) {
		put_number(item->size, 8);
		if (options.format == 3) {
			put_file_ranges(item);
			return;
		}
		put_number(item->stored, 4);
		put(item->bytes, item->stored);
	}
}

void put_description(const struct description *description)
{
	put_number(description->node, 4);
	put_number(description->access, 1);
	put_number(description->append, 1);
	put_number(description->position, 8);
}

/* How many side bytes stand before those that are written: all where none are. */
static u32 before_written(u8 opcode, u32 vectors, u32 length)
{
	if (opcode == OP_WRITE)
		return 0;
	return opcode == OP_WRITEV && vectors <= MOST_LENGTHS ? (u32)min64(8 * vectors, length)
							      : length;
}

/* Whether bytes that the program wrote have the short form of version 3. With --no-data all have.
 */
static bool is_short(const u8 *bytes, u64 length)
{
	if (options.format != 3)
		return false;
	return options.no_data ? length > 0 : length >= LEAST_ZEROS && is_zero(bytes, length);
}

/* Bytes that the program wrote. All of them are put here: with --no-data as zeros. */
static void put_written(const u8 *bytes, u64 length)
{
	if (options.no_data)
		put_zeros(length);
	else
		put(bytes, length);
}

/* An entry whose result the trace gives. */
static void put_given(const struct entry *entry)
{
	put(&entry->sqe, sizeof entry->sqe);
	put_number(entry->is_refused ? FORM_REFUSED : FORM_GIVEN, 1);
	put_number((u32)given_result(entry), 4);
	if (!entry->is_refused)
		put_number(entry->fails, 1);
}

/* An entry with its side bytes. */
static void put_entry(const struct entry *entry)
{
	struct io_uring_sqe sqe = entry->sqe;
	u8 *changed = NULL;
	u32 length = entry->side_length;

	if (is_given(entry)) {
		put_given(entry);
		return;
	}
	if (entry->is_aside)
		aside_form(entry, &sqe, &changed, &length);
	const u8 *side = changed ? changed : entry->side;
	u32 before = before_written(sqe.opcode, sqe.len, length);
	bool has_zeros = is_short(side + before, length - before);
	put(&sqe, sizeof sqe);
	if (options.format == 3)
		put_number(has_zeros ? FORM_ZEROS : FORM_STORED, 1);
	put_number(length, 4);
	put(side, before);
	if (!has_zeros)
		put_written(side + before, length - before);
	free(changed);
}

/* Where the part of a record ends that begins at an entry: behind a chain with which it has enough
 * bytes. Versions 1 and 2 have no parts. */
static u32 end_of_part(const struct record *record, u32 from)
{
	u64 bytes = 0;

	for (u32 at = from; options.format == 3 && at < record->count; at++) {
		const struct entry *entry = &record->entries[at];
		bytes += BESIDE + (u64)entry->side_length;
		if (bytes >= ENOUGH && !goes_on(&entry->sqe))
			return at + 1;
	}
	return record->count;
}

bool is_too_long(const struct record *record)
{
	for (u32 from = 0, to; from < record->count; from = to) {
		u64 bytes = RECORD_HEAD;
		to = end_of_part(record, from);
		for (u32 at = from; at < to; at++)
			bytes += BESIDE + (u64)record->entries[at].side_length;
		if (bytes > MOST_OF_RECORD)
			return true;
	}
	return false;
}

/* The entries of a call. */
static void put_entries(const struct record *record)
{
	for (u32 from = 0, to; from < record->count; from = to) {
		to = end_of_part(record, from);
		put_number(RECORD_ENTRIES, 1);
		put_number(record->ring, options.format == 3 ? 4 : 1);
		put_number(to - from, 2);
		for (u32 at = from; at < to; at++)
			put_entry(&record->entries[at]);
	}
}

/* Bytes that come into a buffer. */
static void put_fill(const struct record *record)
{
	bool has_zeros = is_short(record->bytes, record->length);

	put_number(RECORD_FILL, 1);
	put_number(record->ring, options.format == 3 ? 4 : 1);
	put_number(record->buffer, 2);
	if (options.format == 3)
		put_number(has_zeros ? FORM_ZEROS : FORM_STORED, 1);
	put_number(record->offset, 4);
	put_number(record->length, 4);
	if (!has_zeros)
		put_written(record->bytes, record->length);
}

void put_record(const struct record *record)
{
	switch (record->kind) {
	case RECORD_ENTRIES:
		put_entries(record);
		break;
	case RECORD_FILL:
		put_fill(record);
		break;
	case RECORD_SET:
	case RECORD_SEEK:
	case RECORD_RING:
		put_number(record->kind, 1);
		put(record->bytes, record->length);
		break;
	case RECORD_RING_ENDS:
		put_number(RECORD_RING_ENDS, 1);
		put_number(record->ring, 4);
		break;
	}
}

u64 size_of_record(const struct record *record)
{
	u64 before = written;

	is_counting = true;
	put_record(record);
	is_counting = false;
	u64 size = written - before;
	written = before;
	return size;
}
