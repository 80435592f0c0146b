#include "stream.h"
#include "aside.h"
#include "encode.h"
#include "given.h"
#include "notes.h"
#include "output.h"
#include "start.h"
#include "submissions.h"
#include "sums.h"

#include <stdlib.h>
#include <string.h>
#include <unistd.h>

enum { RECORD_END = 7, SHIFTED = 1024, MANY_BEHIND = 16, MOST_HELD = 65536, MUCH_HELD = 1 << 24 };

/* So many of the records that are kept were put into the trace, and of so many the results too. */
static u64 put_count, told_count;
/* Nothing more is put: the trace is at its limit. */
static bool is_full;

/* How far the trace and the results go behind so many records: there both are cut where one of
 * their files takes no more. There is one behind each record that is put, the first of them behind
 * what both files have, and one before that. */
struct mark {
	u64 records, trace, places, results;
	bool is_told; /* the results are known */
};
static struct mark *marks;
static u64 mark_count, mark_room;

/* Adds the mark behind the last record. */
static void add_mark(void)
{
	GROW(marks, mark_count, mark_room);
	marks[mark_count++] =
		(struct mark){ .records = trace.gone + put_count, .trace = bytes_put() };
}

/* The results of all records up to the next one are known. */
static void tell_mark(u64 records)
{
	struct mark *mark = &marks[records - marks->records];

	mark->results = results_put();
	mark->places = trace.gone_places;
	mark->is_told = true;
}

/* Forgets marks before those that both files have. */
static void forget_marks(void)
{
	u64 gone = 0;

	while (gone + 2 < mark_count && marks[gone + 2].is_told)
		gone++;
	mark_count -= gone;
	if (gone)
		memmove(marks, marks + gone, mark_count * sizeof *marks);
}

/* Takes away what is kept behind a mark. */
static void cut_records(const struct mark *mark)
{
	for (u64 at = told_count; at < put_count; at++) {
		if (trace.gone + at >= mark->records)
			trace.records[at]->is_put = false;
	}
	if (mark->is_told)
		trace.gone_places = mark->places;
	count_from(mark->trace + 1);
}

/* Cuts the files behind a mark; false where that cannot be. */
static bool cut_files(const struct mark *mark)
{
	static const char trace_end = RECORD_END;
	struct sink *records = trace_file(), *results = results_file();
	bool ends_results = results->error || results->is_over;

	if ((ends_results && !mark->is_told) || mark->trace > records->length ||
	    (ends_results && !end_sink(results, mark->results, RESULTS_END, strlen(RESULTS_END))))
		return false;
	/* (what has gone through a pipe stays) */
	if ((records->error || records->base >= 0) &&
	    !end_sink(records, mark->trace, &trace_end, sizeof trace_end))
		return false;
	if (!ends_results && mark->is_told)
		shorten_sink(results, mark->results);
	cut_records(mark);
	return true;
}

/* Where a file takes no more, both are cut behind the last record that both can have, and the
 * recording ends. */
static void look_at_files(void)
{
	struct sink *records = trace_file(), *results = results_file();

	if (!(records->error && !records->is_over) && !(results->error && !results->is_over))
		return;
	end_for(records->error && !records->is_over ? records : results);
	is_full = true;
	while (mark_count && !cut_files(&marks[mark_count - 1]))
		mark_count--;
	if (mark_count)
		return;
	note_no_room();
	for (u64 at = told_count; at < put_count; at++)
		trace.records[at]->is_put = false;
	empty_sink(records);
	empty_sink(results);
	records->is_over = results->is_over = true;
	trace.gone_places = 0;
	count_from(0);
}

/* The descriptor table: its full numbers. */
static void put_table(void)
{
	for (u32 at = 0; at < trace.table_size; at++) {
		u32 known = description_at(at);
		if (!known)
			continue;
		put_number(at, 4);
		put_number(known - 1, 4);
	}
}

/* How many numbers of the table are full. */
static u32 count_full(void)
{
	u32 full = 0;

	for (u32 at = 0; at < trace.table_size; at++)
		full += description_at(at) != 0;
	return full;
}

/* Puts a name of the tree. The bytes of a file are read now, and not again. */
static void put_name(struct item *item)
{
	put_item(item);
	free(item->ranges.list);
	item->ranges = (struct file_ranges){ 0 };
	if (item->descriptor >= 0)
		close(item->descriptor);
	item->descriptor = -1;
}

void begin_stream(void)
{
	bool has_root = has_taken_numbers();

	if (options.format != 3)
		return;
	open_trace();
	open_results();
	put("URINGTRC", 8);
	put_number(3, 4);
	put_number(trace.item_count, 4);
	put_number(trace.description_count + has_root, 4);
	put_number(trace.table_size, 4);
	put_number(count_full(), 4);
	put_number(0, 4);
	for (u64 at = 0; at < trace.item_count && !trace_file()->error; at++)
		put_name(&trace.items[at]);
	put_descriptions(has_root);
	put_table();
	flush_stream();
	if (trace_file()->is_over)
		return;
	add_mark();
	tell_mark(0);
}

/* Whether a call that has not ended has left nothing in its queue. */
static bool is_ended(const struct record *record)
{
	bool is_behind = trace.record_count - put_count > MANY_BEHIND;

	return !record->is_open || (is_behind && is_all_taken(record));
}

/* Whether an entry is written as it is now, whatever its completion is. */
static bool is_settled_entry(const struct entry *entry)
{
	return entry->is_landed || (entry->sqe.opcode == OP_NOP && !entry->is_aside);
}

/* Whether the bytes of a record are known. */
static bool is_settled(struct record *record)
{
	while (record->settled < record->count &&
	       is_settled_entry(&record->entries[record->settled]))
		record->settled++;
	return record->settled == record->count;
}

/* Whether the results of a record are known, and no mark is put there any more. */
static bool is_final(struct record *record)
{
	const struct entry *next = &record->entries[record->final];

	for (; record->final < record->count; record->final++, next++) {
		if (!(next->is_landed || next->is_given_up) || next->is_alike ||
		    !is_made(next->sum))
			break;
	}
	return record->final == record->count;
}

/* Whether the trace has no room for a record, which ends the recording. */
static bool is_over(const struct record *record)
{
	bool is_limited = options.limit != UINT64_MAX;

	if (is_too_long(record))
		end_recording("a chain has more bytes than a record may have");
	else if (is_limited && bytes_put() + size_of_record(record) + 1 > options.limit)
		end_recording("the trace has as many bytes as it may have");
	else
		return false;
	return true;
}

/* Puts the next record, and lets its bytes go that nothing in flight has. */
static void put_next(void)
{
	struct record *record = trace.records[put_count++];

	trace.held -= record->size;
	give_results(record);
	is_full = is_full || is_over(record);
	if (is_full)
		return;
	put_record(record);
	record->is_put = true;
	add_mark();
	for (u32 at = 0; at < record->count; at++) {
		struct entry *entry = &record->entries[at];
		if (!entry->is_landed)
			continue;
		free(entry->side);
		entry->side = NULL;
	}
}

/* Tells the results of the next record that was put, and lets it go; its call may run still. */
static void tell_next(void)
{
	struct record *record = trace.records[told_count];
	u64 behind = number_record(record, trace.gone_places);

	keep_places(record, trace.gone + told_count, trace.gone_places);
	if (record->is_put) {
		write_results_of(record);
		count_outside(record);
		trace.gone_places = behind;
		tell_mark(trace.gone + told_count + 1);
	}
	told_count++;
	for (u32 at = 0; at < record->count; at++)
		record->flying += record->entries[at].record && !record->entries[at].is_landed;
	record->is_gone = true;
	leave_record(record);
}

/* Whether so many places are kept that nothing is waited for any longer. */
static bool is_crowded(void)
{
	return trace.places > trace.gone_places + MOST_HELD;
}

/* What is in flight of a record is told as unseen: the first such entry is noted. */
static void leave_unended(const struct record *record, u32 first)
{
	note("an entry that is in flight while many later ones end: it is told as unseen",
	     &record->entries[first]);
	leave_flights_of(record);
}

/* Waits for the sums of a record. */
static void make_sums_of(const struct record *record)
{
	for (u32 at = 0; at < record->count; at++) {
		if (record->entries[at].sum)
			text_of_sum(record->entries[at].sum);
	}
}

/* Whether the results of a record are written now. Where many are kept behind it, what is in flight
 * is told as if it never ended. */
static bool is_told_now(struct record *record)
{
	if (is_final(record))
		return true;
	if (!is_crowded())
		return false;
	give_up_alike();
	make_sums_of(record);
	if (!is_final(record))
		leave_unended(record, record->final);
	return true;
}

/* The records that are kept are moved to the front where many before them are gone. */
static void shift_records(void)
{
	if (told_count != trace.record_count &&
	    (told_count < SHIFTED || 2 * told_count < trace.record_count))
		return;
	trace.record_count -= told_count;
	put_count -= told_count;
	trace.gone += told_count;
	if (trace.record_count)
		memmove(trace.records, trace.records + told_count,
			trace.record_count * sizeof *trace.records);
	told_count = 0;
}

/* Whether all that a record waits for is given, or stands behind such a member of its chain: this
 * may be in flight for as long as the command runs. */
static bool waits_for_given(const struct record *record)
{
	bool is_behind = false;

	for (u32 at = record->settled; at < record->count; at++) {
		const struct entry *entry = &record->entries[at];
		is_behind |= !entry->is_landed && is_given(entry);
		if (!is_settled_entry(entry) && !is_behind)
			return false;
		is_behind &= goes_on(&entry->sqe);
	}
	return true;
}

/* Whether a record is put now. Where many are kept behind it, or much, what is in flight is put as
 * it is. */
static bool is_put_now(struct record *record)
{
	if (!is_ended(record))
		return false;
	if (is_settled(record))
		return true;
	if (is_crowded())
		leave_flights_of(record);
	else if (trace.held > MUCH_HELD && waits_for_given(record))
		leave_unended(record, record->settled);
	else
		return false;
	return true;
}

/* Writes what is known, or all. */
static void write_records(bool all)
{
	u64 before = put_count + told_count;

	while (put_count < trace.record_count && (all || is_put_now(trace.records[put_count])))
		put_next();
	while (told_count < put_count && (all || is_told_now(trace.records[told_count])))
		tell_next();
	look_at_files();
	if (put_count + told_count != before)
		shift_records();
}

void write_known(void)
{
	if (is_trace_open())
		write_records(false);
}

void flush_stream(void)
{
	flush_sink(trace_file());
	if (!trace_file()->error)
		flush_sink(results_file());
	look_at_files();
	forget_marks();
}

u64 end_stream(const struct final_tree *tree)
{
	write_records(true);
	if (!trace_file()->is_over)
		put_number(RECORD_END, 1);
	flush_stream();
	end_results(trace.is_ended ? NULL : tree);
	look_at_files();
	close_sink(trace_file());
	close_sink(results_file());
	return bytes_put();
}
