#include "output.h"
#include "encode.h"
#include "notes.h"
#include "rings.h"

#include <errno.h>
#include <limits.h>
#include <stdio.h>
#include <stdlib.h>
#include <string.h>
#include <unistd.h>

/* The full paths of the files that are written at the end. */
static char *outputs[2];

/* Keeps the full path of a file that is written later. */
static void keep_output(const char *path)
{
	char *copy = copy_text(path), *slash = strrchr(copy, '/'), directory[PATH_MAX];
	const char *name = slash ? slash + 1 : path;

	if (slash)
		*slash = 0;
	if (realpath(!slash ? "." : *copy ? copy : "/", directory)) {
		size_t room = strlen(directory) + strlen(name) + 2;
		char *full = allocate(room);
		snprintf(full, room, "%s/%s", strcmp(directory, "/") ? directory : "", name);
		outputs[outputs[0] != NULL] = full;
	}
	free(copy);
}

bool is_output(const char *full)
{
	return (outputs[0] && !strcmp(full, outputs[0])) ||
	       (outputs[1] && !strcmp(full, outputs[1]));
}

void try_output(const char *path)
{
	if (!strcmp(path, "-"))
		return;
	char *copy = copy_text(path), *slash = strrchr(copy, '/');
	keep_output(path);
	if (access(path, F_OK)) {
		/* It is made later, since it would be in the tree if its directory is below the
		 * root. */
		if (slash)
			slash[1] = 0;
		if (access(slash ? copy : ".", W_OK))
			die("%s: %s", path, strerror(errno));
	} else if (access(path, W_OK)) {
		die("%s: %s", path, strerror(errno));
	}
	free(copy);
}

/* The slots and buffers of a ring. */
static void put_ring(const struct ring *ring)
{
	put_number(ring->slot_count, 2);
	for (u32 at = 0; at < ring->slot_count; at++)
		put_number(ring->slots[at], 4);
	put_number(ring->buffer_count, 2);
	for (u32 at = 0; at < ring->buffer_count; at++) {
		put_number(ring->buffers[at].address, 8);
		put_number(ring->buffers[at].length, 4);
	}
}

/* A record of entries of which the kernel took none is left out. */
static bool is_empty(const struct record *record)
{
	return record->kind == RECORD_ENTRIES && !record->count;
}

bool has_taken_numbers(void)
{
	for (u32 at = 0; at < trace.table_size; at++) {
		if (trace.table_taken[at])
			return true;
	}
	return false;
}

u32 description_at(u32 number)
{
	return trace.table_taken[number] ? (u32)trace.description_count + 1 : trace.table[number];
}

void put_descriptions(bool has_root)
{
	static const struct description root;

	for (u64 at = 0; at < trace.description_count; at++)
		put_description(&trace.descriptions[at]);
	if (has_root)
		put_description(&root);
}

/* Puts the trace, or counts its bytes. */
static void put_trace(void)
{
	bool has_root = trace.uses_table && has_taken_numbers();
	u64 records = 0;

	for (u64 at = 0; at < trace.record_count; at++)
		records += !is_empty(trace.records[at]);
	count_from(0);
	put("URINGTRC", 8);
	put_number(trace.uses_table ? 2 : 1, 4);
	put_number(trace.item_count, 4);
	put_number(trace.description_count + has_root, 4);
	put_number(ring_count, 4);
	put_number(records, 4);
	put_number(trace.table_size, 4);
	for (u64 at = 0; at < trace.item_count; at++)
		put_item(&trace.items[at]);
	put_descriptions(has_root);
	for (u32 at = 0; at < trace.table_size; at++)
		put_number(description_at(at), 4);
	for (u32 at = 0; at < ring_count; at++)
		put_ring(rings[at]);
	for (u64 at = 0; at < trace.record_count; at++)
		put_record(trace.records[at]);
}

/* Takes the last records away where the trace is over its limit: its rings may have grown behind
 * them. */
static void keep_limit(void)
{
	count_only(true);
	put_trace();
	count_only(false);
	u64 over = bytes_put() > options.limit ? bytes_put() - options.limit : 0;
	if (over)
		end_recording("the trace has as many bytes as it may have");
	while (over && trace.record_count)
		over -= min64(over, size_of_record(trace.records[--trace.record_count]));
}

void end_for(const struct sink *file)
{
	char why[PATH_MAX + 128];

	snprintf(why, sizeof why, "%s: %s", file->path, strerror(file->error));
	end_recording(why);
}

void note_no_room(void)
{
	note("there is no room for the start: the trace and the results are empty", NULL);
}

/* Writes the trace, with as many records as its file takes; false where that has no room for one
 * without any. */
static bool put_into_file(struct sink *file)
{
	for (;;) {
		keep_limit();
		put_trace();
		flush_sink(file);
		if (!file->error)
			return true;
		end_for(file);
		options.limit = file->length;
		bool has_records = trace.record_count;
		if (!empty_sink(file) || !has_records)
			return false;
	}
}

/* Writes the results; where their file takes no more, a few records are taken away, and the trace
 * is to be written anew. */
static bool put_results(const struct final_tree *tree)
{
	struct sink *file = results_file();

	number_places();
	write_results(trace.is_ended ? NULL : tree);
	if (!file->error)
		return true;
	end_for(file);
	if (!empty_sink(file) || !trace.record_count || !empty_sink(trace_file()))
		return true; /* (they are left out) */
	trace.record_count -= trace.record_count / 4 + 1;
	close_sink(file);
	return false;
}

u64 write_both(const struct final_tree *tree)
{
	if (!trace.uses_table)
		trace.table_size = 0;
	open_trace();
	bool is_there = put_into_file(trace_file());
	while (is_there && !put_results(tree))
		is_there = put_into_file(trace_file());
	if (!is_there) {
		note_no_room();
		open_results();
		end_results(NULL);
		empty_sink(results_file());
	}
	close_sink(trace_file());
	close_sink(results_file());
	return trace_file()->length;
}
