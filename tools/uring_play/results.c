#include "results.h"
#include "apart.h"
#include "brought.h"
#include "entry.h"
#include "nodes.h"
#include "numbers.h"
#include "rings.h"
#include "trace.h"
#include "tree.h"
#include "watch.h"

#include <errno.h>
#include <fcntl.h>
#include <inttypes.h>
#include <stdlib.h>
#include <string.h>
#include <unistd.h>

static void write_entry(FILE *file, const struct entry *entry)
{
	fprintf(file, "%u", entry->place);
	if (has_ring_records())
		fprintf(file, " ring=%u", entry->ring);
	fprintf(file, " user=%" PRIu64, fields_of(entry).user);
	if (entry->state == ENTRY_SILENT)
		fputs(" silent", file);
	else if (entry->state != ENTRY_UNPLAYED)
		fprintf(file, " res=%d%s", entry->result,
			entry->state == ENTRY_POSTED ? " posted" : "");
	if (entry->data_length)
		fputs(" data=", file);
	for (u64 at = 0; at < entry->data_length && at < DATA_SHOWN; at++)
		fprintf(file, "%02x", entry->data[at]);
	if (entry->data_length > DATA_SHOWN)
		fputc('+', file);
	if (entry->sum)
		fprintf(file, " data-sum=%s", entry->sum);
	fprintf(file, " op=%u", entry->sqe[0]);
	if (entry->apart != NOT_APART)
		fprintf(file, " unchecked=%s", apart_words[entry->apart]);
	if (options.depends && entry->is_submitted)
		fprintf(file, " submitted=%" PRIu64, entry->submitted);
	if (options.depends && entry->state == ENTRY_POSTED)
		fprintf(file, " completed=%" PRIu64, entry->completed);
	fputc('\n', file);
}

/* In version 3 lines stand in the order of the places. */
static void write_in_order(FILE *file)
{
	fputs("uring-report 2\n", file);
	for (u32 place = 0; place < trace.places; place++) {
		if (trace.by_place[place])
			write_entry(file, trace.by_place[place]);
		go_on();
	}
}

static void write_by_ring(FILE *file)
{
	fputs("uring-report 1\n", file);
	for (u32 ring = 0; ring < trace.ring_count; ring++) {
		fprintf(file, "ring %u\n", ring);
		for (u32 at = 0; at < trace.record_count; at++) {
			const struct record *record = &trace.records[at];
			for (u32 in = 0; record->ring == ring && in < record->count; in++)
				write_entry(file, &record->entries[in]);
		}
		go_on();
	}
}

static void write_entries(FILE *file)
{
	if (has_ring_records())
		write_in_order(file);
	else
		write_by_ring(file);
}

/* What an open descriptor shows of its description. */
static void write_held(FILE *file, int descriptor)
{
	struct stat status;
	u64 node;
	off_t position = lseek(descriptor, 0, SEEK_CUR);

	if (!fstat(descriptor, &status) && node_of(&status, &node))
		fprintf(file, " node=%" PRIu64, node);
	if (position >= 0 && (u64)position != STAND_IN)
		fprintf(file, " pos=%" PRIu64, (u64)position);
	fputc('\n', file);
}

/* A slot is looked at through a number that the table leaves free. */
static void write_slots(FILE *file)
{
	if (!shows_slots())
		return;
	fputs("slots\n", file);
	for (u32 ring = 0; ring < trace.ring_count; ring++) {
		for (u32 slot = 0; is_open(ring) && slot < trace.rings[ring].slot_count; slot++) {
			int opened = slot_file(ring, slot);
			if (opened < 0)
				continue;
			fprintf(file, "slot %u %u", ring, slot);
			write_held(file, opened);
			close(opened);
		}
	}
	for (u32 number = 0; number < trace.table_size; number++) {
		if (fcntl((int)number, F_GETFD) < 0)
			continue;
		fprintf(file, "descriptor %u", number);
		write_held(file, (int)number);
	}
}

static void write_buffer(FILE *file, const struct buffer *it)
{
	char text[SHA256_TEXT];

	sum_bytes(it->memory, it->length, text);
	fprintf(file, "len=%u sum=%s\n", it->length, text);
}

static void write_buffers(FILE *file)
{
	fputs("buffers\n", file);
	for (u32 ring = 0; ring < trace.ring_count; ring++) {
		for (u32 at = 0; at < trace.rings[ring].buffer_count; at++) {
			if (!trace.rings[ring].buffers[at].memory)
				continue;
			fprintf(file, "buffer %u %u ", ring, at);
			write_buffer(file, &trace.rings[ring].buffers[at]);
		}
	}
}

void write_entries_alone(void)
{
	write_entries(results_file());
	fputs("end\n", results_file());
}

/* Slots and numbers are looked at before the tree, since what is opened there takes numbers. */
void write_results(void)
{
	FILE *file = results_file();
	char *held = NULL;
	size_t size = 0;
	FILE *slots = open_memstream(&held, &size);

	if (!slots)
		die("there is no more memory");
	write_slots(slots);
	fclose(slots);
	write_entries(file);
	write_tree(file);
	fwrite(held, 1, size, file);
	free(held);
	write_buffers(file);
	fputs("end\n", file);
}
