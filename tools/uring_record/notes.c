#include "notes.h"
#include "memory.h"
#include "opcodes.h"

#include <inttypes.h>
#include <stdio.h>
#include <stdlib.h>
#include <string.h>

struct counts counts;

/* So many notes have the names of files in them; later ones are counted together. */
enum { MOST_NAMED = 64 };

/* One kind of note, with where it came up first: at an entry, or behind so many records. */
struct note {
	char *what;
	u64 count;
	const struct entry *entry, *other;
	u64 records;
	u64 places[2]; /* where the entries are kept no more: their places */
	bool has_place[2];
	bool is_of_all; /* it is of the whole recording, and of no place */
};
static struct note *notes;
static u64 note_count, note_room;

static const char *const flag_names[] = { "FIXED_FILE",	      "IO_DRAIN", "IO_LINK",
					  "IO_HARDLINK",      "ASYNC",	  "BUFFER_SELECT",
					  "CQE_SKIP_SUCCESS", "bit 7" };

/* The note with a text, which is added where it is new. */
static struct note *note_of(const char *what)
{
	for (u64 at = 0; at < note_count; at++) {
		if (!strcmp(notes[at].what, what))
			return &notes[at];
	}
	GROW(notes, note_count, note_room);
	notes[note_count] = (struct note){ .what = copy_text(what),
					   .records = trace.gone + trace.record_count };
	return &notes[note_count++];
}

/* Puts an entry into a note, or its place where it is known. */
static void set_noted(struct note *it, unsigned which, const struct entry *entry)
{
	if (entry && is_told(entry)) {
		it->places[which] = entry->place;
		it->has_place[which] = true;
	} else if (which) {
		it->other = entry;
	} else {
		it->entry = entry;
	}
}

void note_pair(const char *what, const struct entry *one, const struct entry *other)
{
	struct note *found = note_of(what);

	if (!found->count++) {
		set_noted(found, 0, one);
		set_noted(found, 1, other);
	}
	if (options.verbose)
		fprintf(stderr, "uring_record: %s\n", what);
}

void note(const char *what, const struct entry *entry)
{
	note_pair(what, entry, NULL);
}

void note_of_all(const char *what)
{
	note(what, NULL);
	note_of(what)->is_of_all = true;
}

void note_late(const struct entry *entry)
{
	note("a write of what an entry before it puts there: its bytes are taken when its "
	     "completion is seen",
	     entry);
}

void note_name(const char *what, const char *name)
{
	if (note_count > MOST_NAMED) {
		note(what, NULL);
		return;
	}
	size_t room = strlen(what) + strlen(name) + 3;
	char *text = allocate(room);

	snprintf(text, room, "%s: %s", what, name);
	note(text, NULL);
	free(text);
}

/* The place of the first step behind so many records. */
static u64 place_behind(u64 records)
{
	u64 place = trace.gone_places;

	for (u64 at = 0; at < records && at < trace.record_count; at++)
		place += places_of(trace.records[at]);
	return place;
}

/* An entry, or the one that an ordinary call became. */
static const struct entry *told_entry(const struct entry *entry)
{
	return entry && entry->told_by ? entry->told_by : entry;
}

/* Keeps the place of one of the entries of a note, where it is one of a record. */
static void keep_place(struct note *it, unsigned which, const struct record *record)
{
	const struct entry **noted = which ? &it->other : &it->entry;
	const struct entry *entry = told_entry(*noted);

	if (!entry || entry < record->entries || entry >= record->entries + record->room)
		return;
	it->places[which] = entry->place;
	it->has_place[which] = true;
	*noted = NULL;
}

void keep_places(const struct record *record, u64 number, u64 place)
{
	for (u64 at = 0; at < note_count; at++) {
		struct note *it = &notes[at];
		if (!it->entry && !it->has_place[0] && it->records == number) {
			it->places[0] = place;
			it->has_place[0] = true;
		}
		keep_place(it, 0, record);
		keep_place(it, 1, record);
	}
}

void count_outside(const struct record *record)
{
	for (u32 in = 0; in < record->count; in++) {
		const struct entry *entry = &record->entries[in];
		u64 *counted = is_given(entry) && !is_ambiguous(entry) ? counts.given : counts.outside;
		counted[reason_of(entry)]++;
	}
}

/* The place of one of the entries of a note. */
static u64 place_of(const struct note *it, unsigned which)
{
	const struct entry *entry = told_entry(which ? it->other : it->entry);

	if (it->has_place[which])
		return it->places[which];
	return entry ? entry->place : place_behind(it->records);
}

static const char *plural(u64 count)
{
	return count == 1 ? "" : "s";
}

/* Says each note, with where it came up first. */
static void say_notes(void)
{
	for (u64 at = 0; at < note_count; at++) {
		const struct note *it = &notes[at];
		if (it->is_of_all) {
			fprintf(stderr, "uring_record: note: %s\n", it->what);
			continue;
		}
		fprintf(stderr,
			"uring_record: note: %s (%" PRIu64 " time%s, first at place %" PRIu64,
			it->what, it->count, plural(it->count), place_of(it, 0));
		if (it->other || it->has_place[1])
			fprintf(stderr, " and place %" PRIu64, place_of(it, 1));
		fputs(")\n", stderr);
	}
}

/* Says how many entries of each opcode were submitted. */
static void say_opcodes(void)
{
	fputs("uring_record: by opcode:", stderr);
	for (unsigned at = 0; at < 256; at++) {
		if (!counts.opcodes[at])
			continue;
		if (name_of_opcode(at))
			fprintf(stderr, " %s %" PRIu64, name_of_opcode(at), counts.opcodes[at]);
		else
			fprintf(stderr, " opcode-%u %" PRIu64, at, counts.opcodes[at]);
	}
	fputc('\n', stderr);
}

/* Says how many entries had each flag. */
static void say_flags(void)
{
	u64 all = 0;

	fputs("uring_record: by flag:", stderr);
	for (unsigned at = 0; at < 8; at++) {
		all += counts.flags[at];
		if (counts.flags[at])
			fprintf(stderr, " %s %" PRIu64, flag_names[at], counts.flags[at]);
	}
	fputs(all ? "\n" : " none\n", stderr);
}

/* Says how many entries lie outside, or have given results, and why. */
static void say_reasons(const char *what, const u64 *by_reason, bool is_said)
{
	u64 all = 0;

	for (int why = INSIDE + 1; why < OUTSIDE_COUNT; why++)
		all += by_reason[why];
	if (!all && !is_said)
		return;
	fprintf(stderr, "uring_record: %s: %" PRIu64, what, all);
	for (int why = INSIDE + 1; why < OUTSIDE_COUNT; why++) {
		if (by_reason[why])
			fprintf(stderr, ", %s %" PRIu64, outside_words[why], by_reason[why]);
	}
	fputc('\n', stderr);
}

void summary(u64 places, u64 bytes, u32 rings)
{
	u64 submitted = 0;

	for (unsigned at = 0; at < 256; at++)
		submitted += counts.opcodes[at];
	fprintf(stderr,
		"uring_record: version %d, %" PRIu64 " byte%s, %" PRIu64 " step%s, %u ring%s, %" PRIu64
		" file%s, %" PRIu64 " open file%s\n",
		options.format == 3 ? 3
		: trace.uses_table  ? 2
				    : 1,
		bytes, plural(bytes), places, plural(places), rings, plural(rings),
		(u64)trace.item_count, plural(trace.item_count), (u64)trace.description_count,
		plural(trace.description_count));
	fprintf(stderr,
		"uring_record: %" PRIu64 " request%s: %" PRIu64 " by descriptor, %" PRIu64
		" by registered file, %" PRIu64 " at the file position; %" PRIu64
		" byte%s of payload\n",
		submitted, plural(submitted), counts.by_descriptor, counts.by_slot,
		counts.at_position, counts.side_bytes, plural(counts.side_bytes));
	say_opcodes();
	say_flags();
	say_reasons("unchecked", counts.outside, true);
	say_reasons("given", counts.given, false);
	fprintf(stderr,
		"uring_record: %" PRIu64 " ordinary call%s; %" PRIu64 " fill%s of %" PRIu64
		" byte%s\n",
		counts.calls, plural(counts.calls), counts.fills, plural(counts.fills),
		counts.filled, plural(counts.filled));
	if (counts.sets + counts.seeks)
		fprintf(stderr,
			"uring_record: %" PRIu64 " set%s and %" PRIu64
			" seek%s between submissions\n",
			counts.sets, plural(counts.sets), counts.seeks, plural(counts.seeks));
	if (counts.not_taken)
		fprintf(stderr,
			"uring_record: %" PRIu64 " entries were left in the queue by a call\n",
			counts.not_taken);
	if (options.verbose)
		fprintf(stderr, "uring_record: %" PRIu64 " reads of memory\n", memory_reads);
	say_notes();
}
