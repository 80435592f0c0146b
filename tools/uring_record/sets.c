#include "sets.h"
#include "begun.h"
#include "meetings.h"
#include "notes.h"
#include "table.h"

#include <fcntl.h>
#include <stdlib.h>
#include <string.h>
#include <sys/stat.h>
#include <unistd.h>

/* What a record has for a slot and for a number, and what it says that one holds. */
enum { OF_SLOT = 0, OF_NUMBER = 1 };
enum content { NOTHING = 0, OF_PATH = 1, COPY = 2, TAKEN = 3 };
/* The bytes of a slot or number, and of a path or a position beside it and its text. */
enum { HOLDER_BYTES = 9, PATH_BYTES = 15, POSITION_BYTES = 8, MOST_PATH = 4095 };

struct holder of_slot(struct ring *ring, u32 slot)
{
	return (struct holder){ ring, slot };
}

struct holder of_number(int number)
{
	return (struct holder){ NULL, (u32)number };
}

/* Adds a slot or a number to the bytes of a record. */
static void add_holder(struct record *record, struct holder it)
{
	add_number(record, it.ring ? OF_SLOT : OF_NUMBER, 1);
	add_number(record, it.ring ? it.ring->number : 0, 4);
	add_number(record, it.number, 4);
}

/* A record of a slot or a number, with room for so many bytes behind it. Its ring is in the trace
 * before it. */
static struct record *record_of(enum record_kind kind, struct holder it, u64 room)
{
	struct record *record = new_record(it.ring ? it.ring : call_ring(), 0);

	if (it.ring)
		begin_ring(it.ring);
	record->kind = kind;
	record->bytes = allocate(HOLDER_BYTES + room);
	add_holder(record, it);
	return record;
}

/* The same of a set. */
static struct record *set_of(struct holder to, enum content content, u64 room)
{
	struct record *record = record_of(RECORD_SET, to, 1 + room);

	add_number(record, content, 1);
	counts.sets++;
	return record;
}

void set_nothing(struct holder to)
{
	append_record(set_of(to, NOTHING, 0));
}

void set_taken(struct holder to)
{
	append_record(set_of(to, TAKEN, 0));
}

void set_path(struct holder to, const char *path, u32 flags, u64 position)
{
	size_t length = strlen(path);
	struct record *record = set_of(to, OF_PATH, PATH_BYTES + length);

	add_number(record, flags, 4);
	add_number(record, position, 8);
	add_number(record, length, 2);
	memcpy(record->bytes + record->length, path, length);
	record->length += (u32)length;
	append_record(record);
}

/* It holds what another one holds. */
static void set_copy(struct holder to, struct holder from)
{
	struct record *record = set_of(to, COPY, HOLDER_BYTES);

	add_holder(record, from);
	append_record(record);
}

void seek_to(struct holder at, u64 position)
{
	struct record *record = record_of(RECORD_SEEK, at, POSITION_BYTES);

	add_number(record, position, 8);
	counts.seeks++;
	append_record(record);
}

/* Whether the replay has a description in a slot, under the number that its ring has now. */
static bool is_in_replay(const struct ring *ring, u32 slot)
{
	return slot < ring->slot_count && ring->has_number && ring->now[slot] && !ring->slots[slot];
}

struct opened *set_slot_of(struct holder to, struct ring *ring, u32 slot)
{
	if (!is_in_replay(ring, slot) || ring->foreign[slot])
		return NULL;
	struct opened *opened = hold(ring->now[slot]);
	set_copy(to, of_slot(ring, slot));
	return opened;
}

/* The slot where the replay has what a descriptor of the recorder leads to; false where it has it
 * in none. The recorder's own ring opens files for itself. */
static bool find_slot(int copy, const struct stat *status, struct holder *found)
{
	for (u32 at = 0; at < ring_count; at++) {
		struct ring *ring = rings[at];
		for (u32 slot = 0; !ring->is_ours && slot < ring->slot_count; slot++) {
			if (is_in_replay(ring, slot) && is_copy_of(ring->now[slot], copy, status)) {
				*found = of_slot(ring, slot);
				return true;
			}
		}
	}
	return false;
}

struct opened *set_known(struct holder to, int copy)
{
	struct stat status;
	struct holder from;

	if (fstat(copy, &status))
		return NULL;
	int number = number_with(copy, &status);
	if (number < 0 && !find_slot(copy, &status, &from))
		return NULL;
	if (number >= 0)
		from = of_number(number);
	struct opened *known = number >= 0 ? opened_at(number) : from.ring->now[from.number];
	hold(known);
	set_copy(to, from);
	close(copy);
	return known;
}

/* The position of a file; 0 of a directory. */
static u64 position_of(int copy)
{
	struct stat status;
	off_t position =
		fstat(copy, &status) || !S_ISREG(status.st_mode) ? 0 : lseek(copy, 0, SEEK_CUR);

	return position < 0 ? 0 : (u64)position;
}

/* Whether a descriptor of the recorder leads to the root itself, which no path of a trace opens. */
static bool is_root(int copy)
{
	struct stat status;

	return !fstat(copy, &status) && S_ISDIR(status.st_mode) && node_of(&status) == 0;
}

struct opened *set_opened(struct holder to, int copy)
{
	u32 flags = (u32)fcntl(copy, F_GETFL);
	struct opened *known = set_known(to, copy);

	if (known || (flags & O_ACCMODE) == O_ACCMODE)
		return known;
	if (is_root(copy)) { /* (a number that is taken leads there) */
		set_taken(to);
		return new_opened(copy, 0);
	}
	char *name = name_in_replay(copy);
	u64 position = position_of(copy);
	bool is_said = name && strlen(name) <= MOST_PATH;
	if (is_said)
		set_path(to, name, flags & (O_ACCMODE | O_APPEND), position);
	free(name);
	return is_said ? new_opened(copy, position) : NULL;
}
