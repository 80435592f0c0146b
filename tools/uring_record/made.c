#include "made.h"
#include "flights.h"

#include <fcntl.h>
#include <stdio.h>
#include <stdlib.h>
#include <string.h>

struct entry *make(struct ring *ring, const struct io_uring_sqe *sqe, const void *side, u32 length,
		   i32 result)
{
	struct record *record = new_record(ring, 1);
	struct entry *entry = record->entries;

	record->count = 1;
	entry->sqe = *sqe;
	entry->sqe.user_data = UINT64_MAX;
	entry->opcode = sqe->opcode;
	entry->side = allocate(length);
	if (length)
		memcpy(entry->side, side, length);
	entry->side_length = length;
	entry->state = ENTRY_MADE;
	entry->result = result;
	if (trace.is_lost)
		put_outside(entry, OUTSIDE_CHANGED);
	entry->is_landed = true;
	add_record(record);
	return entry;
}

/* Marks an entry of which it is not told what is at its path. */
static struct entry *with_doubt(struct entry *entry, const char *path)
{
	enum outside why = doubt_count ? doubted_by(path, (u32)strlen(path)) : INSIDE;

	if (why != INSIDE)
		put_outside(entry, why);
	return entry;
}

struct entry *make_open(struct ring *ring, u32 index, const char *path, u32 flags, i32 result)
{
	struct io_uring_sqe sqe = { .opcode = OP_OPENAT, .fd = AT_FDCWD };

	sqe.open_flags = flags;
	sqe.file_index = index;
	return with_doubt(make(ring, &sqe, path, (u32)strlen(path), result), path);
}

void make_close(struct ring *ring, u32 index, int number)
{
	struct io_uring_sqe sqe = { .opcode = OP_CLOSE, .fd = number };

	sqe.file_index = index;
	make(ring, &sqe, NULL, 0, 0);
}

struct entry *make_path(u8 opcode, u32 flags, const char *path)
{
	struct io_uring_sqe sqe = { .opcode = opcode, .fd = AT_FDCWD };

	if (opcode == OP_MKDIRAT)
		sqe.len = 0755;
	else
		sqe.unlink_flags = flags;
	return with_doubt(make(our_ring(), &sqe, path, (u32)strlen(path), 0), path);
}

struct entry *make_paths(u8 opcode, u32 flags, const char *old_path, const char *new_path)
{
	struct io_uring_sqe sqe = { .opcode = opcode, .fd = AT_FDCWD, .len = (u32)AT_FDCWD };
	u16 old_length = (u16)strlen(old_path);
	u32 length = 2 + old_length + (u32)strlen(new_path);
	u8 *side = allocate(length);

	sqe.rename_flags = flags;
	memcpy(side, &old_length, 2);
	memcpy(side + 2, old_path, old_length);
	memcpy(side + 2 + old_length, new_path, length - 2 - old_length);
	struct entry *entry = make(our_ring(), &sqe, side, length, 0);
	free(side);
	with_doubt(with_doubt(entry, old_path), new_path);
	if (entry->outside != INSIDE && doubt_count) { /* (neither is told then) */
		doubt_name((const u8 *)old_path, old_length, entry->outside);
		doubt_name((const u8 *)new_path, (u32)strlen(new_path), entry->outside);
	}
	return entry;
}

struct entry *make_rename(u32 flags, char *const names[2], const bool is_link[2], bool replaces)
{
	if (!is_link[0])
		return make_paths(OP_RENAMEAT, is_link[1] ? 0 : flags, names[0], names[1]);
	if (is_link[1])
		return NULL;
	if (flags & RENAME_EXCHANGE)
		return make_paths(OP_RENAMEAT, 0, names[1], names[0]);
	return replaces ? make_path(OP_UNLINKAT, 0, names[1]) : NULL;
}

struct opened *make_again(struct ring *ring, u32 index, const char *path, int descriptor,
			  i32 result)
{
	u32 flags = (u32)fcntl(descriptor, F_GETFL) & (O_ACCMODE | O_APPEND);

	make_open(ring, index, path, flags, result);
	return new_opened(descriptor, 0);
}
