#include "mend.h"
#include "confine.h"
#include "fill.h"
#include "numbers.h"
#include "rings.h"
#include "tree.h"
#include "uring.h"

#include <errno.h>
#include <fcntl.h>
#include <linux/falloc.h>
#include <stdlib.h>
#include <string.h>
#include <sys/stat.h>
#include <unistd.h>

enum { CHUNK = 1 << 16 };

bool can_be_mended(u8 opcode)
{
	return is_advice(opcode) || opcode == OP_FSYNC || opcode == OP_FALLOCATE ||
	       opcode == OP_FTRUNCATE || (is_on_names(opcode) && opcode != OP_OPENAT && !is_stat(opcode));
}

bool is_cut(const struct entry *entry)
{
	struct fields it = fields_of(entry);

	return !entry->is_given && is_transfer(it.opcode) && !is_read(it.opcode) &&
	       it.offset == AT_POSITION && entry->expected > 0 &&
	       (u64)entry->expected < asked_of(entry);
}

static void cannot(const struct entry *entry)
{
	say("place %u cannot be corrected: %s", entry->place, strerror(errno));
}

/* --- Files --------------------------------------------------------------------------------------
 */

/* An ordinary descriptor of what an entry uses; `is_own` where it is to be closed. */
static int file_of(const struct entry *entry, bool *is_own)
{
	struct fields it = fields_of(entry);

	*is_own = it.flags & FLAG_FIXED;
	return *is_own ? slot_file(entry->ring, (u32)it.fd) : it.fd;
}

/* Zeros from one place to another, by a description without O_APPEND, which a server of a file
 * system may keep to itself. */
static bool write_zeros(int file, u64 from, u64 to)
{
	static const u8 zeros[CHUNK];
	int opened = open_anew(file, O_WRONLY);
	ssize_t moved = 1;

	while (opened >= 0 && from < to && moved > 0) {
		moved = pwrite(opened, zeros, min64(CHUNK, to - from), (off_t)from);
		from += moved > 0 ? (u64)moved : 0;
	}
	if (opened >= 0)
		close(opened);
	return from >= to;
}

static bool zero_range(int file, u64 from, u64 to)
{
	struct stat status;

	if (fstat(file, &status))
		return false;
	to = min64(to, (u64)status.st_size);
	return from >= to ||
	       !fallocate(file, FALLOC_FL_PUNCH_HOLE | FALLOC_FL_KEEP_SIZE, (off_t)from,
			  (off_t)(to - from)) ||
	       write_zeros(file, from, to);
}

static bool extend(int file, u64 size)
{
	struct stat status;

	return !fstat(file, &status) &&
	       (size <= (u64)status.st_size || !ftruncate(file, (off_t)size));
}

static bool allocate_range(int file, const struct fields *it)
{
	u64 end = it->offset + it->address;
	bool is_zeroed = it->length == 3 || it->length == 0x10 || it->length == 0x11;
	bool is_extended = it->length == 0 || it->length == 0x10;

	return (!is_zeroed || zero_range(file, it->offset, end)) &&
	       (!is_extended || extend(file, end));
}

/* The bytes that a write brings, as far as they are there. */
static const u8 *bytes_of(const struct entry *entry)
{
	struct fields it = fields_of(entry);
	const struct ring_of_trace *ring = &trace.rings[entry->ring];

	if (it.opcode == OP_WRITE_FIXED)
		return ring->buffers[it.buffer].memory +
		       (it.address - ring->buffers[it.buffer].address);
	return bytes_written(entry);
}

/* Appends what an entry would have, and leaves the position. */
static bool append(int file, const struct entry *entry)
{
	const u8 *bytes = bytes_of(entry);
	off_t at = lseek(file, 0, SEEK_CUR);
	bool is_done = write(file, bytes, (size_t)entry->expected) == entry->expected;

	return lseek(file, at, SEEK_SET) == at && is_done;
}

/* What becomes of the file of an entry; NO_CHANGE where nothing does. */
enum change { NO_CHANGE, RANGE, SIZE, APPENDED, POSITION_AT_END, POSITION_BEHIND };

static enum change change_of(const struct entry *entry, const struct fields *it)
{
	bool is_played = entry->state != ENTRY_UNPLAYED;

	if (is_cut(entry) && entry->result == entry->expected)
		return POSITION_AT_END;
	if (is_played || entry->expected < 0)
		return NO_CHANGE;
	if (it->opcode == OP_FALLOCATE)
		return RANGE;
	if (it->opcode == OP_FTRUNCATE)
		return SIZE;
	if (entry->apart == APART_MEMORY && it->offset == AT_POSITION)
		return POSITION_BEHIND;
	return entry->apart == APART_OFFSET && !is_read(it->opcode) && entry->expected ? APPENDED
										       : NO_CHANGE;
}

static bool change_file(int file, enum change change, const struct entry *entry)
{
	struct fields it = fields_of(entry);

	switch (change) {
	case RANGE:
		return allocate_range(file, &it);
	case SIZE:
		return !ftruncate(file, (off_t)it.offset);
	case APPENDED:
		return append(file, entry);
	case POSITION_AT_END:
		return lseek(file, (off_t)GREATEST_SIZE, SEEK_SET) >= 0;
	case POSITION_BEHIND:
		return lseek(file, entry->expected, SEEK_CUR) >= 0;
	default:
		return true;
	}
}

/* --- Names --------------------------------------------------------------------------------------
 */

/* Renames in steps that every file system has. */
static bool rename_in_steps(const char *old, const char *new, u32 flags)
{
	struct stat one, other;

	if (flags != 2)
		return !renameat(tree_root, old, tree_root, new);
	if (fstatat(tree_root, old, &one, AT_SYMLINK_NOFOLLOW) ||
	    fstatat(tree_root, new, &other, AT_SYMLINK_NOFOLLOW))
		return false;
	if (one.st_ino == other.st_ino && one.st_dev == other.st_dev)
		return true;
	char *name = free_name();
	bool is_done = !renameat(tree_root, new, tree_root, name) &&
		       !renameat(tree_root, old, tree_root, new) &&
		       !renameat(tree_root, name, tree_root, old);
	free(name);
	return is_done;
}

/* Paths of entries that are left out start at the root of the trace, as those that are played. */
static bool change_names(const struct entry *entry, const struct fields *it)
{
	struct span one = path_of(entry);
	struct span other = has_two_paths(it->opcode) ? new_path_of(entry) : one;
	char *old = copy_bytes(one.bytes, one.length);
	char *new = copy_bytes(other.bytes, other.length);
	const char *from = below(old), *to = below(new);
	bool is_done = false;

	if (it->opcode == OP_RENAMEAT)
		is_done = rename_in_steps(from, to, it->own_flags);
	if (it->opcode == OP_LINKAT)
		is_done = !linkat(tree_root, from, tree_root, to, 0);
	if (it->opcode == OP_UNLINKAT)
		is_done = !unlinkat(tree_root, from, (int)it->own_flags);
	if (it->opcode == OP_MKDIRAT) {
		is_done = !mkdirat(tree_root, from, 0755);
		learn_node(old, entry->place);
	}
	free(old);
	free(new);
	return is_done;
}

static bool is_of_names(const struct entry *entry)
{
	return entry->apart == APART_LACKS && is_on_names(entry->sqe[0]);
}

bool is_to_mend(const struct entry *entry)
{
	struct fields it = fields_of(entry);

	if (!entry->is_expected || entry->is_given)
		return false;
	return is_of_names(entry) ? !entry->expected : change_of(entry, &it) != NO_CHANGE;
}

void mend(const struct entry *entry)
{
	struct fields it = fields_of(entry);
	bool is_own = false, is_done = false;

	let_open();
	if (is_of_names(entry)) {
		is_done = change_names(entry, &it);
	} else {
		int file = file_of(entry, &is_own);
		is_done = file >= 0 && change_file(file, change_of(entry, &it), entry);
		if (file >= 0 && is_own)
			close(file);
	}
	if (!is_done)
		cannot(entry);
	let_none_open();
}
