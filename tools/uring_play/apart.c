#include "apart.h"
#include "entry.h"
#include "lacks.h"
#include "uring.h"

#include <errno.h>

/* Modes of FALLOCATE that some Linux serves and the profile does not: linux/falloc.h. */
enum { COLLAPSE = 0x08, INSERT = 0x20, UNSHARE = 0x40, WRITE_ZEROES = 0x80 };
enum { OTHER_MODES = COLLAPSE | INSERT | UNSHARE | WRITE_ZEROES };
enum { RENAME_NOT_ONTO = 1, RENAME_SWAPS = 2, RENAME_LEAVES_A_DEVICE = 4 };
enum { LINK_EMPTY_PATH = 0x1000, LINK_FOLLOWS = 0x400 };

enum { MOST_ALLOCATED = 64 << 20 };

/* Vectors behind the first that are as long reach beyond the addresses of a process. */
#define LONG_VECTOR (1ULL << 46)

const char *const apart_words[APARTS] = {
	[APART_OPCODE] = "opcode",
	[APART_SELECTION] = "selection",
	[APART_FLAGS] = "flags",
	[APART_SLOT] = "slot",
	[APART_PATH] = "path",
	[APART_DIRECTORY] = "directory",
	[APART_MEMORY] = "memory",
	[APART_OFFSET] = "offset",
	[APART_MODE] = "mode",
	[APART_RANGE] = "range",
	[APART_LINKS] = "links",
	[APART_DOOM] = "submission",
	[APART_TESTS] = "order-of-checks",
	[APART_OPENS] = "emfile",
	[APART_EITHER] = "either",
	[APART_SPACE] = "space",
	[APART_LACKS] = "unsupported",
	[APART_STUCK] = "stuck",
	[APART_GIVEN] = "given",
};

/* --- Entries that are not played ----------------------------------------------------------------
 */

static bool has_odd_path(const struct entry *entry)
{
	return is_odd(path_of(entry)) ||
	       (has_two_paths(entry->sqe[0]) && is_odd(new_path_of(entry)));
}

/* Whether a path starts at what a number of the table leads to. */
static bool is_relative(struct span path, i32 directory)
{
	return path.length && path.bytes[0] != '/' && directory >= 0 &&
	       (u32)directory < trace.table_size;
}

static enum apart why_paths(const struct entry *entry, const struct fields *it)
{
	if (has_odd_path(entry))
		return APART_PATH;
	if (is_relative(path_of(entry), it->fd) ||
	    (has_two_paths(it->opcode) && is_relative(new_path_of(entry), (i32)it->length)))
		return APART_DIRECTORY;
	return NOT_APART;
}

/* Whether a file index leads to no slot of the ring. Only a ring without any refuses it in another
 * way; but an OPENAT walks its path before. */
static bool has_no_slot(const struct entry *entry, const struct fields *it)
{
	u32 slots = trace.rings[entry->ring].slot_count;

	return it->file_index > slots && (!slots || it->opcode == OP_OPENAT);
}

static enum apart why_names(const struct entry *entry, const struct fields *it)
{
	u32 flags = it->own_flags;

	if (it->opcode == OP_OPENAT && ((flags & 3) == 3 || flags & ~KNOWN_OPEN_FLAGS))
		return APART_FLAGS;
	if (it->opcode == OP_LINKAT && flags & LINK_EMPTY_PATH)
		return APART_FLAGS;
	if (it->opcode == OP_RENAMEAT &&
	    (flags & RENAME_LEAVES_A_DEVICE || (flags & RENAME_SWAPS && trace.version == 1)))
		return APART_FLAGS;
	if (it->opcode == OP_OPENAT && has_no_slot(entry, it))
		return APART_SLOT;
	enum apart why = why_paths(entry, it);
	if (why == NOT_APART && it->opcode == OP_RENAMEAT && lacks_rename(flags))
		return APART_LACKS;
	return why;
}

/* Whether a vector behind the first reaches beyond the addresses of a process. */
static bool is_beyond_addresses(const struct entry *entry, const struct fields *it)
{
	if (it->opcode != OP_READV || it->length < 2 || 8ULL * it->length > entry->side_length)
		return false;
	for (u64 at = 0; at < it->length; at++) {
		if (number_at(entry->side + 8 * at, 8) >= LONG_VECTOR)
			return true;
	}
	return false;
}

static enum apart why_transfer(const struct entry *entry, const struct fields *it)
{
	if (it->own_flags & ~(trace.version == 3 ? SERVED_RW_FLAGS : 0))
		return APART_FLAGS;
	if (is_beyond_addresses(entry, it))
		return APART_MEMORY;
	if (it->offset <= INT64_MAX && it->offset + asked_of(entry) > INT64_MAX)
		return APART_OFFSET;
	return NOT_APART;
}

/* Whether an allocation would take much space: it is one of blocks, and the limit of sizes does not
 * forbid it. */
static bool takes_space(const struct fields *it)
{
	bool is_forbidden = !it->length && !options.no_limit && it->address <= INT64_MAX &&
			    it->offset + it->address > GREATEST_SIZE;

	return it->length != 3 && it->offset <= INT64_MAX && it->address <= INT64_MAX &&
	       it->address > MOST_ALLOCATED && !is_forbidden;
}

static enum apart why_allocation(const struct fields *it)
{
	if (it->length & OTHER_MODES)
		return APART_MODE;
	if (it->offset > INT64_MAX || !it->address || it->address > INT64_MAX)
		return NOT_APART;
	if (it->offset + it->address > GREATEST_SIZE && it->length != 0)
		return APART_RANGE;
	if (lacks_mode(it->length))
		return APART_LACKS;
	return takes_space(it) ? APART_SPACE : NOT_APART;
}

enum apart why_apart(const struct entry *entry)
{
	struct fields it = fields_of(entry);

	if (entry->is_given)
		return APART_GIVEN;
	if (!is_served(it.opcode))
		return it.opcode < 128 ? APART_OPCODE : NOT_APART;
	if (lacks_opcode(it.opcode))
		return APART_LACKS;
	if (it.flags & FLAG_SELECT)
		return APART_SELECTION;
	if (is_on_names(it.opcode))
		return why_names(entry, &it);
	if (it.opcode == OP_CLOSE && has_no_slot(entry, &it))
		return APART_SLOT;
	if (is_transfer(it.opcode))
		return why_transfer(entry, &it);
	return it.opcode == OP_FALLOCATE ? why_allocation(&it) : NOT_APART;
}

/* With --raw the directory is the root of the process, so that no path leads out of it. */
enum apart why_never(const struct entry *entry)
{
	struct fields it = fields_of(entry);

	if (entry->is_given)
		return APART_GIVEN;
	if (!is_served(it.opcode))
		return it.opcode < 128 ? APART_OPCODE : NOT_APART;
	if (it.opcode == OP_RENAMEAT && it.own_flags & RENAME_LEAVES_A_DEVICE)
		return APART_FLAGS;
	if (is_on_names(it.opcode))
		return !options.raw && has_odd_path(entry) ? APART_PATH : NOT_APART;
	return it.opcode == OP_FALLOCATE && takes_space(&it) ? APART_SPACE : NOT_APART;
}

/* --- Chains -------------------------------------------------------------------------------------
 */

bool is_found_late(const struct entry *entry)
{
	struct fields it = fields_of(entry);

	if (entry->is_given || it.flags & (128 | FLAG_FIXED) || it.personality)
		return false;
	if (it.opcode == OP_CLOSE)
		return it.file_index == UINT32_MAX;
	if (entry->expected != -EINVAL)
		return false;
	if (it.opcode == OP_STATX)
		return is_stat(it.opcode);
	if (it.opcode == OP_OPENAT)
		return (it.own_flags & CREATED_DIRECTORY) == CREATED_DIRECTORY;
	if (it.opcode == OP_RENAMEAT)
		return it.own_flags > (trace.version == 1 ? RENAME_NOT_ONTO : RENAME_SWAPS);
	return it.opcode == OP_LINKAT && it.own_flags != 0 && it.own_flags != LINK_FOLLOWS;
}

/* A bad descriptor fails before the operation begins, and that breaks a chain everywhere. */
bool surely_breaks(const struct entry *entry)
{
	u8 opcode = entry->sqe[0];

	if (is_transfer(opcode))
		return asked_of(entry) || entry->expected != -EISDIR;
	if (opcode == OP_FADVISE)
		return true;
	if (opcode == OP_FSYNC || opcode == OP_SYNC_FILE_RANGE || opcode == OP_FTRUNCATE)
		return entry->expected == -EBADF;
	return !is_served(opcode) || opcode == OP_OPENAT || opcode == OP_CLOSE || opcode == OP_NOP;
}

/* --- Results that are as right ------------------------------------------------------------------
 */

/* Whether a path of an entry fails by itself with this result. */
static bool fails_by_path(const struct entry *entry, i32 result)
{
	u64 length = path_of(entry).length;
	u64 other = has_two_paths(entry->sqe[0]) ? new_path_of(entry).length : length;

	return (result == -ENOENT && (!length || !other)) ||
	       (result == -ENAMETOOLONG && (length > MOST_PATH || other > MOST_PATH));
}

/* rename(2), rmdir(2): a directory that is not empty; a file onto a directory that is above it. */
static bool is_either(u8 opcode, i32 expected, i32 result)
{
	if (opcode == OP_RENAMEAT && expected == -EISDIR && result == -ENOTEMPTY)
		return true;
	return (opcode == OP_RENAMEAT || opcode == OP_UNLINKAT) && expected == -ENOTEMPTY &&
	       result == -EEXIST;
}

/* Several tests fail, and the system makes another one of them first. */
static bool is_by_tests(const struct entry *entry, i32 expected, i32 result)
{
	u8 opcode = entry->sqe[0];
	bool is_fixed = opcode == OP_READ_FIXED || opcode == OP_WRITE_FIXED;

	if (is_on_names(opcode) && expected == -EINVAL && fails_by_path(entry, result))
		return true;
	if (is_fixed && result == -EFAULT && (expected == -EBADF || expected == -EISDIR))
		return true;
	if (is_read(opcode))
		return expected == -EISDIR && (result == -EINVAL || (!result && !asked_of(entry)));
	if (opcode == OP_LINKAT)
		return result == -ENOENT &&
		       (expected == -ENOTDIR || expected == -EBADF || expected == -ENAMETOOLONG);
	return opcode == OP_RENAMEAT && expected == -ENAMETOOLONG &&
	       (result == -ENOENT || result == -ENOTDIR || result == -EBADF);
}

enum apart why_as_right(const struct entry *entry)
{
	u8 opcode = entry->sqe[0];
	i32 expected = entry->expected, result = entry->result;

	if (is_either(opcode, expected, result))
		return APART_EITHER;
	if (is_by_tests(entry, expected, result))
		return APART_TESTS;
	/* Beside others: another open that fails has the last free number for a moment. */
	if ((options.rounds || options.depends) && opcode == OP_OPENAT && expected < 0 &&
	    result == -EMFILE)
		return APART_OPENS;
	return NOT_APART;
}
