#include "given.h"
#include "notes.h"
#include "paths.h"

#include <errno.h>
#include <fcntl.h>
#include <stdio.h>
#include <stdlib.h>
#include <string.h>
#include <sys/resource.h>
#include <sys/stat.h>

/* What the replay decides. */

/* Whether an offset is one that a read or write refuses. */
static bool is_bad_offset(u64 offset)
{
	return offset > INT64_MAX && offset != AT_POSITION;
}

/* Whether a fixed read or write lies outside its buffer. */
static bool is_outside_buffer(const struct flight *flight)
{
	u64 from = flight->entry->sqe.addr, length = flight->entry->sqe.len;

	if (flight->buffer == NO_BUFFER)
		return true;
	const struct buffer *buffer = &flight->ring->buffers[flight->buffer];
	return from < buffer->address || length > buffer->length ||
	       from - buffer->address > buffer->length - length;
}

/* Whether the profile has an error for a read or write. */
static bool moves_with(const struct flight *flight, i32 error)
{
	const struct io_uring_sqe *sqe = &flight->asked_for;
	bool is_vectored = sqe->opcode == OP_READV || sqe->opcode == OP_WRITEV;

	switch (error) {
	case EBADF:
		return true;
	case EISDIR:
		return reads_bytes(sqe->opcode);
	case EFBIG:
		return !reads_bytes(sqe->opcode);
	case EINVAL: /* (lengths that are too long together are not looked for) */
		return is_bad_offset(sqe->off) || is_vectored;
	case EFAULT:
		return is_fixed(sqe->opcode) && is_outside_buffer(flight);
	default:
		return false;
	}
}

/* Whether the old name of a LINKAT is a directory's. */
static bool links_directory(const struct flight *flight)
{
	struct stat status;
	char *full = flight->names[0] ? outside_path(flight->names[0]) : NULL;
	bool is_directory = full && !lstat(full, &status) && S_ISDIR(status.st_mode);

	free(full);
	return is_directory;
}

/* Whether the profile has an error for an operation on names. */
static bool names_with(const struct flight *flight, i32 error)
{
	u8 opcode = flight->asked_for.opcode;

	switch (error) {
	case EBADF:
	case EINVAL:
	case ENOENT:
	case ENOTDIR:
	case ENAMETOOLONG:
		return true;
	case EEXIST:
		return opcode != OP_UNLINKAT;
	case EISDIR:
		return opcode == OP_OPENAT || opcode == OP_UNLINKAT || opcode == OP_RENAMEAT;
	case ENOTEMPTY:
		return opcode == OP_UNLINKAT || opcode == OP_RENAMEAT;
	case EMFILE:
		return opens_in_table(&flight->asked_for);
	case EPERM:
		return opcode == OP_LINKAT && links_directory(flight);
	default:
		return false;
	}
}

/* Whether an allocation has a mode that the profile refuses. */
static bool has_other_mode(const struct io_uring_sqe *sqe)
{
	switch (sqe->len) {
	case 0x00:
	case 0x01:
	case 0x03:
	case 0x10:
	case 0x11:
		return false;
	default:
		return true;
	}
}

/* Whether the profile has an error for an operation. */
static bool fails_with(const struct flight *flight, i32 error)
{
	const struct io_uring_sqe *sqe = &flight->asked_for;

	if (moves_bytes(sqe->opcode))
		return moves_with(flight, error);
	switch (sqe->opcode) {
	case OP_NOP:
		return false;
	case OP_FSYNC:
	case OP_SYNC_FILE_RANGE:
	case OP_FADVISE:
	case OP_CLOSE:
		return error == EBADF || error == EINVAL;
	case OP_FALLOCATE:
		return error == EBADF || error == EINVAL || error == EFBIG ||
		       (error == EOPNOTSUPP && has_other_mode(sqe));
	case OP_FTRUNCATE:
		return error == EBADF || error == EINVAL || error == EFBIG;
	default:
		return names_with(flight, error);
	}
}

/* Whether a write moved fewer bytes than it asks for, and its file is not full. */
static bool is_cut(const struct flight *flight, i32 result)
{
	u8 opcode = flight->asked_for.opcode;

	return moves_bytes(opcode) && !reads_bytes(opcode) && flight->used &&
	       (u64)result < flight->asked && size_now(flight->used) < MOST_SIZE;
}

bool is_undecided(const struct flight *flight, i32 result)
{
	if (result >= 0)
		return is_cut(flight, result);
	/* (whether a chain cancels it is known when that has ended) */
	return result != -ECANCELED && !fails_with(flight, -result);
}

/* What Linux does otherwise. */

/* Whether there is something at a path of the trace, and a directory. */
static bool is_there(const char *path, bool *is_directory)
{
	struct stat status;
	char *full = outside_path(path);
	bool is_any = !lstat(full, &status);

	*is_directory = is_any && S_ISDIR(status.st_mode);
	free(full);
	return is_any;
}

/* Whether the file of an entry is a directory. */
static bool is_on_directory(const struct flight *flight)
{
	const struct opened *used = flight->used;
	struct stat status;

	if (!used || (used->descriptor < 0 && !used->name))
		return false;
	return !(used->descriptor < 0 ? stat(used->name, &status)
				      : fstat(used->descriptor, &status)) &&
	       S_ISDIR(status.st_mode);
}

/* Whether a file may not be read or written as an entry does. */
static bool has_other_access(const struct flight *flight)
{
	bool reads = reads_bytes(flight->asked_for.opcode);

	return flight->used && flight->used->access == (reads ? O_WRONLY : O_RDONLY);
}

/* The same of a read or write: of other tests that come first, and of an end that is no offset. */
static bool moves_as_linux(const struct flight *flight, i32 result)
{
	u64 offset = flight->asked_for.off;

	switch (result) {
	case 0:
		return !flight->asked && is_on_directory(flight);
	case -EFAULT:
		return is_fixed(flight->asked_for.opcode) &&
		       (has_other_access(flight) || is_on_directory(flight));
	case -EINVAL:
		return offset <= INT64_MAX && flight->asked > INT64_MAX - offset;
	default:
		return false;
	}
}

/* Whether both names of an entry have faults, of which Linux may tell the other one. */
static bool has_two_faults(const struct flight *flight)
{
	bool is_directory;

	return flight->names[0] && flight->names[1] && !is_there(flight->names[0], &is_directory) &&
	       !has_parent(flight->names[1]);
}

/* The same of a rename or link. */
static bool renames_as_linux(const struct flight *flight, i32 result)
{
	const struct io_uring_sqe *sqe = &flight->asked_for;
	bool is_rename = sqe->opcode == OP_RENAMEAT, is_directory = false;

	switch (result) {
	case -ENOTEMPTY:
		return is_rename && flight->names[0] && is_there(flight->names[0], &is_directory) &&
		       !is_directory;
	case -EEXIST:
		return is_rename && !(sqe->rename_flags & RENAME_NOREPLACE);
	case -ENOENT:
	case -ENOTDIR:
	case -ENAMETOOLONG:
		return has_two_faults(flight);
	default:
		return false;
	}
}

/* Whether the process may have fewer numbers now than the table has. */
static bool has_fewer_numbers(pid_t process)
{
	struct rlimit limit = { RLIM_INFINITY, RLIM_INFINITY };

	prlimit(process, RLIMIT_NOFILE, NULL, &limit);
	return limit.rlim_cur < trace.table_size;
}

bool is_of_linux(const struct flight *flight, i32 result)
{
	const struct io_uring_sqe *sqe = &flight->asked_for;

	if (flight->entry->is_aside)
		return false;
	if (moves_bytes(sqe->opcode))
		return moves_as_linux(flight, result);
	if (sqe->opcode == OP_RENAMEAT || sqe->opcode == OP_LINKAT)
		return renames_as_linux(flight, result);
	return result == -EMFILE && opens_in_table(sqe) && has_fewer_numbers(flight->process);
}

bool fails_alone(const struct io_uring_sqe *sqe)
{
	switch (sqe->opcode) {
	case OP_FSYNC: /* (what is refused by its fields does not begin) */
		return !(sqe->fsync_flags & ~(u32)IORING_FSYNC_DATASYNC);
	case OP_UNLINKAT:
		return !(sqe->unlink_flags & ~(u32)AT_REMOVEDIR);
	case OP_SYNC_FILE_RANGE:
	case OP_STATX:
	case OP_FALLOCATE:
	case OP_FTRUNCATE:
	case OP_RENAMEAT:
	case OP_MKDIRAT:
	case OP_LINKAT:
		return true;
	default:
		return false;
	}
}

bool fails_silently(const struct flight *flight)
{
	const struct io_uring_sqe *sqe = &flight->asked_for;
	u32 both = FLAG_SKIP | FLAG_LINK;
	bool is_directory;

	if ((sqe->flags & both) != both || sqe->flags & FLAG_HARD || !flight->names[0])
		return false;
	bool is_any = is_there(flight->names[0], &is_directory);
	switch (sqe->opcode) {
	case OP_MKDIRAT:
		return is_any || !has_parent(flight->names[0]);
	case OP_UNLINKAT:
		return !is_any || is_directory != !!(sqe->unlink_flags & AT_REMOVEDIR);
	case OP_LINKAT:
		return !is_any || is_directory ||
		       (flight->names[1] && is_there(flight->names[1], &is_directory));
	case OP_RENAMEAT:
	case OP_STATX:
		return !is_any;
	default:
		return false;
	}
}

/* Memory. */

/* Opcodes that the profile does not serve and that put nothing into the memory of the program. */
enum {
	POLL_ADD = 6,
	POLL_REMOVE = 7,
	SENDMSG = 9,
	TIMEOUT = 11,
	TIMEOUT_REMOVE = 12,
	ASYNC_CANCEL = 14,
	LINK_TIMEOUT = 15,
	CONNECT = 16,
	SEND = 26,
	OPENAT2 = 28,
	EPOLL_CTL = 29,
	SPLICE = 30,
	TEE = 33,
	SHUTDOWN = 34,
	SYMLINKAT = 38,
	MSG_RING = 40,
	SOCKET = 45,
	SEND_ZC = 47,
	SENDMSG_ZC = 48,
};

bool may_fill_memory(const struct entry *entry)
{
	u8 opcode = entry->opcode;

	if (is_served(opcode))
		return fills_memory(opcode);
	switch (opcode) {
	case POLL_ADD:
	case POLL_REMOVE:
	case SENDMSG:
	case TIMEOUT:
	case TIMEOUT_REMOVE:
	case ASYNC_CANCEL:
	case LINK_TIMEOUT:
	case CONNECT:
	case SEND:
	case OPENAT2:
	case EPOLL_CTL:
	case SPLICE:
	case TEE:
	case SHUTDOWN:
	case SYMLINKAT:
	case MSG_RING:
	case SOCKET:
	case SEND_ZC:
	case SENDMSG_ZC:
		return false;
	default:
		return true;
	}
}

/* Chains that have ended. */

/* Whether an entry has a result that was seen, and it is this one. */
static bool gave(const struct entry *entry, i32 result)
{
	return entry->state == ENTRY_POSTED && entry->is_landed && entry->result == result;
}

/* Whether an entry is a timeout that did not fire: the chain goes by it. */
static bool is_passed(const struct entry *entry)
{
	return entry->opcode == LINK_TIMEOUT && gave(entry, -ECANCELED);
}

/* Whether the kernel refused a chain on submission: no member ran, and one that has an error of its
 * own stands behind one that was canceled, or was to break nothing by its failure. */
static bool was_refused(const struct entry *head, const struct entry *end)
{
	bool is_canceled = false, is_refused = false, is_behind_hard = false;

	for (const struct entry *it = head; it < end; it++) {
		if (it->state != ENTRY_POSTED || !it->is_landed || it->result >= 0)
			return false;
		if (is_passed(it))
			continue;
		if (it->result == -ECANCELED) {
			is_refused |= is_behind_hard;
			is_canceled = true;
			is_behind_hard = false;
			continue;
		}
		if (it->opcode == LINK_TIMEOUT && it->result != -EINVAL && it->result != -EFAULT)
			return false; /* (it fired) */
		is_refused |= is_canceled;
		is_behind_hard = it->sqe.flags & FLAG_HARD;
	}
	return is_refused;
}

/* How many bytes a read or write that is decided asks for. */
static u64 asked_by(const struct entry *entry)
{
	u64 asked = 0;

	if (entry->opcode != OP_READV && entry->opcode != OP_WRITEV)
		return min64(entry->sqe.len, MOST_MOVED);
	for (u32 at = 0; at < entry->sqe.len && 8 * (at + 1) <= entry->side_length; at++) {
		u64 length;
		memcpy(&length, entry->side + 8ULL * at, 8);
		asked += min64(length, MOST_MOVED);
	}
	return min64(asked, MOST_MOVED);
}

/* Whether the member before a canceled one has it canceled in the replay, too. */
static bool cancels_next(const struct entry *entry)
{
	bool is_hard = entry->sqe.flags & FLAG_HARD;

	if (entry->state == ENTRY_UNSEEN || !entry->is_landed)
		return true;
	if (entry->state == ENTRY_SILENT)
		return false;
	if (entry->result == -ECANCELED && !is_given(entry))
		return true;
	if (is_hard || is_given(entry))
		return !is_hard;
	if (moves_bytes(entry->opcode))
		return entry->result < 0 || (u64)entry->result != asked_by(entry);
	return entry->result < 0;
}

/* Gives canceled members that no other one cancels in the replay. */
static void give_canceled(struct entry *head, const struct entry *end)
{
	const struct entry *before = NULL; /* but for timeouts that did not fire */
	bool is_given_up = false;

	for (struct entry *it = head; it < end; it++) {
		if (!is_given(it) && gave(it, -ECANCELED) && !(before && cancels_next(before))) {
			note("a member of a chain that was canceled by no other", it);
			put_aside(it, OUTSIDE_SYSTEM);
		}
		is_given_up |= is_given(it) && !it->is_landed;
		it->is_given_up = is_given_up;
		if (!is_passed(it))
			before = it;
	}
}

/* What is seen of the members of a chain behind one: whether there is something, and something that
 * was not canceled. */
struct behind {
	bool is_any, has_run;
};

/* Whether a member of a chain that is given fails: with CQE_SKIP_SUCCESS that is where it posted,
 * else where it broke its chain. */
static bool has_failed(const struct entry *entry, struct behind behind)
{
	if (entry->state == ENTRY_SILENT || is_passed(entry))
		return false;
	if (entry->state == ENTRY_UNSEEN || entry->is_given_up)
		return given_result(entry) < 0;
	if (entry->sqe.flags & FLAG_SKIP)
		return true;
	return behind.is_any ? !behind.has_run : entry->result < 0;
}

/* Gives the results of a chain. */
static void give_chain(struct entry *head, const struct entry *end)
{
	bool is_refused = was_refused(head, end);
	struct behind behind = { 0 };

	if (!is_refused)
		give_canceled(head, end);
	for (struct entry *it = head + (end - head); it-- > head;) {
		it->is_refused = is_refused && it->result != -ECANCELED;
		it->fails = is_given(it) && has_failed(it, behind);
		if (it->state == ENTRY_UNSEEN || !it->is_landed || is_passed(it))
			continue;
		behind.is_any = true;
		behind.has_run |= !gave(it, -ECANCELED);
	}
}

void give_results(struct record *record)
{
	struct entry *head = record->entries, *end = head + record->count;

	for (struct entry *it = head; it < end; it++) {
		if (awaits_slot(it))
			put_aside(it, OUTSIDE_SLOT);
		if (opens_in_table(&it->sqe) && !it->is_landed)
			put_aside(it, OUTSIDE_UNSEEN); /* (its number is not known) */
		if (it + 1 < end && goes_on(&it->sqe))
			continue;
		give_chain(head, it + 1);
		head = it + 1;
	}
}

i32 given_result(const struct entry *entry)
{
	bool is_unseen = entry->state == ENTRY_UNSEEN || entry->is_given_up;
	/* (one that is to post nothing, and was let go of, has most likely ended well) */
	bool is_quiet = entry->is_landed && entry->sqe.flags & FLAG_SKIP;

	if (entry->state == ENTRY_SILENT || (is_unseen && is_quiet))
		return 0;
	return is_unseen ? -ECANCELED : entry->result;
}
