#include "entry.h"
#include "uring.h"

#include <string.h>

/* The most vectors of a READV or WRITEV. */
enum { MOST_VECTORS = 1024 };

struct fields fields_of(const struct entry *entry)
{
	const u8 *sqe = entry->sqe;

	return (struct fields){
		.opcode = sqe[0],
		.flags = sqe[1],
		.fd = (i32)number_at(sqe + 4, 4),
		.offset = number_at(sqe + 8, 8),
		.address = number_at(sqe + 16, 8),
		.length = (u32)number_at(sqe + 24, 4),
		.own_flags = (u32)number_at(sqe + 28, 4),
		.user = number_at(sqe + 32, 8),
		.buffer = (u16)number_at(sqe + 40, 2),
		.personality = (u16)number_at(sqe + 42, 2),
		.file_index = (u32)number_at(sqe + 44, 4),
	};
}

bool has_two_paths(u8 opcode)
{
	return opcode == OP_RENAMEAT || opcode == OP_LINKAT;
}

bool is_stat(u8 opcode)
{
	return trace.version == 3 && opcode == OP_STATX;
}

bool is_on_names(u8 opcode)
{
	return is_stat(opcode) || opcode == OP_OPENAT || opcode == OP_UNLINKAT || opcode == OP_MKDIRAT ||
	       has_two_paths(opcode);
}

/* Side bytes fit their entry (`fits`), so that the length of an old path is there and right. */
struct span path_of(const struct entry *entry)
{
	if (has_two_paths(entry->sqe[0]))
		return (struct span){ entry->side + 2, number_at(entry->side, 2) };
	return (struct span){ entry->side, entry->side_length };
}

struct span new_path_of(const struct entry *entry)
{
	u64 length = number_at(entry->side, 2);

	return (struct span){ entry->side + 2 + length, entry->side_length - 2 - length };
}

bool is_odd(struct span path)
{
	u64 from = 0;

	if (!path.length || path.length > MOST_PATH)
		return false;
	if (path.bytes[path.length - 1] == '/')
		return true;
	for (u64 at = 0; at <= path.length; at++) {
		if (at < path.length && path.bytes[at] != '/')
			continue;
		if (at - from == 1 && path.bytes[from] == '.')
			return true;
		if (at - from == 2 && path.bytes[from] == '.' && path.bytes[from + 1] == '.')
			return true;
		from = at + 1;
	}
	return false;
}

bool is_advice(u8 opcode)
{
	return trace.version == 3 && (opcode == OP_SYNC_FILE_RANGE || opcode == OP_FADVISE);
}

bool is_served(u8 opcode)
{
	return is_advice(opcode) || opcode == OP_NOP || opcode == OP_FSYNC ||
	       opcode == OP_FALLOCATE || opcode == OP_FTRUNCATE || opcode == OP_CLOSE ||
	       is_transfer(opcode) || is_on_names(opcode);
}

bool is_read(u8 opcode)
{
	return opcode == OP_READ || opcode == OP_READV || opcode == OP_READ_FIXED;
}

bool is_transfer(u8 opcode)
{
	return is_read(opcode) || opcode == OP_WRITE || opcode == OP_WRITEV ||
	       opcode == OP_WRITE_FIXED;
}

u64 asked_of(const struct entry *entry)
{
	u32 length = (u32)number_at(entry->sqe + 24, 4);
	u64 sum = 0;

	if (entry->sqe[0] != OP_READV && entry->sqe[0] != OP_WRITEV)
		return min64(length, MOST_MOVED);
	for (u64 at = 0; at < length && 8 * at + 8 <= entry->side_length; at++)
		sum = min64(sum + min64(number_at(entry->side + 8 * at, 8), MOST_MOVED),
			    MOST_MOVED);
	return sum;
}

struct buffer *buffer_of(const struct entry *entry)
{
	struct ring_of_trace *ring = &trace.rings[entry->ring];
	u16 number = fields_of(entry).buffer;

	return number < ring->buffer_count ? &ring->buffers[number] : NULL;
}

bool is_failure(const struct entry *entry, i32 result)
{
	if (entry->is_given)
		return entry->is_refused || entry->fails;
	if (!is_transfer(entry->sqe[0]))
		return result < 0;
	return result < 0 || (u64)result != asked_of(entry);
}

/* --- Side bytes ---------------------------------------------------------------------------------
 */

u64 lengths_of(const struct entry *entry)
{
	u64 count = number_at(entry->sqe + 24, 4);
	bool has_vectors = entry->sqe[0] == OP_READV || entry->sqe[0] == OP_WRITEV;

	return has_vectors && count <= MOST_VECTORS ? 8 * count : 0;
}

/* The lengths of a vector, and the bytes that follow them where it writes. */
static bool fits_vector(const struct entry *entry, u64 count)
{
	u64 lengths = lengths_of(entry), sum = 0, bytes;

	if (entry->side_length < lengths)
		return false;
	for (u64 at = 0; at < lengths; at += 8) {
		u64 length = number_at(entry->side + at, 8);
		sum = length > UINT64_MAX - sum ? UINT64_MAX : sum + length;
	}
	bytes = entry->sqe[0] == OP_WRITEV && sum <= INT64_MAX ? min64(sum, MOST_MOVED) : 0;
	return count == lengths + bytes;
}

bool fits_count(const struct entry *entry, u64 count)
{
	switch (entry->sqe[0]) {
	case OP_READV:
	case OP_WRITEV:
		return fits_vector(entry, count);
	case OP_WRITE:
		return count == min64(number_at(entry->sqe + 24, 4), MOST_MOVED);
	default:
		return !count;
	}
}

bool fits(const struct entry *entry)
{
	u64 length = entry->side_length;

	if (is_stat(entry->sqe[0]))
		return !memchr(entry->side, 0, length);
	switch (entry->sqe[0]) {
	case OP_OPENAT:
	case OP_UNLINKAT:
	case OP_MKDIRAT:
		return !memchr(entry->side, 0, length);
	case OP_RENAMEAT:
	case OP_LINKAT:
		return length >= 2 && number_at(entry->side, 2) <= length - 2 &&
		       !memchr(entry->side + 2, 0, length - 2);
	default:
		return fits_count(entry, length);
	}
}
