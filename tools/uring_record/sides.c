#include "sides.h"
#include "meetings.h"
#include "memory.h"
#include "notes.h"
#include "paths.h"

#include <fcntl.h>
#include <stdlib.h>
#include <string.h>
#include <sys/stat.h>

enum { MOST_VECTORS = 1024, SHORT_GAP = 512, MUCH = 1 << 20 };

/* Notes what cannot be read of an entry, and marks the entry. */
static void unread(struct entry *entry, const char *what)
{
	note(what, entry);
	put_aside(entry, OUTSIDE_MEMORY);
}

/* Keeps the vectors of an entry while it is in flight. */
static void keep_vectors(struct flight *flight, const struct iovec *vectors, u32 count)
{
	struct iovec *kept = flight->vectors;

	if (count > MOST_KEPT_VECTORS)
		kept = flight->more_vectors = allocate(count * sizeof *vectors);
	flight->vector_count = count;
	if (count)
		memcpy(kept, vectors, count * sizeof *vectors);
}

/* The bytes that vectors ask for together, 0 where that is no number of bytes. */
static u64 total_of(const struct iovec *vectors, u32 count)
{
	u64 total = 0;

	for (u32 at = 0; at < count; at++) {
		if (vectors[at].iov_len > INT64_MAX - total)
			return 0;
		total += vectors[at].iov_len;
	}
	return min64(total, MOST_MOVED);
}

/* Whether bytes of a write can be had: of much memory the end is tried first, and nothing is read
 * where the trace has no room for it. */
static bool may_read(pid_t thread, const struct iovec *vector)
{
	u64 length = vector->iov_len;
	u8 last;

	return length <= MUCH ||
	       (length <= MOST_MOVED && fetch(thread, address_of(vector) + length - 1, &last, 1) &&
		has_room(stored_of(length)));
}

/* An entry whose bytes cannot be had asks for none: its replay changes nothing. */
static void takes_nothing(struct entry *entry)
{
	unread(entry, "bytes of a write that cannot be read: none are recorded");
	free(entry->side);
	entry->side = NULL;
	entry->side_length = 0;
	if (!is_given(entry))
		entry->sqe.len = 0;
}

/* READV and WRITEV: lengths, and the bytes of a write. */
static void take_vectored(struct flight *flight, pid_t thread)
{
	struct entry *entry = flight->entry;
	u32 count = entry->sqe.len;

	if (count > MOST_VECTORS)
		return;
	struct iovec *vectors = fetch_vectors(thread, entry->sqe.addr, count);
	if (!vectors) {
		unread(entry, "vectors that cannot be read: lengths of 0 are recorded");
		vectors = allocate((count + 1) * sizeof *vectors);
	}
	u64 bytes = entry->sqe.opcode == OP_WRITEV ? total_of(vectors, count) : 0;
	flight->asked = total_of(vectors, count);
	for (u32 at = 0; bytes && at < count; at++) {
		if (!may_read(thread, &vectors[at])) {
			takes_nothing(entry);
			keep_vectors(flight, vectors, count);
			free(vectors);
			return;
		}
	}
	entry->side_length = (u32)(8 * count + bytes);
	entry->side = allocate(entry->side_length);
	for (u32 at = 0; at < count; at++)
		memcpy(entry->side + 8ULL * at, &vectors[at].iov_len, 8);
	if (!fetch_gathered(thread, vectors, count, entry->side + 8ULL * count, bytes))
		takes_nothing(entry);
	keep_vectors(flight, vectors, count);
	free(vectors);
}

/* READ, WRITE and the fixed forms: the bytes of a WRITE. */
static void take_plain(struct flight *flight, pid_t thread)
{
	struct entry *entry = flight->entry;
	struct iovec vector = { (void *)(uintptr_t)entry->sqe.addr, entry->sqe.len };

	flight->asked = min64(entry->sqe.len, MOST_MOVED);
	keep_vectors(flight, &vector, 1);
	if (entry->sqe.opcode != OP_WRITE)
		return;
	vector.iov_len = flight->asked;
	if (may_read(thread, &vector)) {
		entry->side_length = (u32)flight->asked;
		entry->side = allocate(entry->side_length);
	}
	if (!entry->side || (entry->side_length &&
			     !fetch(thread, entry->sqe.addr, entry->side, entry->side_length)))
		takes_nothing(entry);
}

/* Whether an entry goes on to what a symbolic link at the end of its path leads to. */
static bool follows_last(const struct io_uring_sqe *sqe)
{
	u32 made = O_CREAT | O_EXCL;

	if (sqe->opcode == OP_LINKAT)
		return sqe->hardlink_flags & AT_SYMLINK_FOLLOW;
	if (sqe->opcode == OP_STATX)
		return !(sqe->statx_flags & AT_SYMLINK_NOFOLLOW);
	return sqe->opcode == OP_OPENAT && !(sqe->open_flags & O_NOFOLLOW) &&
	       (sqe->open_flags & made) != made;
}

/* Whether a path goes up somewhere. */
static bool has_dots(const char *path)
{
	size_t length = strlen(path);

	return strstr(path, "/../") || (length >= 3 && !strcmp(path + length - 3, "/..")) ||
	       !strcmp(path, "..") || !strncmp(path, "../", 3);
}

/* Notes and marks an entry whose path the trace cannot have; tells what it leads to. */
static enum name_kind look_at_path(struct entry *entry, char **path, bool is_known)
{
	enum name_kind kind = NAME_TOLD;

	if (!is_known) {
		note("a path outside the root", entry);
		put_aside(entry, OUTSIDE_PATH);
		return kind;
	}
	if (has_dots(*path) || (**path && (*path)[strlen(*path) - 1] == '/')) {
		note("a path with dots or with a slash at its end, which the replay refuses",
		     entry);
		put_aside(entry, OUTSIDE_PATH);
		return kind;
	}
	kind = look_through(path, follows_last(&entry->sqe));
	if (kind == NAME_LINK) {
		note("a path to a symbolic link, or to what is neither file nor directory", entry);
		put_aside(entry, OUTSIDE_LINK);
	} else if (kind == NAME_LARGE) {
		note("a file of more than 2^40 bytes, which no trace can have", entry);
		put_aside(entry, OUTSIDE_LARGE);
	}
	return kind;
}

void name_outside(struct flight *flight, u32 which, int directory, const char *text)
{
	char *full = full_name(flight->process, directory, text);
	bool is_there = true;

	if (full)
		flight->names[which] = resolve_name(full, &is_there);
	if (is_there)
		free(full);
	else
		flight->unresolved[which] = full;
}

/* The first or second path of an entry as the trace has it, in memory of its own. */
static char *take_path(struct flight *flight, u32 which, pid_t thread, int directory, u64 address)
{
	struct entry *entry = flight->entry;
	char *text = fetch_text(thread, address);
	bool is_known;

	if (!text) {
		unread(entry, "a path that cannot be read");
		return copy_text("");
	}
	char *path = translate(flight->process, directory, text, &is_known);
	char *walked = copy_text(path);
	flight->is_link[which] = look_at_path(entry, &path, is_known) == NAME_LINK;
	flight->walks |= strcmp(walked, path) || has_dots(path);
	free(walked);
	flight->is_nowhere |=
		entry->is_aside && *text && !starts_somewhere(flight->process, directory, text);
	if (entry->is_aside)
		name_outside(flight, which, directory, text);
	else
		flight->names[which] = copy_text(path);
	free(text);
	return path;
}

/* OPENAT, UNLINKAT, MKDIRAT. */
static void take_one_path(struct flight *flight, pid_t thread)
{
	struct entry *entry = flight->entry;
	char *path = take_path(flight, 0, thread, entry->sqe.fd, entry->sqe.addr);

	entry->side = (u8 *)path;
	entry->side_length = (u32)strlen(path);
}

/* RENAMEAT and LINKAT. */
static void take_two_paths(struct flight *flight, pid_t thread)
{
	struct entry *entry = flight->entry;
	char *one = take_path(flight, 0, thread, entry->sqe.fd, entry->sqe.addr);
	char *other = take_path(flight, 1, thread, (int)entry->sqe.len, entry->sqe.addr2);
	u16 length = (u16)strlen(one);

	entry->side_length = 2 + length + (u32)strlen(other);
	entry->side = allocate(entry->side_length);
	memcpy(entry->side, &length, 2);
	memcpy(entry->side + 2, one, length);
	memcpy(entry->side + 2 + length, other, entry->side_length - 2 - length);
	free(one);
	free(other);
	flight->replaces = flight->is_link[0] && flight->names[1] && is_file(flight->names[1]);
}

/* A STATX by a number has no path. Where it has one, or is of the working directory, it is outside.
 */
static void take_no_path(struct entry *entry, pid_t thread)
{
	char *text = fetch_text(thread, entry->sqe.addr);

	if (!text)
		unread(entry, "a path that cannot be read");
	else if (*text || entry->sqe.fd == AT_FDCWD)
		put_aside(entry, OUTSIDE_FLAGS);
	free(text);
}

/* STATX: its path, and where it puts what it tells. */
static void take_told(struct flight *flight, pid_t thread)
{
	struct iovec told = { (void *)(uintptr_t)flight->entry->sqe.addr2, sizeof(struct statx) };

	if (stats_number(&flight->entry->sqe))
		take_no_path(flight->entry, thread);
	else
		take_one_path(flight, thread);
	keep_vectors(flight, &told, 1);
}

void take_side(struct flight *flight, pid_t thread)
{
	switch (flight->entry->sqe.opcode) {
	case OP_READV:
	case OP_WRITEV:
		take_vectored(flight, thread);
		break;
	case OP_READ:
	case OP_WRITE:
	case OP_READ_FIXED:
	case OP_WRITE_FIXED:
		take_plain(flight, thread);
		break;
	case OP_OPENAT:
	case OP_UNLINKAT:
	case OP_MKDIRAT:
		take_one_path(flight, thread);
		break;
	case OP_STATX:
		take_told(flight, thread);
		break;
	case OP_RENAMEAT:
	case OP_LINKAT:
		take_two_paths(flight, thread);
		break;
	}
	counts.side_bytes += flight->entry->side_length;
}

/* Fills */

/* Adds a fill of a range of a buffer. */
static void add_fill(struct flight *flight, struct buffer *buffer, u64 offset, const u8 *bytes,
		     u64 length)
{
	struct record *record = new_record(flight->ring, 0);

	record->kind = RECORD_FILL;
	record->buffer = (u16)flight->buffer;
	record->offset = (u32)offset;
	record->length = (u32)length;
	record->bytes = allocate(length);
	memcpy(record->bytes, bytes, length);
	memcpy(buffer->values + offset, bytes, length);
	memset(buffer->unknown + offset, 0, length);
	add_record(record);
	counts.fills++;
	counts.filled += length;
}

/* Bytes that a write takes from a registered buffer, and which of them a read will put there; and
 * whether one that is given is among these reads, which puts nothing there in the replay. */
struct awaited {
	const struct ring *ring;
	u8 *bytes;
	bool is_given;
};

/* Marks what a read in flight will put into the range of a search: that is left to the read. */
static bool mark_awaited(struct search *search, const struct span *span)
{
	struct awaited *awaited = search->context;
	u64 from = span->from > search->from ? span->from : search->from;

	awaited->is_given |= is_given(span->flight->entry);
	if (span->flight->ring == awaited->ring &&
	    span->flight->renewals == awaited->ring->renewals)
		memset(awaited->bytes + (from - search->from), 1,
		       min64(span->to, search->to) - from);
	return false;
}

/* Fills what differs in a range; short gaps are filled with it. */
static void fill_differing(struct flight *flight, struct buffer *buffer, const u8 *bytes,
			   const u8 *awaited)
{
	u64 length = flight->entry->sqe.len, offset = flight->entry->sqe.addr - buffer->address;
	const u8 *values = buffer->values + offset, *unknown = buffer->unknown + offset;

	for (u64 at = 0; at < length;) {
		if (awaited[at] || (!unknown[at] && values[at] == bytes[at])) {
			at++;
			continue;
		}
		u64 end = at + 1;
		for (u64 next = end; next < length && !awaited[next] && next - end < SHORT_GAP;
		     next++) {
			if (unknown[next] || values[next] != bytes[next])
				end = next + 1;
		}
		add_fill(flight, buffer, offset + at, bytes + at, end - at);
		at = end;
	}
}

/* Fills what a fixed write takes and the replay's buffer has otherwise, but for what reads in
 * flight will put there. */
static void fill_unlike(struct flight *flight, struct buffer *buffer, const u8 *bytes)
{
	u64 from = flight->entry->sqe.addr, length = flight->entry->sqe.len;
	u8 *awaited = allocate(length);
	struct awaited those = { flight->ring, awaited, false };
	struct search search = { .from = from, .to = from + length };

	search.look = mark_awaited;
	search.context = &those;
	search_fillings(flight->process, &search);
	if (those.is_given)
		put_aside(flight->entry, OUTSIDE_LATE);
	else
		fill_differing(flight, buffer, bytes, awaited);
	free(awaited);
}

void fill_buffer(struct flight *flight, pid_t thread)
{
	u64 from = flight->entry->sqe.addr, length = flight->entry->sqe.len;

	if (flight->buffer == NO_BUFFER || !length)
		return;
	struct buffer *buffer = &flight->ring->buffers[flight->buffer];
	if (from < buffer->address || length > buffer->length ||
	    from - buffer->address > buffer->length - length)
		return;
	if (!buffer->unknown) {
		buffer->values = allocate(buffer->length);
		buffer->unknown = allocate(buffer->length);
	}
	u8 *bytes = allocate(length);
	u64 offset = from - buffer->address;
	bool is_read = options.no_data || fetch(thread, from, bytes, length);
	/* (a fill of what changed alone would tell where bytes did) */
	if (options.no_data)
		memset(buffer->unknown + offset, 1, length);
	if (!is_read)
		unread(flight->entry, "a registered buffer that cannot be read");
	else if (memchr(buffer->unknown + offset, 1, length) ||
		 memcmp(buffer->values + offset, bytes, length))
		fill_unlike(flight, buffer, bytes);
	free(bytes);
}
