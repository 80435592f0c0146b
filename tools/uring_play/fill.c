#include "fill.h"
#include "apart.h"
#include "numbers.h"
#include "tree.h"
#include "uring.h"

#include <errno.h>
#include <fcntl.h>
#include <limits.h>
#include <stdlib.h>
#include <string.h>
#include <sys/mman.h>
#include <sys/stat.h>
#include <sys/uio.h>
#include <unistd.h>

/* Of x86-64, as the profile has them. */
#define FLAG_NO_ACCESS_TIME 01000000U
#define FLAG_DIRECT 040000U

enum { ARENAS = 4, ARENA = 64 << 20, GREAT = 4 << 20, FOLDED = 64 << 20, PAGE = 4096 };
/* A process has some 65,000 mappings at most, and a great read some 33. */
enum { BEHIND_FIELDS = 48, CROWDED = 64, MODE_OF_DIRECTORIES = 0755 };
/* Low enough that vectors of many bytes stay below the end of all addresses, where it is free. */
#define LOW_ADDRESS ((u8 *)(1UL << 45))

struct mapping {
	void *memory;
	size_t size;
};
/* Memory that is given out from its start on, and is free again once nobody holds it. What does not
 * fit has a mapping of its own. */
struct arena {
	u8 *memory;
	u64 used;
	u32 holders;
	struct mapping *mappings;
	u64 mapping_count, mapping_room;
};
static struct arena arenas[ARENAS];
static u32 arena_number; /* which is given out */
static int folded = -1;
static u64 mapped_bytes; /* behind the arenas */
static u64 great_bytes;	 /* which reads that are in flight may fill, of mappings of their own */
static const u8 *zeros;	 /* as many as an entry writes at most, which take no memory */

/* --- Memory -------------------------------------------------------------------------------------
 */

static u8 *map(void *hint, u64 size)
{
	u8 *memory = mmap(hint, size, PROT_READ | PROT_WRITE,
			  MAP_PRIVATE | MAP_ANONYMOUS | MAP_NORESERVE, -1, 0);

	if (memory == MAP_FAILED)
		die("there is no more memory");
	return memory;
}

void prepare_memory(void)
{
	for (u32 at = 0; at < ARENAS; at++)
		arenas[at].memory = map(LOW_ADDRESS + (u64)at * ARENA, ARENA);
	folded = move_up(memfd_create("uring_play", MFD_CLOEXEC));
	if (folded < 0 || ftruncate(folded, FOLDED))
		die("memory for great reads: %s", strerror(errno));
	if (trace.most_zeros)
		zeros = map(NULL, trace.most_zeros);
}

static bool is_full(const struct arena *arena)
{
	return arena->mapping_count >= CROWDED || arena->used > ARENA / 2 ||
	       great_bytes > MOST_GREAT;
}

/* The first arena that has room, if there is one: else the one that is given out. */
static u32 roomy(void)
{
	for (u32 at = 0; at < ARENAS; at++) {
		if (!is_full(&arenas[at]))
			return at;
	}
	return arena_number;
}

u32 hold_memory(void)
{
	if (is_full(&arenas[arena_number]))
		arena_number = roomy();
	arenas[arena_number].holders++;
	return arena_number;
}

bool is_crowded(void)
{
	return is_full(&arenas[arena_number]);
}

bool has_memory(void)
{
	return !is_full(&arenas[roomy()]);
}

void let_memory_go(u32 number)
{
	struct arena *arena = &arenas[number];

	if (--arena->holders)
		return;
	while (arena->mapping_count) {
		arena->mapping_count--;
		munmap(arena->mappings[arena->mapping_count].memory,
		       arena->mappings[arena->mapping_count].size);
	}
	arena->used = 0;
	bool is_free = true;
	for (u32 at = 0; at < ARENAS; at++)
		is_free &= !arenas[at].mapping_count;
	if (is_free)
		mapped_bytes = 0;
}

static u8 *map_for_now(u64 size)
{
	struct arena *arena = &arenas[arena_number];
	u8 *memory = map(LOW_ADDRESS + (u64)ARENAS * ARENA + mapped_bytes, size);

	mapped_bytes += (size + PAGE) & ~(u64)(PAGE - 1);
	GROW(arena->mappings, arena->mapping_count, arena->mapping_room);
	arena->mappings[arena->mapping_count++] = (struct mapping){ memory, size };
	return memory;
}

static u8 *memory_of(u64 size)
{
	struct arena *arena = &arenas[arena_number];
	u64 room = (size + 16) & ~15ULL;

	if (arena->used + room > ARENA)
		return map_for_now(room);
	arena->used += room;
	return arena->memory + arena->used - room;
}

/* Memory for what is too much beside other reads: the same pages over and over behind the first
 * one, of which alone something is told. */
static u8 *fold(u64 size)
{
	u64 room = (size + PAGE) & ~(u64)(PAGE - 1);
	u8 *memory = map_for_now(PAGE + room);

	for (u64 at = 0; at < room; at += FOLDED) {
		if (mmap(memory + PAGE + at, min64(FOLDED, room - at), PROT_READ | PROT_WRITE,
			 MAP_SHARED | MAP_FIXED, folded, 0) == MAP_FAILED)
			die("memory for great reads: %s", strerror(errno));
	}
	return memory;
}

u64 filled_by(const struct entry *entry)
{
	u64 asked = asked_of(entry);

	if (!entry->is_expected)
		return asked;
	return entry->expected < 0 ? 0 : min64((u64)entry->expected, asked);
}

/* Memory that an entry reads into. A great mapping takes no memory but for what is read. */
static void read_into_memory(struct entry *entry)
{
	u64 size = asked_of(entry);

	entry->is_folded = false;
	if (size <= GREAT && arenas[arena_number].used + size < ARENA) {
		entry->into = memory_of(size);
		return;
	}
	entry->great = filled_by(entry);
	entry->is_folded = options.no_sums || great_bytes + entry->great > MOST_GREAT + MOST_MOVED;
	if (entry->is_folded)
		entry->great = 0;
	entry->into = entry->is_folded ? fold(size) : map_for_now(size + PAGE);
	great_bytes += entry->great;
}

void let_read_go(struct entry *entry)
{
	if (entry->great)
		madvise(entry->into, asked_of(entry), MADV_DONTNEED);
	great_bytes -= entry->great;
	entry->great = 0;
	entry->into = NULL;
}

/* --- Fields -------------------------------------------------------------------------------------
 */

static u64 address_of(const void *memory)
{
	return (u64)(uintptr_t)memory;
}

/* A number of a descriptor: those beyond the table are none of this process either. */
static i32 number_of(i32 number)
{
	return number >= (i32)trace.table_size ? INT_MAX : number;
}

/* A path that starts at the root of the trace starts at its directory here. One that is too long
 * stays as it is; the kernel does not walk it. */
static u64 fill_path(struct span path, i32 *directory)
{
	char *copy = (char *)memory_of(path.length + 1);
	bool is_absolute = path.length && path.bytes[0] == '/';

	memcpy(copy, path.bytes, path.length);
	copy[path.length] = 0;
	if (*directory != AT_FDCWD && !is_absolute) {
		*directory = number_of(*directory);
		return address_of(copy);
	}
	*directory = tree_root;
	if (!is_absolute || path.length >= PATH_MAX)
		return address_of(copy);
	return *below(copy) ? address_of(below(copy)) : address_of(".");
}

const u8 *bytes_written(const struct entry *entry)
{
	return entry->is_zeros ? zeros : entry->side + lengths_of(entry);
}

/* The vectors of an entry of too many of them are not looked at. Bytes that are written are those
 * of the trace's text. */
static void fill_vectors(struct entry *entry, struct io_uring_sqe *sqe)
{
	u64 count = sqe->len, asked = asked_of(entry), at = 0;

	if (8 * count > entry->side_length) {
		sqe->addr = address_of(memory_of(0));
		return;
	}
	struct iovec *vectors = (void *)memory_of(count * sizeof *vectors);
	if (sqe->opcode == OP_READV)
		read_into_memory(entry);
	u64 first = address_of(sqe->opcode == OP_READV ? entry->into : bytes_written(entry));
	for (u64 it = 0; it < count; it++) {
		u64 length = number_at(entry->side + 8 * it, 8);
		vectors[it] = (struct iovec){ (void *)(uintptr_t)(first + at), length };
		at += min64(length, asked - at);
	}
	sqe->addr = address_of(vectors);
}

/* Addresses move as their buffer does, so that those outside of it stay outside. */
static void fill_fixed(struct entry *entry, struct io_uring_sqe *sqe)
{
	const struct buffer *it = buffer_of(entry);

	if (!it)
		return;
	u64 from = sqe->addr - it->address;
	sqe->addr = from + address_of(it->memory);
	if (sqe->opcode == OP_READ_FIXED && from <= it->length &&
	    asked_of(entry) <= it->length - from)
		entry->into = it->memory + from;
}

static void fill_paths(struct entry *entry, struct io_uring_sqe *sqe)
{
	i32 from = (i32)number_at(entry->sqe + 4, 4), to = (i32)sqe->len;

	sqe->addr = fill_path(path_of(entry), &from);
	sqe->fd = from;
	if (has_two_paths(sqe->opcode)) {
		sqe->addr2 = fill_path(new_path_of(entry), &to);
		sqe->len = (u32)to;
	}
	if (is_stat(sqe->opcode)) {
		entry->into = memory_of(sizeof(struct statx));
		sqe->addr2 = address_of(entry->into);
	}
	if (sqe->opcode == OP_OPENAT)
		sqe->len = MODE_OF_FILES;
	if (sqe->opcode == OP_MKDIRAT)
		sqe->len = MODE_OF_DIRECTORIES;
}

/* Which fields the profile looks at. */
static bool looks_at_offset(u8 opcode)
{
	return is_transfer(opcode) || opcode == OP_FALLOCATE || opcode == OP_FTRUNCATE ||
	       is_advice(opcode);
}

static bool looks_at_buffer(u8 opcode)
{
	return opcode == OP_READ_FIXED || opcode == OP_WRITE_FIXED;
}

static bool looks_at_flags(u8 opcode)
{
	return is_transfer(opcode) || opcode == OP_FSYNC || is_advice(opcode) ||
	       (is_on_names(opcode) && opcode != OP_MKDIRAT);
}

u32 kept_open_flags(u32 flags)
{
	return options.raw ? flags : flags & ~(FLAG_DIRECT | FLAG_NO_ACCESS_TIME);
}

/* The fields that the profile does not look at become zero, unless all is played as it stands, and
 * so do some flags. */
static void keep_named(struct io_uring_sqe *sqe)
{
	const struct io_uring_sqe all = *sqe;
	u8 opcode = all.opcode;
	struct io_uring_sqe named = { .opcode = opcode,
				      .flags = all.flags,
				      .personality = all.personality };

	if (opcode != OP_NOP)
		named.fd = all.fd;
	if (looks_at_offset(opcode))
		named.off = all.off;
	if (looks_at_buffer(opcode) || opcode == OP_FALLOCATE || opcode == OP_FADVISE)
		named.addr = all.addr;
	if (is_transfer(opcode) || opcode == OP_FALLOCATE || has_two_paths(opcode) ||
	    is_advice(opcode) || is_stat(opcode))
		named.len = all.len;
	if (looks_at_flags(opcode))
		named.rw_flags = all.rw_flags;
	if (looks_at_buffer(opcode))
		named.buf_index = all.buf_index;
	if (opcode == OP_OPENAT || opcode == OP_CLOSE)
		named.file_index = all.file_index;
	if (opcode == OP_OPENAT)
		named.open_flags = kept_open_flags(all.open_flags);
	*sqe = named;
}

void fill_entry(struct entry *entry, struct io_uring_sqe *sqe)
{
	u8 opcode = entry->sqe[0];

	if (why_never(entry) != NOT_APART)
		die("place %u may not be played: it might reach out of the directory",
		    entry->place);
	memcpy(sqe, entry->sqe, sizeof *sqe);
	/* No opcode of the profile has these; in a kernel they are addresses. */
	memset((u8 *)sqe + BEHIND_FIELDS, 0, sizeof *sqe - BEHIND_FIELDS);
	entry->is_submitted = true;
	if (!options.raw)
		keep_named(sqe);
	sqe->user_data = entry->place;
	if (options.async)
		sqe->flags |= FLAG_ASYNC;
	/* A CLOSE of a slot takes no number, and has to have none. */
	if (!(sqe->flags & FLAG_FIXED) && !(opcode == OP_CLOSE && sqe->file_index))
		sqe->fd = number_of(sqe->fd);
	if (opcode == OP_READ) {
		read_into_memory(entry);
		sqe->addr = address_of(entry->into);
	} else if (opcode == OP_WRITE) {
		sqe->addr = address_of(bytes_written(entry));
	} else if (opcode == OP_READV || opcode == OP_WRITEV) {
		fill_vectors(entry, sqe);
	} else if (looks_at_buffer(opcode)) {
		fill_fixed(entry, sqe);
	} else if (is_on_names(opcode)) {
		fill_paths(entry, sqe);
	}
}
