#include "ahead.h"
#include "memory.h"

enum {
	MOST_ENTRIES = 1024,
	MOST_COMPLETIONS = 256,
	MOST_READS = 64,
	MOST_HEADER = 4096,
	MOST_RANGE = 1 << 16,
	MOST_VECTORS = 64,
};

/* Ranges that are read together, in this order. */
struct ranges {
	struct iovec list[MOST_AHEAD];
	u32 count;
	u64 bytes;
};

/* Adds a range where there is room. */
static void add_range(struct ranges *ranges, u64 address, u64 length)
{
	if (!length || length > MOST_RANGE || ranges->count == MOST_AHEAD ||
	    ranges->bytes + length > MOST_AHEAD_BYTES)
		return;
	ranges->list[ranges->count++] = (struct iovec){ (void *)(uintptr_t)address, length };
	ranges->bytes += length;
}

/* Adds so many elements of a queue from an index on, which goes round. */
static void add_elements(struct ranges *ranges, u64 address, u32 size, u32 entries, u32 from,
			 u32 count)
{
	u32 first = from & (entries - 1), here = count < entries - first ? count : entries - first;

	add_range(ranges, address + (u64)first * size, (u64)here * size);
	add_range(ranges, address, (u64)(count - here) * size);
}

/* Adds the words of the head of a queue: those from the lowest to the highest. */
static void add_words(struct ranges *ranges, u64 address, const u32 *offsets, u32 count)
{
	u32 lowest = offsets[0], highest = offsets[0];

	for (u32 at = 1; at < count; at++) {
		lowest = offsets[at] < lowest ? offsets[at] : lowest;
		highest = offsets[at] > highest ? offsets[at] : highest;
	}
	if (highest - lowest < MOST_HEADER)
		add_range(ranges, address + lowest, highest - lowest + 4);
}

/* Adds the words of both queues. */
static void add_heads(struct ranges *ranges, const struct ring *ring)
{
	const u32 offsets[] = { ring->cq_offsets.tail, ring->cq_offsets.head, ring->sq_offsets.head,
				ring->sq_offsets.tail, ring->sq_offsets.flags };

	if (ring->sq == ring->cq) {
		add_words(ranges, ring->sq, offsets, 5);
		return;
	}
	add_words(ranges, ring->cq, offsets, 2);
	add_words(ranges, ring->sq, offsets + 2, 3);
}

void read_queues_ahead(const struct ring *ring, pid_t thread, u32 wanted)
{
	u32 count = wanted < ring->sq_entries ? wanted : ring->sq_entries;
	struct ranges ranges = { .count = 0, .bytes = 0 };

	count = count < MOST_ENTRIES ? count : MOST_ENTRIES;
	add_heads(&ranges, ring);
	/* (as programs fill their queue: each place of the array names its own entry) */
	if (count && !(ring->flags & SETUP_NO_SQARRAY))
		add_elements(&ranges, ring->sq + ring->sq_offsets.array, 4, ring->sq_entries,
			     ring->claimed, count);
	if (count)
		add_elements(&ranges, ring->sqes, ring->flags & IORING_SETUP_SQE128 ? 128 : 64,
			     ring->sq_entries, ring->claimed, count);
	read_ahead(thread, ranges.list, ranges.count);
}

void read_sides_ahead(const struct record *record, pid_t thread)
{
	struct ranges ranges = { .count = 0, .bytes = 0 };

	for (u32 at = 0; at < record->count; at++) {
		const struct io_uring_sqe *sqe = &record->entries[at].sqe;
		if (sqe->opcode == OP_WRITE)
			add_range(&ranges, sqe->addr, sqe->len);
		else if ((sqe->opcode == OP_READV || sqe->opcode == OP_WRITEV) &&
			 sqe->len <= MOST_VECTORS)
			add_range(&ranges, sqe->addr, sizeof(struct iovec) * sqe->len);
	}
	read_ahead(thread, ranges.list, ranges.count);
}

/* Adds the first bytes of what an entry reads. */
static void add_read(struct ranges *ranges, const struct flight *flight)
{
	if (flight->vector_count)
		add_range(ranges, address_of(&vectors_of(flight)[0]),
			  min64(vectors_of(flight)[0].iov_len, DATA_SHOWN));
}

void read_completions_ahead(const struct ring *ring, pid_t thread)
{
	u32 most = ring->in_flight < ring->cq_entries ? ring->in_flight : ring->cq_entries;
	struct ranges ranges = { .count = 0, .bytes = 0 };

	if (!ring->cq || !most)
		return;
	most = most < MOST_COMPLETIONS ? most : MOST_COMPLETIONS;
	/* (the tail before the completions, and these before the bytes: each is as new as what
	 * tells of it) */
	add_heads(&ranges, ring);
	add_elements(&ranges, ring->cq + ring->cq_offsets.cqes,
		     ring->flags & IORING_SETUP_CQE32 ? 32 : 16, ring->cq_entries, ring->seen,
		     most);
	u32 reads = 0;
	for (const struct flight *it = ring->first; it && reads < MOST_READS;
	     it = it->next, reads++) {
		if (it->entry->sqe.opcode == OP_READ || it->entry->sqe.opcode == OP_READV)
			add_read(&ranges, it);
	}
	read_ahead(thread, ranges.list, ranges.count);
}
