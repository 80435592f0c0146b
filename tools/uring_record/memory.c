#include "memory.h"

#include <stdlib.h>
#include <string.h>

/* So many ranges are tried, of the heads of queues and behind the last one. */
enum { HEADS = 2, MOST_TRIES = 64 };
enum { MOST_TEXT = 8192, PAGE = 4096, MOST_VECTORS = 1024 };

u64 memory_reads;

/* What was read ahead: ranges of the memory of a process, one after another in `bytes`. */
static struct {
	pid_t process;
	u32 count, last; /* `last` is where the last one was found */
	struct {
		u64 address, length, at;
	} ranges[MOST_AHEAD];
	u8 *bytes;
} ahead;

void read_ahead(pid_t process, const struct iovec *ranges, u32 count)
{
	u64 total = 0, at = 0;

	if (!ahead.bytes)
		ahead.bytes = allocate(MOST_AHEAD_BYTES);
	for (u32 in = 0; in < count; in++)
		total += ranges[in].iov_len;
	struct iovec here = { ahead.bytes, total };
	memory_reads += count != 0;
	ssize_t moved = count ? process_vm_readv(process, &here, 1, ranges, count, 0) : 0;
	ahead.process = process;
	ahead.count = ahead.last = 0;
	for (u32 in = 0; in < count && moved > 0; in++) {
		if (at + ranges[in].iov_len > (u64)moved)
			break;
		ahead.ranges[in].address = address_of(&ranges[in]);
		ahead.ranges[in].length = ranges[in].iov_len;
		ahead.ranges[in].at = at;
		at += ranges[in].iov_len;
		ahead.count++;
	}
}

void forget_ahead(void)
{
	ahead.count = 0;
}

/* Where a range is in what was read ahead, or NULL: mostly it is the last one, or behind it. The
 * heads of queues come first. */
static u8 *find_ahead(pid_t process, u64 address, u64 length)
{
	u32 most = process != ahead.process ? 0 : ahead.count;

	if (most > MOST_TRIES)
		most = MOST_TRIES;
	for (u32 tries = 0; tries < most + HEADS; tries++) {
		u32 in = tries < most ? ahead.last + tries : tries - most;
		in = in < ahead.count ? in : in - ahead.count;
		if (in >= ahead.count || address < ahead.ranges[in].address)
			continue;
		u64 from = address - ahead.ranges[in].address;
		if (length > ahead.ranges[in].length || from > ahead.ranges[in].length - length)
			continue;
		ahead.last = in;
		return ahead.bytes + ahead.ranges[in].at + from;
	}
	return NULL;
}

/* Takes a range from what was read ahead, where it is there. */
static bool take_ahead(pid_t process, u64 address, void *to, u64 length)
{
	u8 *at = find_ahead(process, address, length);

	if (at)
		memcpy(to, at, length);
	return at;
}

bool fetch(pid_t process, u64 address, void *to, u64 length)
{
	if (length && take_ahead(process, address, to, length))
		return true;
	for (u64 done = 0; done < length;) {
		u64 step = min64(length - done, 1ULL << 30);
		struct iovec here = { (u8 *)to + done, step };
		struct iovec there = { (void *)(uintptr_t)(address + done), step };
		memory_reads++;
		ssize_t moved = process_vm_readv(process, &here, 1, &there, 1, 0);
		if (moved <= 0)
			return false;
		done += (u64)moved;
	}
	return true;
}

bool store(pid_t process, u64 address, const void *from, u64 length)
{
	struct iovec here = { (void *)(uintptr_t)from, length };
	u8 *known = find_ahead(process, address, length);
	struct iovec there = { (void *)(uintptr_t)address, length };

	if (known)
		memcpy(known, from, length);
	return process_vm_writev(process, &here, 1, &there, 1, 0) == (ssize_t)length;
}

u32 fetch_word(pid_t process, u64 address)
{
	u32 word = 0;

	return fetch(process, address, &word, sizeof word) ? word : 0;
}

char *fetch_text(pid_t process, u64 address)
{
	char *text = allocate(MOST_TEXT + 1);

	for (u64 done = 0; done < MOST_TEXT;) {
		u64 step = min64(PAGE - (address + done) % PAGE, MOST_TEXT - done);
		if (!fetch(process, address + done, text + done, step)) {
			free(text);
			return NULL;
		}
		if (memchr(text + done, 0, step))
			break;
		done += step;
	}
	return text;
}

struct iovec *fetch_vectors(pid_t process, u64 address, u64 count)
{
	if (count > MOST_VECTORS)
		return NULL;
	struct iovec *vectors = allocate((count + 1) * sizeof *vectors);
	if (!fetch(process, address, vectors, count * sizeof *vectors)) {
		free(vectors);
		return NULL;
	}
	return vectors;
}

bool fetch_gathered(pid_t process, const struct iovec *vectors, u64 count, u8 *to, u64 length)
{
	bool whole = true;

	for (u64 at = 0, done = 0; at < count && done < length; at++) {
		u64 step = min64(vectors[at].iov_len, length - done);
		if (step && !fetch(process, address_of(&vectors[at]), to + done, step))
			whole = false;
		done += step;
	}
	return whole;
}
