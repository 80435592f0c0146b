#include "ranges.h"
#include "encode.h"

#include <stdlib.h>
#include <string.h>
#include <unistd.h>

/* What lies between two ranges is a page at least, and none has more bytes than this. */
enum { PAGE = 4096, CHUNK = 16 * PAGE, MOST_RANGE = 1 << 30, RANGE_BYTES = 12 };

/* Adds the bytes of a page without the zeros at its end; those behind short gaps go on with the
 * last range. */
static void add_page(struct file_ranges *ranges, u64 from, const u8 *bytes, u64 length)
{
	if (is_zero(bytes, length))
		return;
	while (!bytes[length - 1])
		length--;
	struct range *last = ranges->count ? &ranges->list[ranges->count - 1] : NULL;
	if (last && from - (last->from + last->length) < PAGE &&
	    from + length - last->from <= MOST_RANGE) {
		last->length = (u32)(from + length - last->from);
		return;
	}
	GROW(ranges->list, ranges->count, ranges->room);
	ranges->list[ranges->count++] = (struct range){ from, (u32)length };
}

/* Adds what is not zero of a part of a file without holes. */
static bool add_part(struct file_ranges *ranges, int descriptor, u64 from, u64 to)
{
	static u8 chunk[CHUNK];
	ssize_t moved = 1;

	for (u64 at = from; at < to && moved > 0; at += (u64)moved) {
		u64 wanted = min64(to - at, CHUNK - at % PAGE);
		moved = pread(descriptor, chunk, wanted, (off_t)at);
		for (u64 done = 0, step; moved > 0 && done < (u64)moved; done += step) {
			step = min64((u64)moved - done, PAGE - (at + done) % PAGE);
			add_page(ranges, at + done, chunk + done, step);
		}
	}
	return moved >= 0;
}

bool find_ranges(struct file_ranges *ranges, int descriptor, u64 size)
{
	bool is_read = true;

	for (off_t from = 0, to; is_read; from = to) {
		from = lseek(descriptor, from, SEEK_DATA);
		to = from < 0 || (u64)from >= size ? -1 : lseek(descriptor, from, SEEK_HOLE);
		if (to <= from) /* (or what is no file on a disk) */
			break;
		is_read = add_part(ranges, descriptor, (u64)from, min64((u64)to, size));
	}
	return is_read;
}

u64 bytes_of_ranges(const struct file_ranges *ranges)
{
	u64 bytes = 0;

	for (u64 at = 0; at < ranges->count; at++)
		bytes += RANGE_BYTES + ranges->list[at].length;
	return bytes;
}

bool put_range(const struct range *range, int descriptor)
{
	static u8 chunk[CHUNK];
	ssize_t moved = 1;

	put_number(range->from, 8);
	put_number(range->length, 4);
	for (u64 at = 0; at < range->length; at += (u64)moved) {
		u64 wanted = min64(range->length - at, CHUNK);
		moved = pread(descriptor, chunk, wanted, (off_t)(range->from + at));
		if (moved <= 0) {
			put_zeros(range->length - at);
			return false;
		}
		put(chunk, (u64)moved);
	}
	return true;
}
