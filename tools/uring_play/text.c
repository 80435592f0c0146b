#include "text.h"

#include <inttypes.h>

static const u8 *text;
static u64 length, next;

void open_text(const u8 *bytes, u64 count)
{
	text = bytes;
	length = count;
	next = 0;
}

void refuse(const char *kind, u64 at)
{
	die_with(STATUS_REFUSED, "trace refused: %s at %" PRIu64, kind, at);
}

u64 text_at(void)
{
	return next;
}

u64 text_left(void)
{
	return length - next;
}

const u8 *take(u64 count)
{
	if (length - next < count)
		refuse("Short", length);
	next += count;
	return text + next - count;
}

u64 take_number(u32 count)
{
	return number_at(take(count), count);
}

u64 take_between(u32 count, u64 least, u64 most, const char *kind)
{
	u64 at = next, value = take_number(count);

	if (value < least || value > most)
		refuse(kind, at);
	return value;
}

u32 take_limited(u32 count, u64 most, const char *kind)
{
	return (u32)take_between(count, 0, most, kind);
}
