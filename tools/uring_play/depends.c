#include "depends.h"
#include "chains.h"
#include "entry.h"
#include "trace.h"

#include <inttypes.h>
#include <stdlib.h>
#include <string.h>

enum { MOST_TEXT = 1 << 30 };

static const char heading[] = "uring-depends 1";

static const char *file, *text, *at, *end;
static u64 line_number;
static struct waits waits;
static u64 pair_count, pair_room;

static void __attribute__((noreturn)) refuse(const char *what)
{
	die("%s: line %" PRIu64 " %s", file, line_number, what);
}

/* --- Lines --------------------------------------------------------------------------------------
 */

/* The next line, which a zero byte ends. */
static char *take_line(void)
{
	line_number++;
	char *line = (char *)at, *stop = at < end ? memchr(at, '\n', (size_t)(end - at)) : NULL;
	if (!stop)
		refuse("is not there, or does not end");
	*stop = 0;
	at = stop + 1;
	return line;
}

/* Digits of a number, up to what follows them. */
static u64 take_digits(const char **from)
{
	u64 value = 0;

	if (**from < '0' || **from > '9')
		refuse("has no number where one belongs");
	for (; **from >= '0' && **from <= '9'; (*from)++) {
		if (value > UINT32_MAX)
			refuse("has too great a number");
		value = 10 * value + (u64)(**from - '0');
	}
	return value;
}

/* The number of a line `WORD N`, or `WORD N ..` where more may follow. */
static u64 take_total(const char *word, bool has_more)
{
	const char *line = take_line();
	size_t size = strlen(word);
	u64 value = 0;

	if (strncmp(line, word, size) || line[size] != ' ')
		die("%s: line %" PRIu64 " does not begin with %s", file, line_number, word);
	line += size + 1;
	if (*line < '0' || *line > '9')
		refuse("has no number where one belongs");
	for (; *line >= '0' && *line <= '9' && value < 1ULL << 60; line++)
		value = 10 * value + (u64)(*line - '0');
	if (*line && !has_more)
		refuse("goes on where it should end");
	return value;
}

/* --- Places -------------------------------------------------------------------------------------
 */

static void add_pair(u64 earlier)
{
	GROW(waits.earlier, pair_count, pair_room);
	waits.earlier[pair_count++] = (u32)earlier;
}

/* A line `K` or `K after=J on=ITEM` of a place. */
static void take_wait(u64 place, const char *line)
{
	static const char after[] = " after=", on[] = " on=";
	bool is_first = pair_count == waits.starts[place];

	if (!*line && is_first)
		return;
	if (strncmp(line, after, sizeof after - 1))
		refuse("is neither PLACE nor PLACE after=EARLIER on=ITEM");
	line += sizeof after - 1;
	u64 earlier = take_digits(&line);
	if (strncmp(line, on, sizeof on - 1) || !line[sizeof on - 1])
		refuse("does not tell the item");
	if (earlier >= place)
		refuse("waits for a place that is not earlier");
	if (!is_first && earlier <= waits.earlier[pair_count - 1])
		refuse("is out of order");
	add_pair(earlier);
}

/* Takes the lines of all places: each has one or more, in order. */
static void take_places(void)
{
	u64 next = 0;
	bool is_alone = false; /* the line before is of a place that waits for none */

	while (at < end && *at >= '0' && *at <= '9') {
		const char *line = take_line();
		u64 place = take_digits(&line);
		if (place >= trace.places)
			refuse("is of a place that the trace does not have");
		if (place == next)
			waits.starts[next++] = pair_count;
		else if (!next || place != next - 1 || is_alone)
			refuse("is out of order");
		is_alone = !*line;
		take_wait(place, line);
	}
	if (next != trace.places)
		die("%s: it tells of %" PRIu64 " places, and the trace has %u", file, next,
		    trace.places);
	waits.starts[next] = pair_count;
}

/* --- Whether it is this trace's -----------------------------------------------------------------
 */

/* How many bytes all places move, by the report. */
static u64 bytes_moved(void)
{
	u64 sum = 0;

	for (u32 place = 0; place < trace.places; place++) {
		const struct entry *it = trace.by_place[place];
		if (it && is_transfer(it->sqe[0]) && !it->is_given && it->expected > 0)
			sum += (u64)it->expected;
	}
	return sum;
}

static bool waits_for(u32 place, u32 earlier)
{
	for (u64 it = waits.starts[place]; it < waits.starts[place + 1]; it++) {
		if (waits.earlier[it] == earlier)
			return true;
	}
	return false;
}

/* A member of a chain waits for the one before it. */
static void test_chains(void)
{
	for (u32 number = 0; number < trace.record_count; number++) {
		const struct record *record = &trace.records[number];
		for (u32 from = 0, count; from < record->count; from += count) {
			count = chain_length(record, from);
			for (u32 place = record->place + from + 1;
			     place < record->place + from + count; place++) {
				if (!waits_for(place, place - 1))
					die("%s: place %u does not wait for the one before it in "
					    "its chain; is it another trace's?",
					    file, place);
			}
		}
	}
}

static void test_totals(void)
{
	if (take_total("places", false) != trace.places)
		refuse("tells another number of places than the trace has");
	if (take_total("pairs", false) != pair_count)
		refuse("tells another number of pairs than there are");
	take_total("span", true);
	take_total("parallelism", true);
	if (take_total("bytes", false) != bytes_moved())
		refuse("tells another number of bytes than the report; is it another trace's?");
	take_total("span-bytes", true);
	take_total("parallelism-bytes", true);
	if (strcmp(take_line(), "end"))
		refuse("is not the line end");
	if (at != end)
		die("%s: it goes on behind its end", file);
}

struct waits read_depends(const char *path)
{
	u64 length;

	file = path;
	text = (const char *)read_whole(path, MOST_TEXT, &length);
	at = text;
	end = text + length;
	if (length > MOST_TEXT)
		die("%s: it has more than %d bytes", path, MOST_TEXT);
	if (length <= strlen(heading) || memcmp(text, heading, strlen(heading)) ||
	    strcmp(take_line(), heading))
		die("%s: it does not begin with %s", path, heading);
	waits.starts = allocate((trace.places + 1ULL) * sizeof *waits.starts);
	take_places();
	test_totals();
	test_chains();
	free((void *)text);
	return waits;
}
