#include "answers.h"
#include "entry.h"
#include "trace.h"

#include <inttypes.h>
#include <stdlib.h>
#include <string.h>

enum { MOST_TEXT = 1 << 30 };

/* The value of a fact of a line, or NULL. */
static const char *fact(const char *line, const char *end, const char *name)
{
	size_t length = strlen(name);

	for (const char *at = line; at < end; at++) {
		if (*at == ' ' && (size_t)(end - at) > length && !memcmp(at + 1, name, length))
			return at + 1 + length;
	}
	return NULL;
}

/* A line that tells of a place: whether it was taken. */
typedef bool take_line(u64 place, const char *line, const char *end);

/* Reads a text whose first line is `heading`, up to a line that begins with `last`; gives how many
 * lines of places were taken. */
static u64 read_lines(const char *path, const char *heading, char last, take_line *take)
{
	u64 length, told = 0;
	char *text = (char *)read_whole(path, MOST_TEXT, &length);
	const char *at = text, *end = text + length, *next;
	size_t size = strlen(heading);

	if (length > MOST_TEXT)
		die("%s: it has more than %d bytes", path, MOST_TEXT);
	if (length <= size || memcmp(text, heading, size) || text[size] != '\n')
		die("%s: it does not begin with %s", path, heading);
	for (; at < end && *at != last; at = next + 1) {
		next = memchr(at, '\n', (size_t)(end - at));
		if (!next)
			die("%s: its last line does not end", path);
		if (*at < '0' || *at > '9')
			continue;
		u64 place = strtoull(at, NULL, 10);
		if (place >= trace.places)
			die("%s: place %" PRIu64 " is not in the trace", path, place);
		told += take(place, at, next);
	}
	free(text);
	return told;
}

static const char *heading_of_report(void)
{
	return has_ring_records() ? "uring-report 2" : "uring-report 1";
}

static bool take_answer(u64 place, const char *line, const char *end)
{
	struct entry *entry = trace.by_place[place];
	const char *result = fact(line, end, "res=");

	if (!entry || !result || entry->is_expected)
		return false;
	entry->is_expected = true;
	entry->expected = (i32)strtol(result, NULL, 10);
	entry->is_posted_expected = fact(line, end, "posted");
	return true;
}

void read_expected(const char *path)
{
	read_lines(path, heading_of_report(), 't', take_answer);
	for (u32 place = 0; place < trace.places; place++) {
		if (trace.by_place[place] && !trace.by_place[place]->is_expected)
			die("%s: it does not tell of place %u; is it another trace's?", path,
			    place);
	}
}

/* --- When entries were submitted ----------------------------------------------------------------
 */

/* A play is not longer than a day. */
#define MOST_TIME (86400ULL * 1000000000ULL)
static u64 *times;

/* The number of a fact of a line, with a space or the line's end behind it; else what a fact that
 * is not there has. */
static bool number_of(const char *line, const char *end, const char *name, u64 *number)
{
	const char *at = fact(line, end, name);
	u64 value = 0;

	if (!at || *at < '0' || *at > '9')
		return false;
	for (; at < end && *at >= '0' && *at <= '9'; at++) {
		u64 digit = (u64)(*at - '0');
		if (value > (UINT64_MAX - digit) / 10)
			return false;
		value = 10 * value + digit;
	}
	*number = value;
	return at == end || *at == ' ';
}

static bool take_time(u64 place, const char *line, const char *end)
{
	const struct entry *entry = trace.by_place[place];
	u64 user;

	if (!entry || !number_of(line, end, "user=", &user) || user != fields_of(entry).user)
		die("place %" PRIu64 " of the times is another entry; are they another trace's?",
		    place);
	if (!fact(line, end, "submitted="))
		return false;
	if (times[place] != NO_TIME || !number_of(line, end, "submitted=", &times[place]))
		die("the time of place %" PRIu64 " is no number, or told twice", place);
	return true;
}

u64 *read_times(const char *path)
{
	u64 first = NO_TIME;

	times = allocate(trace.places * sizeof *times);
	memset(times, 0xff, trace.places * sizeof *times);
	if (!read_lines(path, heading_of_report(), 't', take_time))
		die("%s: no entry has submitted=", path);
	for (u32 place = 0; place < trace.places; place++)
		first = min64(first, times[place]);
	for (u32 place = 0; place < trace.places; place++) {
		if (times[place] == NO_TIME)
			continue;
		times[place] -= first;
		if (times[place] > MOST_TIME)
			die("%s: place %u was submitted more than a day behind the first", path,
			    place);
	}
	return times;
}

/* --- Rounds -------------------------------------------------------------------------------------
 */

/* What `memset` below leaves. */
#define NO_ROUND UINT32_MAX
static u32 *rounds, round_count;

static bool take_round(u64 place, const char *line, const char *end)
{
	const char *round = fact(line, end, "round=");
	u64 number = round ? strtoull(round, NULL, 10) : trace.places;

	if (number >= trace.places || rounds[place] != NO_ROUND)
		return false;
	rounds[place] = (u32)number;
	if (round_count <= number)
		round_count = (u32)number + 1;
	return true;
}

u32 *read_rounds(const char *path, u32 *count)
{
	rounds = allocate(trace.places * sizeof *rounds);
	memset(rounds, 0xff, trace.places * sizeof *rounds);
	if (read_lines(path, "uring-rounds 1", '\0', take_round) != trace.places)
		die("%s: it does not tell of each place; is it another trace's?", path);
	*count = round_count;
	return rounds;
}
