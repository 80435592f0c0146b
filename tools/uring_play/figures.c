#include "figures.h"
#include "answers.h"
#include "entry.h"
#include "opcodes.h"
#include "pieces.h"
#include "trace.h"

#include <inttypes.h>
#include <stdlib.h>

/* How long some entries took: sorted nanoseconds. */
struct figures {
	u64 *each, count, bytes;
};
/* Of how many in a thousand it is told how long they took at most. */
static const u32 shares[] = { 500, 990, 999 };
static const char *const share_names[] = { "50", "99", "99.9" };
enum { SHARES = sizeof shares / sizeof *shares };

static int by_size(const void *one, const void *other)
{
	u64 a = *(const u64 *)one, b = *(const u64 *)other;

	return (a > b) - (a < b);
}

static void sort(struct figures *it)
{
	if (it->count)
		qsort(it->each, it->count, sizeof *it->each, by_size);
}

/* The least that so many in a thousand do not exceed. */
static u64 at_share(const struct figures *it, u32 share)
{
	u64 rank = (it->count * share + 999) / 1000;

	return it->count ? it->each[rank ? rank - 1 : 0] : 0;
}

static u64 bytes_of(const struct entry *entry)
{
	return is_transfer(entry->sqe[0]) && entry->result > 0 ? (u64)entry->result : 0;
}

/* What is known of the entries of an opcode whose completion was seen. */
static struct figures figures_of(u32 opcode)
{
	struct figures found = { 0 };
	u64 room = 0;

	for (u32 place = 0; place < trace.places; place++) {
		const struct entry *it = trace.by_place[place];
		if (!it || it->sqe[0] != opcode || it->state != ENTRY_POSTED)
			continue;
		GROW(found.each, found.count, room);
		found.each[found.count++] = it->completed - it->submitted;
		found.bytes += bytes_of(it);
	}
	sort(&found);
	return found;
}

/* How long behind their times entries were submitted. */
static struct figures delays(const u64 *times)
{
	struct figures found = { 0 };
	u64 room = 0;

	for (u32 place = 0; place < trace.places; place++) {
		const struct entry *it = trace.by_place[place];
		if (!it || !it->is_submitted || times[place] == NO_TIME)
			continue;
		GROW(found.each, found.count, room);
		found.each[found.count++] =
			it->submitted > times[place] ? it->submitted - times[place] : 0;
	}
	sort(&found);
	return found;
}

static u64 all_bytes(void)
{
	u64 sum = 0;

	for (u32 place = 0; place < trace.places; place++) {
		const struct entry *it = trace.by_place[place];
		if (it && it->state == ENTRY_POSTED)
			sum += bytes_of(it);
	}
	return sum;
}

static double a_second(u64 count)
{
	return (double)count / (counts.seconds > 0 ? counts.seconds : 1e-9);
}

/* --- As lines -----------------------------------------------------------------------------------
 */

static double microseconds(u64 nanoseconds)
{
	return (double)nanoseconds / 1000;
}

static void say_opcodes(void)
{
	say("%-12s %8s %12s %9s %9s %9s us", "", "entries", "bytes", "50%", "99%", "99.9%");
	for (u32 opcode = 0; opcode < OPCODES; opcode++) {
		if (!name_of_opcode(opcode))
			continue;
		struct figures it = figures_of(opcode);
		if (it.count)
			say("%-12s %8" PRIu64 " %12" PRIu64 " %9.1f %9.1f %9.1f",
			    name_of_opcode(opcode), it.count, it.bytes,
			    microseconds(at_share(&it, 500)), microseconds(at_share(&it, 990)),
			    microseconds(at_share(&it, 999)));
		free(it.each);
	}
}

static void say_delays(const u64 *times)
{
	struct figures it = delays(times);

	say("submitted late by: 50%% %.1f, 99%% %.1f, all at most %.1f us",
	    microseconds(at_share(&it, 500)), microseconds(at_share(&it, 990)),
	    microseconds(at_share(&it, 1000)));
	free(it.each);
}

static void say_all(const u64 *times)
{
	say("%" PRIu64 " entries in %.3f s (%.0f a second); %" PRIu64 " skipped, %" PRIu64
	    " corrected",
	    counts.played, counts.seconds, a_second(counts.played), counts.unplayed, counts.mended);
	if (counts.given)
		say("%" PRIu64 " of these have given results, and are not tried", counts.given);
	if (options.depends) {
		say("%" PRIu64 " bytes moved (%.1f MB a second)", all_bytes(),
		    a_second(all_bytes()) / 1e6);
		say_opcodes();
	}
	if (times)
		say_delays(times);
	if (counts.unsaid)
		say("%" PRIu64 " chains were assumed done, since nothing more came",
		    counts.unsaid);
	if (counts.unsummed)
		say("%" PRIu64 " reads have no sum, since they brought too much at once",
		    counts.unsummed);
}

/* --- As JSON ------------------------------------------------------------------------------------
 */

static void write_shares(const char *name, const struct figures *it)
{
	fprintf(messages, "\"%s\":{", name);
	for (u32 at = 0; at < SHARES; at++)
		fprintf(messages, "%s\"%s\":%" PRIu64, at ? "," : "", share_names[at],
			at_share(it, shares[at]));
	fprintf(messages, ",\"100\":%" PRIu64 "}", at_share(it, 1000));
}

static void write_opcodes(void)
{
	const char *before = "";

	fputs("\"opcodes\":{", messages);
	for (u32 opcode = 0; opcode < OPCODES; opcode++) {
		if (!name_of_opcode(opcode))
			continue;
		struct figures it = figures_of(opcode);
		if (it.count) {
			fprintf(messages,
				"%s\"%s\":{\"entries\":%" PRIu64 ",\"bytes\":%" PRIu64 ",", before,
				name_of_opcode(opcode), it.count, it.bytes);
			write_shares("latency_ns", &it);
			fputc('}', messages);
			before = ",";
		}
		free(it.each);
	}
	fputs("}", messages);
}

/* All of it in one line. */
static void write_json(const u64 *times)
{
	fprintf(messages,
		"{\"entries\":%" PRIu64 ",\"seconds\":%.9f,\"entries_per_second\":%.1f,"
		"\"bytes\":%" PRIu64 ",\"bytes_per_second\":%.1f,\"skipped\":%" PRIu64
		",\"given\":%" PRIu64 ",\"corrected\":%" PRIu64 ",\"assumed_done\":%" PRIu64
		",\"unsummed\":%" PRIu64 ",",
		counts.played, counts.seconds, a_second(counts.played), all_bytes(),
		a_second(all_bytes()), counts.unplayed, counts.given, counts.mended, counts.unsaid,
		counts.unsummed);
	if (times) {
		struct figures it = delays(times);
		write_shares("delay_ns", &it);
		fputc(',', messages);
		free(it.each);
	}
	write_opcodes();
	fputs("}\n", messages);
}

void write_summary(const u64 *times)
{
	if (options.quiet)
		return;
	if (options.json)
		write_json(times);
	else
		say_all(times);
}
