#include "chains.h"
#include "apart.h"
#include "brought.h"
#include "entry.h"
#include "fill.h"
#include "mend.h"
#include "uring.h"

#include <errno.h>

#define FLAG_LINKS (FLAG_LINK | FLAG_HARD)

u32 chain_length(const struct record *record, u32 from)
{
	u32 to = from;

	while (to + 1 < record->count && record->entries[to].sqe[1] & FLAG_LINKS)
		to++;
	return to + 1 - from;
}

static void leave_out(struct entry *entry, enum apart why, on_members *each)
{
	if (entry->apart == NOT_APART)
		entry->apart = why;
	each(entry, 1, true);
}

static void take_some(struct entry *first, u32 from, u32 to, on_members *each)
{
	if (to > from)
		each(first + from, to - from, false);
}

/* --- Doomed chains ------------------------------------------------------------------------------
 */

/* Whether the answers say of a member that no member of its chain runs: it fails its tests by
 * itself, and is silent, which one that runs is not where it fails. */
static bool shows_doom(const struct entry *entry)
{
	bool is_failed = is_failure(entry, entry->expected) && entry->expected != -ECANCELED;

	return is_found_late(entry) || entry->is_refused ||
	       (entry->is_expected && is_failed && !entry->is_posted_expected);
}

/* Whether the answers say that a member does not run. One that is given may have this result by
 * itself: then its word says whether it breaks the chain. */
static bool is_canceled(const struct entry *entry)
{
	return entry->expected == -ECANCELED && !(entry->is_given && entry->given == -ECANCELED);
}

bool is_doomed(const struct entry *first, u32 count)
{
	for (u32 at = 0; count > 1 && at < count; at++) {
		if (shows_doom(&first[at]))
			return true;
	}
	for (u32 at = 0; at + 1 < count; at++) {
		if (is_canceled(&first[at]))
			return true;
		if (is_failure(&first[at], first[at].expected) && !(first[at].sqe[1] & FLAG_HARD))
			return false;
	}
	return count > 1 && is_canceled(&first[count - 1]);
}

/* A doomed chain is played where the kernel finds it so as it takes it; members whose fault it
 * would find later are canceled there. */
static void plan_doomed(struct entry *first, u32 count, on_members *each)
{
	bool is_found = false, is_odd = false;

	for (u32 at = 0; at < count; at++) {
		is_odd |= first[at].apart != NOT_APART;
		if (first[at].expected == -ECANCELED)
			continue;
		if (is_found_late(&first[at]))
			first[at].apart = APART_DOOM;
		else
			is_found = true;
	}
	if (is_found && !is_odd) {
		each(first, count, false);
		return;
	}
	for (u32 at = 0; at < count; at++)
		leave_out(&first[at], APART_DOOM, each);
}

/* --- Chains that run ----------------------------------------------------------------------------
 */

static bool breaks(const struct entry *entry, bool is_last)
{
	return !is_last && is_failure(entry, entry->expected) && !(entry->sqe[1] & FLAG_HARD);
}

/* Whether a member has to wait until those before it in its piece are looked at: it reads over what
 * they read into a buffer, or there is no memory for its bytes beside theirs. `read` is how many
 * bytes they read. */
static bool is_cut_before(const struct entry *entry, u64 *read)
{
	bool is_summed = is_read(entry->sqe[0]) && !options.no_sums;
	u64 length = is_summed ? filled_by(entry) : 0;
	bool is_over = reads_over(entry, length);
	bool is_much = *read && *read + length > MOST_GREAT;

	*read += length;
	return is_over || is_much;
}

/* Gives the members that run by the answers, cut where the kernel would do otherwise with the rest;
 * the last piece is left to the caller, which gets where it begins and where a member breaks the
 * chain (`count` where none does). */
static u32 plan_members(struct entry *first, u32 count, u32 *broken_at, on_members *each)
{
	u32 from = 0, at;
	u64 read = 0;

	forget_stretches();
	for (at = 0; at < count; at++) {
		struct entry *it = &first[at];
		bool is_breaking = breaks(it, at + 1 == count);
		bool is_cut_here = is_cut(it) && !is_breaking;
		if (is_cut_before(it, &read)) {
			take_some(first, from, at, each);
			from = at;
			forget_stretches();
			read = 0;
			is_cut_before(it, &read);
		}
		if (it->apart != NOT_APART) {
			take_some(first, from, at, each);
			leave_out(it, it->apart, each);
			from = at + 1;
		} else if (is_failure(it, it->expected) && !surely_breaks(it)) {
			if (it->sqe[1] & FLAG_SKIP)
				it->apart = APART_LINKS;
			is_cut_here |= is_breaking;
		}
		if (is_cut_here && from <= at) {
			take_some(first, from, at + 1, each);
			from = at + 1;
		}
		if (is_breaking)
			break;
	}
	*broken_at = at;
	return from;
}

static void plan_expected(struct entry *first, u32 count, on_members *each)
{
	u32 broken_at;

	for (u32 at = 0; at < count; at++)
		first[at].apart = why_apart(&first[at]);
	if (is_doomed(first, count)) {
		plan_doomed(first, count, each);
		return;
	}
	u32 from = plan_members(first, count, &broken_at, each);
	/* What is canceled stays in the piece of the member that broke the chain, as far as it is
	 * played as it stands. */
	u32 to = from > broken_at ? from : count;
	for (u32 at = broken_at + 1; at < to; at++) {
		if (first[at].apart != NOT_APART)
			to = at;
	}
	take_some(first, from, to, each);
	for (u32 at = to; at < count; at++)
		leave_out(&first[at], APART_LINKS, each);
}

/* A chain as it stands, unless a member is never played. */
static void plan_as_it_stands(struct entry *first, u32 count, on_members *each)
{
	bool is_left = false;

	for (u32 at = 0; at < count; at++) {
		first[at].apart = why_never(&first[at]);
		is_left |= first[at].apart != NOT_APART;
	}
	if (!is_left)
		each(first, count, false);
	for (u32 at = 0; is_left && at < count; at++)
		leave_out(&first[at], APART_LINKS, each);
}

void plan_chain(struct entry *first, u32 count, on_members *each)
{
	if (options.expected)
		plan_expected(first, count, each);
	else
		plan_as_it_stands(first, count, each);
}
