#include "brought.h"
#include "entry.h"
#include "fill.h"
#include "pieces.h"
#include "uring.h"
#include "watch.h"

#include <string.h>
#include <sys/stat.h>

enum { CHUNK = 1 << 20, KIND_DIRECTORY = 1, KIND_FILE = 2 };

static u64 stretch;

void sum_bytes(const u8 *bytes, u64 length, char text[SHA256_TEXT])
{
	struct sha256 sum;

	sha256_begin(&sum);
	for (u64 at = 0; at < length; at += CHUNK) {
		sha256_add(&sum, bytes + at, min64(CHUNK, length - at));
		go_on();
	}
	sha256_end(&sum, text);
}

/* --- What is kept -------------------------------------------------------------------------------
 */

u64 most_moved(const struct entry *entry)
{
	if (entry->state == ENTRY_SILENT)
		return filled_by(entry);
	return entry->result > 0 ? min64((u64)entry->result, asked_of(entry)) : 0;
}

/* What a STATX told: a kind, and the size of a file. */
static void keep_told(struct entry *entry)
{
	const struct statx *told = (const void *)entry->into;
	bool is_directory = S_ISDIR(told->stx_mode);
	u64 size = is_directory ? 0 : told->stx_size;

	entry->data_length = 1 + sizeof size;
	entry->data[0] = is_directory ? KIND_DIRECTORY : KIND_FILE;
	memcpy(entry->data + 1, &size, sizeof size);
}

static void keep_sum(struct entry *entry, u64 length)
{
	if (entry->is_folded) {
		counts.unsummed++;
		return;
	}
	entry->sum = allocate(SHA256_TEXT);
	sum_bytes(entry->into, length, entry->sum);
}

/* A silent read brought what the answers say. What is read into a buffer is told by its sum alone.
 */
void keep_data(struct entry *entry)
{
	bool is_fixed = entry->sqe[0] == OP_READ_FIXED;
	bool is_silent = entry->state == ENTRY_SILENT;
	u64 length = most_moved(entry);

	if (!entry->into || (is_silent && !entry->is_expected))
		return;
	if (is_stat(entry->sqe[0])) {
		if (is_silent || !entry->result)
			keep_told(entry);
		return;
	}
	if (!is_fixed) {
		entry->data_length = length;
		memcpy(entry->data, entry->into, min64(length, DATA_SHOWN));
	}
	if (length > (is_fixed ? 0 : DATA_SHOWN) && !options.no_sums)
		keep_sum(entry, length);
}

/* --- What is read over --------------------------------------------------------------------------
 */

void forget_stretches(void)
{
	stretch++;
}

bool reads_over(const struct entry *entry, u64 length)
{
	struct buffer *it = entry->sqe[0] == OP_READ_FIXED && length ? buffer_of(entry) : NULL;

	if (!it)
		return false;
	u64 low = fields_of(entry).address - it->address, high = low + length;
	bool is_first = it->stretch != stretch;
	bool is_over = !is_first && low < it->high && it->low < high;
	it->low = is_first ? low : min64(low, it->low);
	it->high = is_first || high > it->high ? high : it->high;
	it->stretch = stretch;
	return is_over;
}
