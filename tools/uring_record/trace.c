#include "trace.h"
#include "begun.h"
#include "notes.h"
#include "rings.h"
#include "sums.h"

#include <fcntl.h>
#include <stdio.h>
#include <stdlib.h>
#include <string.h>

/* The bytes of the parts of a trace: of a name, of a file or another name, the most without its
 * path and bytes; of records, without their entries or bytes. */
enum {
	HEADER_BYTES = 32,
	ITEM_BYTES = 15,
	DESCRIPTION_BYTES = 14,
	ENTRIES_BYTES = 4,
	FILL_BYTES = 12,
	NUMBER_BYTES = 4,
	/* what version 3 has more of each */
	MORE_OF_ENTRIES = 3,
	MORE_OF_FILL = 4,
	MORE_OF_ENTRY = 1,
	MORE_OF_NUMBER = 4,
};

struct trace trace;

const char *const outside_words[OUTSIDE_COUNT] = {
	[OUTSIDE_OPCODE] = "opcode",
	[OUTSIDE_DESCRIPTOR] = "descriptor",
	[OUTSIDE_SELECTION] = "selection",
	[OUTSIDE_FLAGS] = "flags",
	[OUTSIDE_SLOT] = "slot",
	[OUTSIDE_PATH] = "path",
	[OUTSIDE_MEMORY] = "memory",
	[OUTSIDE_BUFFER] = "buffer",
	[OUTSIDE_POSITION] = "position",
	[OUTSIDE_CHANGED] = "changed",
	[OUTSIDE_MAPPED] = "mapped",
	[OUTSIDE_LATE] = "late",
	[OUTSIDE_UNREADABLE] = "unreadable",
	[OUTSIDE_UNTOUCHED] = "untouched",
	[OUTSIDE_ORDER] = "order",
	[OUTSIDE_CHAIN] = "chain",
	[OUTSIDE_LINK] = "link",
	[OUTSIDE_LINKS] = "links",
	[OUTSIDE_LARGE] = "large",
	[OUTSIDE_SYSTEM] = "system",
	[OUTSIDE_POLLED] = "polled",
	[OUTSIDE_THREAD] = "thread",
	[OUTSIDE_USER] = "user",
	[OUTSIDE_UNSEEN] = "unseen",
};

/* Files by device and inode: a table of chains, for trees of many files. */
enum { NODE_CHAINS = 16384 };
struct node {
	dev_t device;
	ino_t inode;
	u32 item;
	enum outside doubt;
	struct node *next;
};
static struct node *nodes[NODE_CHAINS];

void end_recording(const char *why)
{
	if (trace.is_ended)
		return;
	trace.is_ended = true;
	note(why, NULL);
	fprintf(stderr, "uring_record: %s: the recording ends here, and the command runs on\n",
		why);
}

/* Bytes of a part, with those that version 3 has more. */
static u64 more_of(u64 bytes, u64 more)
{
	return options.format == 3 ? bytes + more : bytes;
}

/* The bytes of the trace without its names, files and records. */
static u64 fixed_bytes(void)
{
	u64 bytes = HEADER_BYTES + DESCRIPTION_BYTES * (trace.description_count + 1) +
		    more_of(NUMBER_BYTES, MORE_OF_NUMBER) * trace.table_size;

	for (u32 at = 0; options.format != 3 && at < ring_count; at++)
		bytes += 4 + 4ULL * rings[at]->slot_count + 12ULL * rings[at]->buffer_count;
	return bytes;
}

bool would_fit(u64 bytes)
{
	return !trace.is_ended && trace.bytes + bytes + fixed_bytes() <= options.limit;
}

u64 stored_of(u64 written)
{
	return options.no_data && options.format == 3 ? 0 : written;
}

bool has_room(u64 bytes)
{
	if (trace.is_ended || would_fit(bytes))
		return !trace.is_ended;
	end_recording("the trace has as many bytes as it may have");
	return false;
}

struct item *add_item(enum item_kind kind, char *path)
{
	u64 bytes = ITEM_BYTES + strlen(path);

	if (trace.item_count == (options.format == 3 ? MOST_ITEMS_3 : MOST_ITEMS))
		end_recording(options.format == 3
				      ? "the trace has 16,777,216 names, as many as it may have"
				      : "the trace has 65,535 names, as many as it may have");
	if (!has_room(bytes)) {
		free(path);
		return NULL;
	}
	trace.bytes += bytes;
	GROW(trace.items, trace.item_count, trace.item_room);
	struct item *item = &trace.items[trace.item_count++];
	*item = (struct item){ .kind = kind, .path = path, .descriptor = -1 };
	return item;
}

/* The node of a file, or NULL. */
static struct node *find_node(dev_t device, ino_t inode)
{
	struct node *it = nodes[(inode ^ device * 31) % NODE_CHAINS];

	while (it && (it->inode != inode || it->device != device))
		it = it->next;
	return it;
}

/* The same; one that is not there is made. */
static struct node *make_node(dev_t device, ino_t inode)
{
	struct node **chain = &nodes[(inode ^ device * 31) % NODE_CHAINS];
	struct node *made = find_node(device, inode);

	if (made)
		return made;
	made = allocate(sizeof *made);
	*made = (struct node){ device, inode, NO_ITEM, INSIDE, *chain };
	*chain = made;
	return made;
}

u32 node_of(const struct stat *status)
{
	const struct node *node = find_node(status->st_dev, status->st_ino);

	return node ? node->item : NO_ITEM;
}

void set_node(const struct stat *status, u32 item)
{
	make_node(status->st_dev, status->st_ino)->item = item;
}

bool knows_device(dev_t device)
{
	for (u32 chain = 0; chain < NODE_CHAINS; chain++) {
		for (const struct node *it = nodes[chain]; it; it = it->next) {
			if (it->device == device)
				return true;
		}
	}
	return false;
}

enum outside doubt_of(dev_t device, ino_t inode)
{
	const struct node *node = find_node(device, inode);

	return node ? node->doubt : INSIDE;
}

void set_doubt(dev_t device, ino_t inode, enum outside why)
{
	struct node *node = make_node(device, inode);

	if (node->doubt == INSIDE || node->doubt == OUTSIDE_UNTOUCHED)
		node->doubt = why;
}

struct record *new_record(struct ring *ring, u32 count)
{
	struct record *record = allocate(sizeof *record);

	record->kind = RECORD_ENTRIES;
	record->of = ring;
	record->room = count;
	record->entries = count ? allocate(count * sizeof *record->entries) : NULL;
	return record;
}

/* The bytes of an entry in the trace. (With --no-data those of a path are counted when it is put.)
 */
static u64 bytes_of(const struct entry *entry)
{
	return sizeof entry->sqe + more_of(4, MORE_OF_ENTRY) + stored_of(entry->side_length);
}

u32 places_of(const struct record *record)
{
	switch (record->kind) {
	case RECORD_ENTRIES:
		return record->count;
	case RECORD_RING_ENDS:
		return 0;
	default:
		return 1;
	}
}

void free_record(struct record *record)
{
	for (u32 at = 0; at < record->room; at++) {
		free(record->entries[at].side);
		free_sum(record->entries[at].sum);
	}
	free(record->entries);
	free(record->bytes);
	free(record);
}

void leave_record(struct record *record)
{
	if (record->is_gone && !record->is_open && !record->flying)
		free_record(record);
}

bool is_told(const struct entry *entry)
{
	return entry->record && entry->record->is_gone;
}

void add_record(struct record *record)
{
	begin_ring(record->of);
	append_record(record);
}

/* Ends the recording where a record has more places than the trace has room for. */
static void look_at_places(u64 places)
{
	if (options.format == 3 && trace.places + places > MOST_PLACES_3)
		end_recording("the trace has 2,147,483,648 places, as many as it may have");
	else if (options.format != 3 && trace.places + places > MOST_PLACES)
		end_recording("the trace has 1,048,576 places, as many as it may have");
}

/* The bytes of a record that is none of entries, beside its first ones. */
static u64 bytes_beside(const struct record *record)
{
	return record->kind == RECORD_FILL ? stored_of(record->length) : record->length;
}

void append_record(struct record *record)
{
	u64 bytes = record->kind == RECORD_ENTRIES
			    ? more_of(ENTRIES_BYTES, MORE_OF_ENTRIES)
			    : more_of(FILL_BYTES, MORE_OF_FILL) + bytes_beside(record);
	u32 places = places_of(record);

	for (u32 at = 0; at < record->count; at++)
		bytes += bytes_of(&record->entries[at]);
	look_at_places(places);
	if (!has_room(bytes))
		return;
	record->ring = record->of->number;
	record->is_added = true;
	record->size = bytes;
	trace.held += bytes;
	trace.bytes += bytes;
	trace.places += places;
	GROW(trace.records, trace.record_count, trace.record_room);
	trace.records[trace.record_count++] = record;
}

void drop_entry(struct record *record)
{
	const struct entry *left = &record->entries[--record->count];

	if (record->is_added) {
		record->size -= bytes_of(left);
		trace.held -= bytes_of(left);
		trace.bytes -= bytes_of(left);
		trace.places--;
	}
}

/* Whether version 3 alone serves an opcode. */
static bool is_of_version_3(u8 opcode)
{
	return options.format == 3 && (opcode == OP_SYNC_FILE_RANGE || opcode == OP_FADVISE);
}

bool is_served(u8 opcode)
{
	switch (opcode) {
	case OP_NOP:
	case OP_OPENAT:
	case OP_CLOSE:
	case OP_RENAMEAT:
	case OP_UNLINKAT:
	case OP_MKDIRAT:
	case OP_LINKAT:
		return true;
	case OP_STATX:
		return options.format == 3;
	default:
		return works_on_file(opcode);
	}
}

bool works_on_file(u8 opcode)
{
	return moves_bytes(opcode) || opcode == OP_FSYNC || opcode == OP_FALLOCATE ||
	       opcode == OP_FTRUNCATE || is_of_version_3(opcode);
}

bool stats_number(const struct io_uring_sqe *sqe)
{
	return sqe->opcode == OP_STATX && sqe->statx_flags & AT_EMPTY_PATH;
}

bool uses_file(const struct io_uring_sqe *sqe)
{
	return works_on_file(sqe->opcode) || stats_number(sqe);
}

bool moves_bytes(u8 opcode)
{
	return reads_bytes(opcode) || opcode == OP_WRITE || opcode == OP_WRITEV ||
	       opcode == OP_WRITE_FIXED;
}

bool reads_bytes(u8 opcode)
{
	return opcode == OP_READ || opcode == OP_READV || opcode == OP_READ_FIXED;
}

bool fills_memory(u8 opcode)
{
	return reads_bytes(opcode) || opcode == OP_STATX;
}

bool changes_file(u8 opcode)
{
	return works_on_file(opcode) && !reads_bytes(opcode) && opcode != OP_FSYNC &&
	       !is_of_version_3(opcode);
}

bool is_fixed(u8 opcode)
{
	return opcode == OP_READ_FIXED || opcode == OP_WRITE_FIXED;
}

bool opens_in_table(const struct io_uring_sqe *sqe)
{
	return sqe->opcode == OP_OPENAT && !sqe->file_index;
}

bool closes_in_table(const struct io_uring_sqe *sqe)
{
	return sqe->opcode == OP_CLOSE && !sqe->file_index;
}

bool awaits_slot(const struct entry *entry)
{
	return options.format == 3 && entry->sqe.opcode == OP_OPENAT && !entry->is_aside &&
	       entry->sqe.file_index == IORING_FILE_INDEX_ALLOC;
}

bool goes_on(const struct io_uring_sqe *sqe)
{
	return sqe->flags & (FLAG_LINK | FLAG_HARD);
}

bool is_given(const struct entry *entry)
{
	return options.format == 3 && entry->is_aside;
}

bool is_ambiguous(const struct entry *entry)
{
	return entry->outside == OUTSIDE_USER;
}

enum outside reason_of(const struct entry *entry)
{
	return is_given(entry) && !is_ambiguous(entry) ? entry->given_by : entry->outside;
}

/* Whether the replay may give the rest of a chain another end than the kernel: the member asks for
 * what the replay refuses, or is a NOP there and failed in the kernel. */
static bool turns_chain(const struct entry *entry)
{
	if (is_given(entry))
		return is_ambiguous(entry);
	switch (entry->outside) {
	case OUTSIDE_OPCODE:
		return !entry->replaced || entry->state != ENTRY_POSTED || entry->result < 0;
	case INSIDE:
	case OUTSIDE_LATE:
	case OUTSIDE_CHAIN:
		return false;
	default:
		return true;
	}
}

void put_outside(struct entry *entry, enum outside why)
{
	struct entry *head = entry->head;

	if (entry->outside == INSIDE || (entry->outside == OUTSIDE_LATE && why == OUTSIDE_ORDER))
		entry->outside = why;
	bool is_open = entry->replaced && entry->state == ENTRY_UNSEEN; /* (its end tells) */
	if (head && !is_open && turns_chain(entry) && (!head->turned || head->turned > entry))
		head->turned = entry;
}

void put_aside(struct entry *entry, enum outside why)
{
	if (options.format != 3)
		put_outside(entry, why);
	else if (!entry->is_aside)
		entry->given_by = why;
	entry->is_aside = true;
}

void put_inside(struct entry *entry)
{
	entry->outside = INSIDE;
}

bool is_doubtful(const struct entry *entry)
{
	const struct entry *head = entry->head;

	return entry->is_aside || turns_chain(entry) ||
	       (head && head->turned && head->turned < entry);
}

/* Marks the other members of a chain of which one is outside. */
static void mark_chain(struct entry *head, const struct entry *end)
{
	bool turns = false;

	for (const struct entry *it = head; it < end; it++)
		turns |= turns_chain(it);
	for (struct entry *it = head; turns && it < end; it++)
		put_outside(it, OUTSIDE_CHAIN);
}

u64 number_record(struct record *record, u64 place)
{
	struct entry *head = record->entries, *end = head + record->count;

	for (struct entry *it = head; it < end; it++) {
		it->place = place + (u64)(it - record->entries);
		if (it + 1 < end && goes_on(&it->sqe))
			continue;
		mark_chain(head, it + 1);
		head = it + 1;
	}
	return place + places_of(record);
}

u64 number_places(void)
{
	u64 place = 0;

	for (u64 at = 0; at < trace.record_count; at++)
		place = number_record(trace.records[at], place);
	return place;
}
