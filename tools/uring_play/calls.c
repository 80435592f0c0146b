#include "calls.h"
#include "fill.h"
#include "numbers.h"
#include "registered.h"
#include "results.h"
#include "tree.h"

#include <errno.h>
#include <fcntl.h>
#include <string.h>
#include <unistd.h>

bool put_position(int descriptor, u64 position)
{
	bool is_far = position > 1ULL << 62 || lseek(descriptor, (off_t)position, SEEK_SET) < 0;

	return !is_far || lseek(descriptor, (off_t)STAND_IN, SEEK_SET) >= 0;
}

static void put_position_of(const struct record *record, int descriptor)
{
	if (!put_position(descriptor, record->call->position))
		say("place %u: its position cannot be had: %s", record->place, strerror(errno));
}

/* Whether opening a path may fail so by the profile. */
static bool is_of_open(int error)
{
	return error == ENOENT || error == EEXIST || error == EISDIR || error == ENOTDIR ||
	       error == ENAMETOOLONG;
}

/* A new description of a path, at its position; -1 where it cannot be opened, as by the answers.
 * Whether it can be by these they do not say, so any other error is told. */
static int open_path(const struct record *record)
{
	const struct call *call = record->call;
	int flags = (int)kept_open_flags(call->flags);
	int opened = move_up(openat(tree_root, below(call->path), flags, MODE_OF_FILES));

	if (opened < 0) {
		if (!is_of_open(errno))
			say("place %u: %s cannot be opened: %s", record->place, shown(call->path),
			    strerror(errno));
		return -1;
	}
	if (call->flags & O_CREAT)
		learn_node(call->path, record->place);
	put_position_of(record, opened);
	return opened;
}

/* What is held from then on: an open descriptor, or -1 for nothing. */
static int content_of(const struct record *record)
{
	switch (record->call->content) {
	case CONTENT_PATH:
		return open_path(record);
	case CONTENT_COPY:
		return held_by(&record->call->source);
	case CONTENT_TAKEN:
		return move_up(open_item(0, O_RDONLY));
	default:
		return -1;
	}
}

/* What is no number of the trace's is closed again. */
static void let_go(int descriptor)
{
	if (descriptor >= (int)trace.table_size)
		close(descriptor);
}

static void set(const struct record *record)
{
	const struct holder *file = &record->call->file;
	int content = content_of(record);

	if (file->kind == OF_SLOT)
		put_slot(file->ring, file->number, content);
	else if (content < 0)
		close((int)file->number);
	else if (dup2(content, (int)file->number) < 0)
		die("descriptor %u: %s", file->number, strerror(errno));
	let_go(content);
}

static void seek(const struct record *record)
{
	int held = held_by(&record->call->file);

	if (held >= 0)
		put_position_of(record, held);
	let_go(held);
}

void play_call(const struct record *record)
{
	let_open();
	if (record->kind == RECORD_SET)
		set(record);
	else
		seek(record);
	let_none_open();
}
