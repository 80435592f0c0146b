#include "positions.h"
#include "made.h"
#include "meetings.h"
#include "notes.h"
#include "sets.h"
#include "table.h"

#include <fcntl.h>
#include <stdlib.h>
#include <unistd.h>

/* The most bytes that are written over with themselves to move the position of what is only
 * written. */
enum { MOST_REWRITTEN = 1 << 20 };

struct opened *opened_of(const struct ring *ring, const struct io_uring_sqe *sqe)
{
	if (!(sqe->flags & FLAG_FIXED))
		return opened_at(sqe->fd);
	return (u32)sqe->fd < ring->slot_count ? ring->now[sqe->fd] : NULL;
}

/* Opens the description of an entry anew in the replay, so that its position is 0. */
static bool open_anew(struct ring *ring, const struct io_uring_sqe *sqe)
{
	if (!(sqe->flags & FLAG_FIXED))
		return open_number_anew(sqe->fd);
	struct opened *opened = ring->now[sqe->fd];
	char *name = name_in_replay(opened->descriptor);
	if (name) {
		int copy = fcntl(opened->descriptor, F_DUPFD_CLOEXEC, 0);
		ring->now[sqe->fd] = make_again(ring, (u32)sqe->fd + 1, name, copy, 0);
		release(opened);
	}
	free(name);
	return name != NULL;
}

/* Makes an entry that moves a position by so many bytes: a read, or a write of the bytes that are
 * there. */
static bool move_by(struct ring *ring, const struct io_uring_sqe *sqe, struct opened *opened,
		    u32 length)
{
	struct io_uring_sqe move = { .fd = sqe->fd, .off = AT_POSITION, .len = length };
	struct ring *on = sqe->flags & FLAG_FIXED ? ring : our_ring();

	move.flags = sqe->flags & FLAG_FIXED;
	if (opened->access != O_WRONLY) {
		move.opcode = OP_READ;
		struct entry *read = make(on, &move, NULL, 0, (i32)length);
		put_outside(read, unsettled_by(opened->device, opened->inode));
	} else {
		bool may_read = length <= MOST_REWRITTEN && !opened->appends;
		u8 *bytes = allocate(length);
		bool is_read = may_read && read_back(opened, bytes, length, opened->position);
		move.opcode = OP_WRITE;
		if (is_read)
			make(on, &move, bytes, length, (i32)length);
		free(bytes);
		if (!is_read)
			return false;
	}
	opened->position += length;
	return true;
}

/* Brings the position of an entry in the replay to a place; false where entries cannot do that. */
static bool set_position(struct ring *ring, const struct io_uring_sqe *sqe, u64 position)
{
	if (position < opened_of(ring, sqe)->position && !open_anew(ring, sqe))
		return false;
	struct opened *opened = opened_of(ring, sqe);
	if (position > opened->position && size_now(opened) < position)
		return false;
	while (opened->position < position) {
		u64 step = min64(position - opened->position, MOST_MOVED);
		if (!move_by(ring, sqe, opened, (u32)step))
			return false;
	}
	return true;
}

void correct_position(struct ring *ring, struct entry *entry)
{
	struct opened *opened = opened_of(ring, &entry->sqe);

	if (!opened || opened->descriptor < 0 || opened->moving)
		return;
	off_t position = lseek(opened->descriptor, 0, SEEK_CUR);
	if (position < 0 || (u64)position == opened->position)
		return;
	if (options.format == 3) {
		bool is_slot = entry->sqe.flags & FLAG_FIXED;
		seek_to(is_slot ? of_slot(ring, (u32)entry->sqe.fd) : of_number(entry->sqe.fd),
			(u64)position);
		opened->position = (u64)position;
		return;
	}
	if (set_position(ring, &entry->sqe, (u64)position)) {
		note("a position that ordinary calls moved is made right by entries", entry);
		return;
	}
	note("a position that ordinary calls moved, and that entries cannot make right", entry);
	put_aside(entry, OUTSIDE_POSITION);
}

void given_moved(const struct flight *flight, i32 result)
{
	const struct io_uring_sqe *sqe = &flight->asked_for;
	struct ring *ring = flight->ring;
	u32 slot = (u32)sqe->fd;
	bool is_moved = result > 0 && moves_bytes(sqe->opcode) && sqe->off == AT_POSITION &&
			sqe->flags & FLAG_FIXED;

	if (!is_moved || !flight->used || flight->used->descriptor >= 0 || flight->used->appends ||
	    slot >= ring->slot_count || ring->now[slot] != flight->used)
		return;
	flight->used->position += (u64)result;
	seek_to(of_slot(ring, slot), flight->used->position);
}

void position_moved(struct opened *opened, i32 result)
{
	off_t position;

	if (result <= 0)
		return;
	opened->position += (u64)result;
	if (opened->appends && opened->descriptor >= 0) {
		position = lseek(opened->descriptor, 0, SEEK_CUR);
		opened->position = position < 0 ? 0 : (u64)position;
	}
}
