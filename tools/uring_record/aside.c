#include "aside.h"
#include "given.h"
#include "made.h"
#include "memory.h"
#include "notes.h"
#include "paths.h"
#include "sets.h"
#include "sides.h"
#include "table.h"

#include <errno.h>
#include <fcntl.h>
#include <linux/openat2.h>
#include <stdlib.h>
#include <string.h>
#include <sys/resource.h>
#include <sys/stat.h>
#include <unistd.h>

/* Opcodes that the profile does not serve, and that fill slots or change files. */
enum {
	OP_ACCEPT = 13,
	OP_FILES_UPDATE = 20,
	OP_OPENAT2 = 28,
	OP_SPLICE = 30,
	OP_SYMLINKAT = 38,
	OP_MSG_RING = 40,
	OP_SOCKET = 45,
	OP_FD_INSTALL = 54,
	OP_WRITEV_FIXED = 61,
};
enum { SENDS_DESCRIPTOR = 1, NO_SLOT = 65535, MOST_SIDE = 4095 };
/* Of the descriptors of a FILES_UPDATE: one that leads to what is no file. */
enum { NO_FILE = -2 };

/* A name in a directory that no tree has: it is not found, and nothing can be made there. */
static const char aside_name[] = "/.uring_record.outside/-";

/* What a descriptor or slot of the command leads to, with one more holder, or NULL. */
static struct opened *file_behind(const struct ring *ring, pid_t process, i32 descriptor,
				  bool is_slot)
{
	if (is_slot) {
		bool is_there = (u32)descriptor < ring->slot_count;
		struct opened *foreign = is_there ? ring->foreign[descriptor] : NULL;
		struct opened *known = is_there && !foreign ? ring->now[descriptor] : foreign;
		return known ? hold(known) : NULL;
	}
	int copy = copy_descriptor(process, descriptor);
	return copy < 0 ? NULL : new_opened(copy, 0);
}

struct opened *file_now(const struct flight *flight)
{
	return file_behind(flight->ring, flight->process, flight->asked_for.fd, false);
}

void take_outside_slot(struct flight *flight, u32 index, struct opened *opened)
{
	if (!index || index > flight->ring->slot_count) {
		release(opened);
		return;
	}
	flight->takes_place = flight->is_outside = true;
	flight->slot = index;
	struct change *changed = &flight->ring->changed[index - 1];
	if (changed->sequence <= flight->sequence)
		*changed = (struct change){ flight->sequence, flight->chain };
	release(flight->foreign_before);
	flight->foreign_before = flight->ring->foreign[index - 1];
	flight->ring->foreign[index - 1] = opened;
}

/* Finds what an entry names in the tree. */
static void find_name(struct flight *flight, pid_t thread, u64 address)
{
	char *text = fetch_text(thread, address);

	if (text)
		name_outside(flight, 0, flight->asked_for.fd, text);
	free(text);
}

/* OPENAT2: which file it opens. */
static void look_at_openat2(struct flight *flight, pid_t thread)
{
	const struct io_uring_sqe *sqe = &flight->asked_for;
	struct open_how how = { 0 };
	u64 size = min64(sizeof how, sqe->len);

	fetch(thread, sqe->off, &how, size);
	flight->open_flags = (u32)how.flags;
	find_name(flight, thread, sqe->addr);
	if (flight->names[0])
		flight->used = new_direct(flight->names[0], flight->open_flags);
	take_outside_slot(flight, sqe->file_index,
			  flight->used ? hold(flight->used) : new_unknown());
	touch_opened(flight);
}

/* SYMLINKAT: the name of the link. */
static void look_at_symlinkat(struct flight *flight, pid_t thread)
{
	find_name(flight, thread, flight->asked_for.addr2);
	flight->changes_link = true;
	if (flight->names[0])
		touch_name(flight, (const u8 *)flight->names[0], (u32)strlen(flight->names[0]),
			   true);
}

/* FILES_UPDATE: the files that its descriptors lead to. These may be closed, or written over,
 * before its completion is seen. */
static void look_at_descriptors(struct flight *flight, pid_t thread)
{
	const struct io_uring_sqe *sqe = &flight->asked_for;

	if (options.format != 3 || sqe->len > MOST_SLOTS)
		return;
	flight->copies = allocate(sqe->len * sizeof *flight->copies);
	flight->copy_count = sqe->len;
	for (u32 at = 0; at < sqe->len; at++) {
		int number = (int)fetch_word(thread, sqe->addr + 4ULL * at);
		int copy = copy_descriptor(flight->process, number);
		if (copy >= 0 && !is_file_or_directory(copy)) { /* (it would stay open) */
			close(copy);
			copy = NO_FILE;
		}
		flight->copies[at] = copy;
	}
}

void look_at_unserved(struct flight *flight, pid_t thread)
{
	const struct io_uring_sqe *sqe = &flight->asked_for;

	switch (sqe->opcode) {
	case OP_ACCEPT:
	case OP_SOCKET:
		take_outside_slot(flight, sqe->file_index, new_unknown());
		break;
	case OP_OPENAT2:
		look_at_openat2(flight, thread);
		break;
	case OP_SYMLINKAT:
		look_at_symlinkat(flight, thread);
		break;
	case OP_FILES_UPDATE:
		look_at_descriptors(flight, thread);
		break;
	case OP_SPLICE:
	case OP_WRITEV_FIXED:
		flight->changes = file_behind(flight->ring, flight->process, sqe->fd,
					      sqe->flags & FLAG_FIXED);
		break;
	}
}

/* Results. */

/* Whether the process has a limit on the size of files. */
static bool has_size_limit(pid_t process)
{
	struct rlimit limit = { RLIM_INFINITY, RLIM_INFINITY };

	prlimit(process, RLIMIT_FSIZE, NULL, &limit);
	return limit.rlim_cur != RLIM_INFINITY;
}

u64 end_in_file(const struct io_uring_sqe *sqe, i32 result)
{
	u64 from = sqe->off;

	if (sqe->opcode == OP_FTRUNCATE)
		return from;
	if (sqe->opcode == OP_FALLOCATE)
		return from + min64(sqe->addr, UINT64_MAX - from);
	if (!moves_bytes(sqe->opcode) || reads_bytes(sqe->opcode) || from == AT_POSITION)
		return 0;
	return from + (u64)result;
}

/* Whether another thread has changed where the number of an entry leads, since it was looked at. */
static bool is_renumbered(const struct flight *flight, i32 result)
{
	const struct io_uring_sqe *sqe = &flight->asked_for;
	const struct opened *used = flight->used;
	enum outside why = reason_of(flight->entry);
	bool is_number = uses_file(sqe) && !(sqe->flags & FLAG_FIXED);

	if (closes_in_table(sqe) && flight->takes_place)
		return result == -EBADF && flight->before;
	if (!is_number || (why != INSIDE && why != OUTSIDE_THREAD))
		return false;
	if (!used)
		return result >= 0;
	bool is_refused =
		reads_bytes(sqe->opcode) ? used->access == O_WRONLY : used->access == O_RDONLY;
	return result == -EBADF && !is_refused;
}

/* Whether the directory that an entry was to take away, or to replace, holds nothing that the tree
 * has. */
static bool is_empty_in_tree(const struct flight *flight)
{
	const char *name = flight->names[flight->asked_for.opcode == OP_RENAMEAT];

	return !name || !holds_names(name);
}

enum outside outside_by_result(const struct flight *flight, i32 result)
{
	const struct entry *entry = flight->entry;
	const struct io_uring_sqe *sqe = &flight->asked_for;
	bool is_polled = flight->ring->flags & IORING_SETUP_IOPOLL;

	if (result == -ECANCELED && entry->head == entry && !goes_on(&entry->sqe))
		return OUTSIDE_SYSTEM; /* (there is no chain that broke) */
	if (is_polled && (result == -EOPNOTSUPP || result == -EINVAL))
		return OUTSIDE_POLLED;
	if (is_renumbered(flight, result))
		return OUTSIDE_THREAD;
	if (options.format == 3 && sqe->opcode == OP_CLOSE && flight->was_taken && result < 0 &&
	    result != -ECANCELED)
		return OUTSIDE_DESCRIPTOR;
	if (result >= 0 && end_in_file(sqe, result) > MOST_SIZE)
		return OUTSIDE_LARGE;
	if (result == -ENOTEMPTY && is_empty_in_tree(flight))
		return OUTSIDE_LINK;
	if (is_of_linux(flight, result) ||
	    (result == -EOPNOTSUPP && sqe->flags & FLAG_DRAIN && flight->ring->has_quiet))
		return OUTSIDE_SYSTEM;
	if (options.format == 3 && is_undecided(flight, result))
		return result == -EFAULT ? OUTSIDE_MEMORY : OUTSIDE_SYSTEM;
	if (options.format == 3 && result != -EFBIG)
		return INSIDE;
	switch (result) {
	case -EFAULT:
		return OUTSIDE_MEMORY;
	case -EFBIG:
		return has_size_limit(flight->process) ? OUTSIDE_SYSTEM : INSIDE;
	case -EACCES:
	case -EPERM:
	case -EROFS:
	case -ETXTBSY:
	case -EBUSY:
	case -ENOSPC:
	case -EDQUOT:
	case -EIO:
	case -ENOMEM:
	case -ENFILE:
	case -EAGAIN:
	case -EINTR:
		return OUTSIDE_SYSTEM;
	default:
		return INSIDE;
	}
}

/* What the kernel did. */

/* What an entry that has ended names in the tree, in memory of its own, or NULL: looked for now
 * where that was not known when it was submitted. */
static char *told_name(const struct flight *flight, u32 which)
{
	const char *known = flight->names[which], *later = flight->unresolved[which];
	char *full = later ? copy_text(later) : known && flight->rests ? outside_path(known) : NULL;
	bool is_there = true;

	if (!full)
		return known ? copy_text(known) : NULL;
	char *name = resolve_name(full, &is_there);
	if (!is_there)
		lose("a name that was made or taken away at a place that is not known");
	free(full);
	return name;
}

/* The name in the tree of what an open that is outside opened, in memory of its own, or NULL. */
static char *name_of_opened(const struct flight *flight, i32 result)
{
	char *full, *name = NULL;
	bool is_silent = flight->entry->state == ENTRY_SILENT;

	if (!flight->asked_for.file_index && !is_silent) {
		int copy = copy_descriptor(flight->process, result);
		name = copy < 0 ? NULL : name_of(copy);
		if (copy >= 0)
			close(copy);
		return name;
	}
	char *path = told_name(flight, 0);
	full = path ? outside_path(path) : NULL;
	int copy = full ? open(full, O_PATH | O_CLOEXEC) : -1;
	name = copy < 0 ? NULL : name_of(copy);
	if (copy >= 0)
		close(copy);
	free(path);
	free(full);
	return name;
}

/* A slot that an open filled which is outside has its file in the replay too, where that is one of
 * the tree, and nothing else has changed the slot since. */
static void tell_opened(struct flight *flight, i32 result)
{
	struct ring *ring = flight->ring;
	u32 slot = flight->slot - 1, flags = flight->open_flags;
	bool is_last = ring->changed[slot].sequence == flight->sequence &&
		       flight->renewals == ring->renewals &&
		       reason_of(flight->entry) != OUTSIDE_SLOT;
	bool is_plain = !(flags & (O_PATH | __O_TMPFILE)) && (flags & O_ACCMODE) != O_ACCMODE;
	char *name = is_last && is_plain ? name_of_opened(flight, result) : NULL;

	if (name && doubted_by(name, (u32)strlen(name)) == INSIDE) {
		flags &= O_ACCMODE | O_APPEND;
		set_path(of_slot(ring, slot), name, flags, 0);
		slot_holds(ring, slot, new_direct(name, flags));
		flight->takes_place = flight->is_outside = false;
	}
	free(name);
}

/* An open: what it made or cut is made or cut by an entry of the recorder. */
static void open_ended(struct flight *flight, i32 result)
{
	u32 kept = flight->open_flags & (O_ACCMODE | O_CREAT | O_TRUNC);
	char *name =
		flight->open_flags & (O_CREAT | O_TRUNC) ? name_of_opened(flight, result) : NULL;

	if (name) {
		struct opened **slot = &our_ring()->now[0];
		*slot = release(*slot);
		make_open(our_ring(), 1, name, kept, 0);
	}
	free(name);
	if (flight->asked_for.file_index == IORING_FILE_INDEX_ALLOC &&
	    flight->entry->state != ENTRY_SILENT)
		take_outside_slot(flight, (u32)result + 1,
				  flight->names[0]
					  ? new_direct(flight->names[0], flight->open_flags)
					  : new_unknown());
	if (options.format == 3 && flight->takes_place && flight->is_outside)
		tell_opened(flight, result);
}

/* An open for which no slot was left has made its file, which stays; false where there is none. */
static bool make_what_stays(const struct flight *flight)
{
	char *name = name_of_opened(flight, 0);
	struct opened **slot = &our_ring()->now[0];
	bool is_there = name;

	if (name) {
		*slot = release(*slot);
		make_open(our_ring(), 1, name, flight->open_flags & (O_ACCMODE | O_CREAT), 0);
	}
	free(name);
	return is_there;
}

/* Whether an opcode takes a name as it is. */
static bool reads_name(const struct flight *flight)
{
	return flight->asked_for.opcode == OP_OPENAT && !(flight->open_flags & (O_CREAT | O_TRUNC));
}

/* An open into a slot failed: the kernel may have made or cut the file before it looked at the
 * slot. */
static void open_failed(const struct flight *flight, i32 result)
{
	u32 made = flight->open_flags & (O_CREAT | O_TRUNC);
	const char *name = flight->names[0];

	if (!flight->asked_for.file_index || !made || !name)
		return;
	if (options.format == 3 && result == -ENFILE && made == O_CREAT && make_what_stays(flight))
		return;
	doubt_name((const u8 *)name, (u32)strlen(name), OUTSIDE_SLOT);
}

/* A slot of another ring gets a file of this one. */
static void message_ended(struct flight *flight, i32 result)
{
	const struct io_uring_sqe *sqe = &flight->asked_for;
	struct ring *to = find_ring(flight->process, sqe->fd);
	u32 slot = sqe->file_index == IORING_FILE_INDEX_ALLOC ? (u32)result : sqe->file_index - 1;
	struct opened *sent = file_behind(flight->ring, flight->process, (i32)sqe->addr3, true);

	if (sqe->addr != SENDS_DESCRIPTOR || !to || slot >= to->slot_count) {
		release(sent);
		return;
	}
	to->changed[slot] = (struct change){ to->sequence, NO_CHAIN };
	struct opened *passed =
		options.format == 3 ? set_slot_of(of_slot(to, slot), flight->ring, (u32)sqe->addr3)
				    : NULL;
	if (passed) {
		release(sent);
		slot_holds(to, slot, passed);
		return;
	}
	if (to->now[slot])
		give_up_slot(to, slot);
	to->now[slot] = release(to->now[slot]);
	release(to->foreign[slot]);
	to->foreign[slot] = sent ? sent : new_unknown();
}

/* Whether a later entry, or a call, has changed a slot. */
static bool is_changed_since(const struct flight *flight, u32 slot)
{
	return slot < flight->ring->slot_count &&
	       flight->ring->changed[slot].sequence > flight->sequence;
}

/* A slot was changed by an entry, whenever that is seen. */
static void has_changed(const struct flight *flight, u32 slot)
{
	struct ring *ring = flight->ring;

	if (slot < ring->slot_count)
		ring->changed[slot] = (struct change){ flight->sequence, flight->chain };
}

/* A slot that a FILES_UPDATE filled has one of its files; false where that is not known. */
static bool put_copy(struct flight *flight, u32 at, u32 slot)
{
	struct ring *ring = flight->ring;
	int copy = at < flight->copy_count ? flight->copies[at] : -1;

	if (copy == -1 || slot >= ring->slot_count)
		return false;
	if (copy == NO_FILE) {
		if (ring->now[slot])
			give_up_slot(ring, slot);
		ring->now[slot] = release(ring->now[slot]);
		release(ring->foreign[slot]);
		ring->foreign[slot] = new_unknown();
	} else {
		put_into_slot(ring, slot, copy);
		flight->copies[at] = -1;
	}
	return true;
}

/* FILES_UPDATE: the slots are those of a list, or such as the kernel chose. */
static void files_ended(struct flight *flight, pid_t thread, i32 done)
{
	const struct io_uring_sqe *sqe = &flight->asked_for;
	struct ring *ring = flight->ring;
	u32 count = done < 0 ? 0 : (u32)done, from = (u32)sqe->off;
	bool is_chosen = from == IORING_FILE_INDEX_ALLOC;

	if (options.format != 3 && !is_chosen) {
		update_slots(ring, thread, from, sqe->addr, count, done);
		return;
	}
	for (u32 at = 0; at < count; at++) {
		u64 place = sqe->addr + 4ULL * at;
		u32 slot = is_chosen ? fetch_word(thread, place) : from + at;
		if (is_changed_since(flight, slot))
			continue;
		if (put_copy(flight, at, slot))
			;
		else if (is_chosen)
			take_outside_slot(flight, slot + 1, new_unknown());
		else
			update_slots(ring, thread, slot, place, 1, 1);
		has_changed(flight, slot);
	}
	bool has_failed = !is_chosen && count < sqe->len && (count || done == -EBADF);
	if (!has_failed || is_changed_since(flight, from + count))
		return;
	update_slots(ring, thread, from + count, sqe->addr + 4ULL * count, 1, -EBADF);
	has_changed(flight, from + count);
}

/* Tells what an entry made, moved or took away by an entry of the recorder. Links are in no tree.
 */
static void tell_names(const struct flight *flight, char *const names[2])
{
	const struct io_uring_sqe *sqe = &flight->asked_for;

	if (!names[0])
		return;
	switch (sqe->opcode) {
	case OP_UNLINKAT:
		if (!flight->is_link[0])
			make_path(OP_UNLINKAT, sqe->unlink_flags & AT_REMOVEDIR, names[0]);
		break;
	case OP_MKDIRAT:
		make_path(OP_MKDIRAT, 0, names[0]);
		break;
	case OP_RENAMEAT:
		if (names[1])
			make_rename(sqe->rename_flags & 3, names, flight->is_link,
				    flight->replaces);
		break;
	case OP_LINKAT:
		if (names[1] && !flight->is_link[0])
			make_paths(OP_LINKAT, 0, names[0], names[1]);
		break;
	}
}

/* Whether it is not known whether an entry moved, or took away, a file or a link: what it named was
 * made by one that was in flight with it. */
static bool may_be_of_link(const struct flight *flight)
{
	const struct io_uring_sqe *sqe = &flight->asked_for;
	bool is_file = sqe->opcode == OP_UNLINKAT && !(sqe->unlink_flags & AT_REMOVEDIR);

	return flight->rests && (is_file || sqe->opcode == OP_RENAMEAT || sqe->opcode == OP_LINKAT);
}

/* Names that an entry outside made, moved or took away are told, or in doubt. */
static void names_ended(struct flight *flight)
{
	char *names[2] = { told_name(flight, 0), told_name(flight, 1) };

	for (unsigned at = 0; may_be_of_link(flight) && at < 2; at++) {
		if (names[at])
			doubt_name((const u8 *)names[at], (u32)strlen(names[at]), OUTSIDE_CHAIN);
	}
	if (!may_be_of_link(flight))
		tell_names(flight, names);
	free(names[0]);
	free(names[1]);
}

/* What the replay has in a slot goes, where something came there that the replay does not have. */
static void slot_ended(struct flight *flight)
{
	struct ring *ring = flight->ring;
	u32 index = flight->slot;

	if (!flight->is_outside || !index || !ring->now[index - 1])
		return;
	if (options.format == 3 && ring->changed[index - 1].sequence > flight->sequence)
		return; /* (a later entry has changed it) */
	give_up_slot(ring, index - 1);
	ring->now[index - 1] = release(ring->now[index - 1]);
}

/* An open into a slot has ended: which file is there is known now. */
static void look_at_opened(struct flight *flight)
{
	struct opened *foreign = flight->slot ? flight->ring->foreign[flight->slot - 1] : NULL;

	if (foreign)
		look_at_direct(foreign);
}

/* An entry behind one of its chain that may break the chain in the replay: what it named is in
 * doubt. */
static void names_may_differ(const struct flight *flight)
{
	const struct entry *entry = flight->entry, *head = entry->head;
	bool is_behind = head && head->turned && head->turned < entry;

	for (u32 at = 0; is_behind && at < flight->touch_count; at++) {
		const struct touch *touch = &flight->touches[at];
		if (touch->kind == TOUCH_NAME && touch->writes)
			doubt_name(touch->path, touch->length, OUTSIDE_CHAIN);
	}
}

/* FIXED_FD_INSTALL: a number has what the slot had, if that is there still. */
static void installed(struct flight *flight, i32 number)
{
	u32 slot = (u32)flight->asked_for.fd;

	if (!is_changed_since(flight, slot) && flight->renewals == flight->ring->renewals)
		number_installed(flight->process, number, flight->ring, slot);
}

/* The file that a slot has is changed in a way that has no entry. */
static void unsettle_slot(const struct ring *ring, u32 slot)
{
	struct opened *known = ring->foreign[slot] ? ring->foreign[slot] : ring->now[slot];

	if (known) {
		look_at_direct(known);
		unsettle(known, OUTSIDE_CHANGED);
	}
}

/* What an entry did that is given or not served. */
static void tell_ended(struct flight *flight, pid_t thread, i32 result)
{
	const struct io_uring_sqe *sqe = &flight->asked_for;
	u8 opcode = sqe->opcode;

	if (opcode == OP_OPENAT || opcode == OP_OPENAT2)
		open_ended(flight, result);
	else if (opcode == OP_ACCEPT && sqe->file_index == IORING_FILE_INDEX_ALLOC)
		take_outside_slot(flight, (u32)result + 1, new_unknown());
	else if (opcode == OP_SOCKET && sqe->file_index == IORING_FILE_INDEX_ALLOC)
		take_outside_slot(flight, (u32)result + 1, new_unknown());
	else if (opcode == OP_MSG_RING)
		message_ended(flight, result);
	else if (opcode == OP_FD_INSTALL && options.format == 3)
		installed(flight, result);
	else if (opcode == OP_FILES_UPDATE)
		files_ended(flight, thread, result);
	else
		names_ended(flight);
}

void outside_ended(struct flight *flight, pid_t thread, i32 result)
{
	const struct entry *entry = flight->entry;
	const struct io_uring_sqe *sqe = &flight->asked_for;
	u8 opcode = sqe->opcode;

	if (result < 0) {
		open_failed(flight, result);
		if (opcode == OP_FILES_UPDATE)
			files_ended(flight, thread, result);
		return;
	}
	if (flight->is_nowhere && !reads_name(flight))
		lose("a name that was made or taken away at a place that is not known");
	if (flight->used && changes_file(opcode))
		unsettle(flight->used,
			 reason_of(entry) == INSIDE ? OUTSIDE_CHAIN : reason_of(entry));
	if (flight->changes) {
		look_at_direct(flight->changes);
		unsettle(flight->changes, OUTSIDE_CHANGED);
	}
	if (flight->is_blind && changes_file(opcode))
		unsettle_slot(flight->ring, (u32)sqe->fd);
	if (flight->is_blind && opcode == OP_CLOSE) {
		empty_slot(flight->ring, sqe->file_index - 1);
		has_changed(flight, sqe->file_index - 1);
	}
	if (opcode == OP_OPENAT || opcode == OP_OPENAT2)
		look_at_opened(flight);
	if (!entry->is_aside && entry->outside != OUTSIDE_OPCODE) {
		names_may_differ(flight);
		return;
	}
	tell_ended(flight, thread, result);
	slot_ended(flight);
}

/* Whether a path of the trace leads to a directory now. */
static bool is_directory(const struct touch *touch)
{
	char *name = copy_bytes((const char *)touch->path, touch->length);
	char *full = outside_path(name);
	struct stat status;
	bool is_one = !lstat(full, &status) && S_ISDIR(status.st_mode);

	free(name);
	free(full);
	return is_one;
}

void doubt_touched(const struct flight *flight, enum outside why)
{
	bool moves = flight->asked_for.opcode == OP_RENAMEAT;

	for (u32 at = 0; moves && !trace.has_no_tree && at < flight->touch_count; at++) {
		const struct touch *touch = &flight->touches[at];
		if (touch->kind != TOUCH_NAME || !is_directory(touch))
			continue;
		note("a directory that may be at either of two names: the results have no tree",
		     flight->entry);
		trace.has_no_tree = true;
	}
	for (u32 at = 0; at < flight->touch_count; at++) {
		const struct touch *touch = &flight->touches[at];
		if (touch->kind == TOUCH_NAME && touch->writes)
			doubt_name(touch->path, touch->length, why);
	}
}

void doubt_names(const struct flight *flight, i32 result)
{
	u8 opcode = flight->asked_for.opcode;
	bool takes_away = opcode == OP_UNLINKAT || opcode == OP_RENAMEAT;
	bool makes = result >= 0 && (opcode == OP_MKDIRAT || opcode == OP_LINKAT);

	if (takes_away || makes)
		doubt_touched(flight, OUTSIDE_ORDER);
}

void leave(const struct flight *flight)
{
	for (u32 at = 0; at < flight->touch_count; at++) {
		const struct touch *touch = &flight->touches[at];
		if (touch->kind == TOUCH_FILE && touch->writes)
			unsettle(touch->file, OUTSIDE_UNSEEN);
	}
	doubt_touched(flight, OUTSIDE_UNSEEN);
	if (flight->changes)
		unsettle(flight->changes, OUTSIDE_UNSEEN);
}

void leave_flights_of(const struct record *record)
{
	for (const struct flight *it = record->of->first; it; it = it->next) {
		if (it->entry->record == record)
			leave(it);
	}
}

void leave_unseen(void)
{
	for (u32 at = 0; at < ring_count; at++) {
		for (struct flight *it = rings[at]->first; it; it = it->next) {
			leave(it);
			mark_alike(it->alike);
			it->alike = NULL;
		}
	}
}

/* What is written. */

/* The path of an entry put below a directory that no tree has. */
static u8 *aside_side(const struct entry *entry, u32 at, u32 *length)
{
	u32 name = sizeof aside_name - 1, rest = entry->side_length - at;
	u8 *side = allocate(at + name + rest + 2);

	rest = name + rest + 1 > MOST_SIDE ? 0 : rest;
	memcpy(side + at, aside_name, name);
	if (rest && entry->side[at] != '/')
		side[at + name++] = '/';
	if (rest)
		memcpy(side + at + name, entry->side + at, rest);
	*length = at + name + rest;
	return side;
}

/* The same of two paths: the first is put there. */
static u8 *aside_sides(const struct entry *entry, u32 *length)
{
	u32 name = sizeof aside_name - 1, rest = entry->side_length - 2;
	u16 first;
	u8 *side = allocate(name + entry->side_length + 4);

	memcpy(&first, entry->side, 2);
	u32 kept = name + first + 1 > MOST_SIDE ? 0 : first, other = rest - first;
	memcpy(side + 2, aside_name, name);
	if (kept && entry->side[2] != '/')
		side[2 + name++] = '/';
	u16 spelled = (u16)(name + kept);
	memcpy(side, &spelled, 2);
	memcpy(side + 2 + name, entry->side + 2, kept);
	memcpy(side + 2 + spelled, entry->side + 2 + first, other);
	*length = 2U + spelled + other;
	return side;
}

void aside_form(const struct entry *entry, struct io_uring_sqe *sqe, u8 **side, u32 *length)
{
	*sqe = entry->sqe;
	*length = entry->side_length;
	switch (sqe->opcode) {
	case OP_OPENAT:
	case OP_UNLINKAT:
	case OP_MKDIRAT:
		*side = aside_side(entry, 0, length);
		return;
	case OP_RENAMEAT:
	case OP_LINKAT:
		*side = aside_sides(entry, length);
		return;
	case OP_CLOSE:
		if (sqe->file_index)
			sqe->file_index = NO_SLOT;
		else
			sqe->fd = -1;
		break;
	default:
		if (works_on_file(sqe->opcode))
			sqe->fd = sqe->flags & FLAG_FIXED ? NO_SLOT : -1;
		break;
	}
	*side = allocate(*length);
	if (*length)
		memcpy(*side, entry->side, *length);
}
