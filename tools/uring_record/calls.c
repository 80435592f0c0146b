#include "calls.h"
#include "aside.h"
#include "completions.h"
#include "flights.h"
#include "made.h"
#include "meetings.h"
#include "memory.h"
#include "notes.h"
#include "paths.h"
#include "positions.h"
#include "sets.h"
#include "start.h"
#include "table.h"

#include <fcntl.h>
#include <linux/aio_abi.h>
#include <linux/fs.h>
#include <linux/openat2.h>
#include <stdlib.h>
#include <string.h>
#include <sys/mman.h>
#include <sys/syscall.h>
#include <unistd.h>

/* A call, and which of its arguments are the file that it changes, names and the directories that
 * they start from, and flags (or none). Of one without a file or a name `ended` says what it
 * changes. */
struct kind {
	long number;
	void (*ended)(struct call *call, i64 result);
	signed char file, directory, path, other_directory, other, flags;
};
enum { NONE = -1 };
/* What newer kernels have, and the most that io_submit(2) takes. */
enum { WRITE_ZEROES = 0x80, MOST_SUBMITTED = 65536 };

static const struct kind *kind_of(long number);

/* The flags that a call was given. */
static u32 flags_of(const struct call *call)
{
	struct open_how how = { 0 };
	int argument = kind_of(call->number)->flags;

	if (call->number == SYS_openat2 &&
	    fetch(call->thread, call->arguments[2], &how, sizeof how))
		return (u32)how.flags;
#ifdef SYS_creat
	if (call->number == SYS_creat)
		return O_CREAT | O_TRUNC | O_WRONLY;
#endif
	return argument == NONE ? 0 : (u32)call->arguments[argument];
}

/* The entry that a call becomes: it has met what met the call while it ran. */
static void is_told_by(struct call *call, struct entry *entry)
{
	struct entry *stand_in = call->flight->entry;

	stand_in->told_by = entry;
	put_outside(entry, stand_in->outside);
	counts.calls++;
}

/* Calls by a descriptor */

/* Opens what a descriptor of the recorder leads to in the slot of the recorder's ring. Without a
 * name it has to be in the replay already: else there is NULL. */
static struct opened *open_ours(int copy)
{
	struct holder ours = of_slot(our_ring(), 0);
	int again = fcntl(copy, F_DUPFD_CLOEXEC, 0);
	char *name = name_in_replay(copy);
	struct opened *known = name || options.format != 3 ? NULL : set_known(ours, again);

	if (name && options.format == 3)
		set_path(ours, name, O_RDWR, 0);
	else if (name)
		make_open(our_ring(), 1, name, O_RDWR, 0);
	if (name)
		known = new_opened(again, 0);
	else if (!known)
		close(again);
	free(name);
	return known;
}

/* The slot of the recorder's ring, opened on what a descriptor of the recorder leads to; false
 * where it cannot be. */
static bool open_our_slot(int copy)
{
	struct opened **slot = &our_ring()->now[0];

	if (*slot && is_same((*slot)->descriptor, copy) && !has_other_append(*slot))
		return true;
	struct opened *opened = open_ours(copy);
	if (opened) {
		release(*slot);
		*slot = opened;
	}
	return opened;
}

/* A change of a file that has no entry: it is noted, and the bytes of the file are not told from
 * here on. */
static void leave_change(const struct opened *file, const char *what)
{
	char *target = descriptor_target(getpid(), file->descriptor);
	char *inside = target ? inside_root(target) : NULL;

	if (inside) {
		note(what, NULL);
		unsettle(file, OUTSIDE_CHANGED);
	}
	free(target);
	free(inside);
}

static void note_nameless(const struct opened *file)
{
	leave_change(file, "an ordinary call that changes a file without a name is left out");
}

/* Adds an entry for a call on a descriptor: on the same number where the table has it, else on the
 * recorder's slot. `moves` says that the call moved the position from the entry's offset on. */
static void add_on_file(struct call *call, struct io_uring_sqe *sqe, bool moves, const void *side,
			u32 length, i32 result)
{
	int file = kind_of(call->number)->file, copy = call->flight->used->descriptor;
	bool has_table = file != NONE && options.format != 1 && call->process == home_process();
	struct opened *opened = has_table ? opened_at((int)call->arguments[file]) : NULL;
	bool is_there = opened && !opened->is_unsure && is_same(opened->descriptor, copy) &&
			!has_other_append(opened);
	bool has_number = is_there && (trace.uses_table || options.format == 3);

	if (!has_number && open_our_slot(copy)) {
		sqe->fd = 0;
		sqe->flags = FLAG_FIXED;
	} else if (is_there) {
		trace.uses_table |= options.format != 3;
		sqe->fd = (int)call->arguments[file];
		if (moves && opened->position == sqe->off && !opened->moving) {
			sqe->off = AT_POSITION;
			position_moved(opened, result);
		}
	} else {
		note_nameless(call->flight->used);
		return;
	}
	struct entry *made = make(our_ring(), sqe, side, length, result);
	is_told_by(call, made);
	if (end_in_file(sqe, result) > MOST_SIZE) {
		note("a file grows over 2^40 bytes, which no trace can have", made);
		put_outside(made, OUTSIDE_LARGE);
		unsettle(call->flight->used, OUTSIDE_LARGE);
	}
}

/* Whether a write goes to the end of its file. */
static bool is_append(const struct call *call)
{
	u64 flags = call->number == SYS_pwritev2 ? call->arguments[5] : 0;

	return flags & RWF_APPEND || (call->flight->used->appends && !(flags & RWF_NOAPPEND));
}

/* Whether a write is at the position. */
static bool is_at_position(const struct call *call)
{
	return call->number == SYS_write || call->number == SYS_writev ||
	       (call->number == SYS_pwritev2 && (i64)call->arguments[3] == -1);
}

/* The bytes of a write, in memory of their own. */
static u8 *bytes_of(const struct call *call, u64 length)
{
	const u64 *arguments = call->arguments;
	u8 *bytes = allocate(length);
	bool is_plain = call->number == SYS_write || call->number == SYS_pwrite64;
	struct iovec *vectors =
		is_plain ? NULL : fetch_vectors(call->thread, arguments[1], arguments[2]);
	bool is_read = is_plain ? fetch(call->thread, arguments[1], bytes, length)
				: vectors && fetch_gathered(call->thread, vectors, arguments[2],
							    bytes, length);

	if (!is_read)
		note("the bytes of an ordinary write cannot be read: zeros are recorded", NULL);
	free(vectors);
	return bytes;
}

/* write(2) and its kin. */
static void ended_write(struct call *call, i64 result)
{
	u64 length = (u64)result;
	bool moves = is_at_position(call);
	struct io_uring_sqe sqe = { .opcode = OP_WRITE, .len = (u32)length };

	if (!length)
		return;
	sqe.off = call->arguments[3];
	if (moves)
		sqe.off = (u64)lseek(call->flight->used->descriptor, 0, SEEK_CUR) - length;
	else if (is_append(call))
		sqe.off = size_now(call->flight->used) - length;
	u8 *bytes = bytes_of(call, length);
	add_on_file(call, &sqe, moves, bytes, (u32)length, (i32)length);
	free(bytes);
}

/* ftruncate(2). */
static void ended_ftruncate(struct call *call, i64 result)
{
	struct io_uring_sqe sqe = { .opcode = OP_FTRUNCATE, .off = call->arguments[1] };

	add_on_file(call, &sqe, false, NULL, 0, (i32)result);
}

/* fallocate(2). */
static void ended_fallocate(struct call *call, i64 result)
{
	const u64 *arguments = call->arguments;
	struct io_uring_sqe sqe = { .opcode = OP_FALLOCATE,
				    .off = arguments[2],
				    .addr = arguments[3] };

	sqe.len = (u32)arguments[1];
	if (sqe.len & (FALLOC_FL_COLLAPSE_RANGE | FALLOC_FL_INSERT_RANGE)) {
		leave_change(call->flight->used,
			     "fallocate(2) that takes a range out or puts one in is left out");
		return;
	}
	/* (the replay has no shared blocks, and its zeros are as good as written ones) */
	sqe.len &= ~(u32)FALLOC_FL_UNSHARE_RANGE;
	if (sqe.len & WRITE_ZEROES)
		sqe.len = FALLOC_FL_ZERO_RANGE;
	add_on_file(call, &sqe, false, NULL, 0, (i32)result);
}

/* ioctl(2) that changes a file. */
static void ended_ioctl(struct call *call, i64 result)
{
	(void)result;
	leave_change(call->flight->used, "ioctl(2) that changes a file is left out");
}

/* Whether fcntl(2) is to change O_APPEND of a file. */
static bool changes_append(const struct call *call, int copy)
{
	return (fcntl(copy, F_GETFL) ^ (int)call->arguments[2]) & O_APPEND;
}

/* fcntl(2): what is open for appending, and what is not. */
static void ended_fcntl(struct call *call, i64 result)
{
	(void)call;
	(void)result;
	appends_changed();
}

/* copy_file_range(2), sendfile(2), splice(2): what came is read back. */
static void ended_copy(struct call *call, i64 result)
{
	u64 length = (u64)result, at = call->arguments[3], after;
	bool moves = call->number == SYS_sendfile || !at;
	const struct opened *to = call->flight->used;

	after = (u64)lseek(to->descriptor, 0, SEEK_CUR);
	if (!length || (!moves && !fetch(call->thread, at, &after, sizeof after)))
		return;
	struct io_uring_sqe sqe = { .opcode = OP_WRITE, .off = after - length, .len = (u32)length };
	u8 *bytes = allocate(length);
	if (read_back(to, bytes, length, sqe.off))
		add_on_file(call, &sqe, moves, bytes, (u32)length, (i32)length);
	else
		note("what copy_file_range, sendfile or splice moved cannot be read", NULL);
	free(bytes);
}

/* What a call on a file touches. */
static void touch_changed(struct call *call)
{
	const u64 *arguments = call->arguments;
	struct opened *file = call->flight->used;
	u64 from = 0, length = UINT64_MAX;

	if (call->number == SYS_fallocate) {
		from = arguments[2];
		length = arguments[3];
	} else if (call->number == SYS_pwrite64 && !file->appends) {
		from = arguments[3];
		length = arguments[2];
	} else if (call->number == SYS_write && !file->appends) {
		from = (u64)lseek(file->descriptor, 0, SEEK_CUR);
		length = arguments[2];
	}
	touch_file(call->flight, file, from, from + min64(length, UINT64_MAX - from), true);
}

/* Calls by name */

static void ended_open(struct call *call, i64 result);
static void ended_truncate(struct call *call, i64 result);
static void ended_link(struct call *call, i64 result);

/* Whether a call goes on to what a link at the end of its first path leads to. */
static bool follows_last(const struct call *call)
{
	void (*ended)(struct call *, i64) = kind_of(call->number)->ended;

	return ended == ended_open || ended == ended_truncate ||
	       (ended == ended_link && flags_of(call) & AT_SYMLINK_FOLLOW);
}

/* Whether a call finds at a name what no trace has, as a link, and moves it or takes it away. Links
 * on the way to it are gone through. */
static bool finds_link(const struct call *call, char **name, bool follows)
{
	return look_through(name, follows) == NAME_LINK &&
	       kind_of(call->number)->ended != ended_open;
}

/* Whether a call gives another name to what is open at a number. */
static bool links_opened(const struct call *call)
{
	return kind_of(call->number)->ended == ended_link && flags_of(call) & AT_EMPTY_PATH;
}

/* The name in the tree of what is open at a number, in memory of its own, or NULL. */
static char *name_of_opened(pid_t process, int number)
{
	int copy = copy_descriptor(process, number);
	char *name = copy < 0 ? NULL : name_of(copy);

	if (copy >= 0)
		close(copy);
	return name;
}

/* A name of a call as the trace has it, in memory of its own, or NULL where it is not below the
 * root, or not known. */
static char *name_in_tree(const struct call *call, int directory, int argument, bool *is_known,
			  bool *is_link)
{
	int from = directory == NONE ? AT_FDCWD : (int)call->arguments[directory];
	char *path = argument == NONE ? NULL : fetch_text(call->thread, call->arguments[argument]);
	bool is_first = argument == kind_of(call->number)->path;
	bool follows = is_first && follows_last(call);

	*is_known = true;
	*is_link = false;
	if (path && !*path && is_first && links_opened(call)) {
		free(path);
		return name_of_opened(call->process, from);
	}
	char *name = path ? canonical_path(call->process, from, path, is_known) : NULL;
	*is_link = name && finds_link(call, &name, follows);
	if (*is_link && follows) {
		*is_link = false;
		free(name);
		name = NULL;
	}
	if (!name && path && follows)
		name = followed_path(call->process, from, path);
	free(path);
	return name;
}

/* Finds the names of a call; false where one of them is not known. */
static bool find_names(const struct call *call, char **names, bool *are_links)
{
	const struct kind *kind = kind_of(call->number);
	bool is_known, is_other_known;

	names[0] = name_in_tree(call, kind->directory, kind->path, &is_known, &are_links[0]);
	names[1] = name_in_tree(call, kind->other_directory, kind->other, &is_other_known,
				&are_links[1]);
	return is_known && is_other_known;
}

/* Whether a name of a call is on a device where the tree has nothing, or is none. */
static bool is_on_other_device(const struct call *call, int directory, int argument)
{
	int from = directory == NONE ? AT_FDCWD : (int)call->arguments[directory];
	char *path = argument == NONE ? NULL : fetch_text(call->thread, call->arguments[argument]);
	dev_t device;
	bool is_other =
		argument == NONE ||
		(path && device_of(call->process, from, path, &device) && !knows_device(device));

	free(path);
	return is_other;
}

/* A call by a name that was not known has changed something: where the names are known now, it is
 * not told what is there, and else it may be anywhere. */
static void leave_unknown(const struct call *call)
{
	static const char text[] = "an ordinary call by a name that is not known is left out";
	const struct kind *kind = kind_of(call->number);
	char *names[2];
	bool are_links[2], is_known = find_names(call, names, are_links);

	if (is_known && (names[0] || names[1]))
		note(text, NULL);
	else if (!is_known && !(is_on_other_device(call, kind->directory, kind->path) &&
				is_on_other_device(call, kind->other_directory, kind->other)))
		lose(text);
	for (int at = 0; at < 2; at++) {
		if (names[at])
			doubt_name((const u8 *)names[at], (u32)strlen(names[at]), OUTSIDE_PATH);
		free(names[at]);
	}
}

/* unlink(2), rmdir(2), unlinkat(2). */
static void ended_unlink(struct call *call, i64 result)
{
	u32 flags = call->number == SYS_unlinkat ? flags_of(call) & AT_REMOVEDIR : 0;

	(void)result;
#ifdef SYS_rmdir
	if (call->number == SYS_rmdir)
		flags = AT_REMOVEDIR;
#endif
	if (!call->is_link[0])
		is_told_by(call, make_path(OP_UNLINKAT, flags, call->names[0]));
}

/* mkdir(2), mkdirat(2). */
static void ended_mkdir(struct call *call, i64 result)
{
	(void)result;
	is_told_by(call, make_path(OP_MKDIRAT, 0, call->names[0]));
}

/* A rename or link of which the trace has one name: what is there is not told. */
static void leave_names(const struct call *call)
{
	note("a rename or link into or out of the root is left out", NULL);
	for (int at = 0; at < 2; at++) {
		const char *name = call->names[at];
		if (name)
			doubt_name((const u8 *)name, (u32)strlen(name), OUTSIDE_PATH);
	}
}

/* rename(2), renameat(2), renameat2(2). */
static void ended_rename(struct call *call, i64 result)
{
	/* (the device that a whiteout leaves is in no trace) */
	u32 flags = flags_of(call) & ~(u32)RENAME_WHITEOUT;

	(void)result;
	if (!call->names[0] || !call->names[1]) {
		leave_names(call);
		return;
	}
	if (flags & RENAME_EXCHANGE && options.format != 1)
		trace.uses_table = true; /* (version 1 has no exchange) */
	struct entry *made = make_rename(flags, call->names, call->is_link, call->replaces);
	if (made)
		is_told_by(call, made);
}

/* link(2), linkat(2). Another name of a link is one. */
static void ended_link(struct call *call, i64 result)
{
	(void)result;
	if (!call->names[0] || !call->names[1])
		leave_names(call);
	else if (!call->is_link[0])
		is_told_by(call, make_paths(OP_LINKAT, 0, call->names[0], call->names[1]));
}

/* The recorder's slot is opened by a path, which makes or cuts its file. */
static void open_by_call(struct call *call, const char *name, u32 flags)
{
	struct opened **slot = &our_ring()->now[0];

	*slot = release(*slot);
	is_told_by(call, make_open(our_ring(), 1, name, flags, 0));
}

/* symlink(2), mknod(2) and their kin: the trace has no such names, but those of files. */
static void ended_other_name(struct call *call, i64 result)
{
	int mode = kind_of(call->number)->flags;
	bool is_file = mode != NONE &&
		       (S_ISREG(call->arguments[mode]) || !(call->arguments[mode] & S_IFMT));

	(void)result;
	if (is_file)
		open_by_call(call, call->names[0], O_WRONLY | O_CREAT | O_EXCL);
	else
		note("a name that is neither a file nor a directory is made, and left out", NULL);
}

/* Puts a call in flight whose file is known at its end alone: entries that were in flight while it
 * ran meet it. */
static void launch_late(struct call *call, int copy)
{
	if (call->flight)
		return;
	call->flight = new_flight(call_ring(), allocate(sizeof(struct entry)), call->process);
	call->flight->used = new_opened(fcntl(copy, F_DUPFD_CLOEXEC, 0), 0);
	touch_file(call->flight, call->flight->used, 0, UINT64_MAX, true);
	meet_others(call->flight);
	launch(call->flight);
}

/* The path by which the recorder finds the file that truncate(2) cuts, in memory of its own. */
static char *path_of_cut(const struct call *call)
{
	char *path = call->names[0] ? NULL : fetch_text(call->thread, call->arguments[0]), *seen;

	seen = call->names[0] ? outside_path(call->names[0])
	       : path	      ? seen_path(call->process, AT_FDCWD, path)
			      : NULL;
	free(path);
	return seen;
}

/* truncate(2): the file is opened here for it. */
static void ended_truncate(struct call *call, i64 result)
{
	char *full = path_of_cut(call);
	int copy = full ? open(full, O_WRONLY | O_CLOEXEC) : -1;
	struct io_uring_sqe sqe = { .opcode = OP_FTRUNCATE, .off = call->arguments[1] };

	free(full);
	if (copy < 0) {
		leave_unknown(call);
		return;
	}
	launch_late(call, copy);
	release(call->flight->used);
	call->flight->used = new_opened(copy, 0);
	add_on_file(call, &sqe, false, NULL, 0, (i32)result);
}

/* An open has made or cut a file, which becomes an entry. */
static void tell_open(struct call *call, const char *name, u32 flags, int copy)
{
	launch_late(call, copy);
	open_by_call(call, name, flags & (O_ACCMODE | O_CREAT | O_EXCL | O_TRUNC | O_APPEND));
	if (options.format == 3) /* (what is written by this open has its slot) */
		our_ring()->now[0] = new_opened(fcntl(copy, F_DUPFD_CLOEXEC, 0), 0);
}

/* An open: what it makes or cuts is told, and the table learns the number while the file has its
 * name. */
static void ended_open(struct call *call, i64 result)
{
	u32 flags = flags_of(call);
	bool is_nameless = flags & O_PATH || (flags & O_TMPFILE) == O_TMPFILE;
	int copy = copy_descriptor(call->process, (int)result);
	char *name = copy < 0 || is_nameless ? NULL : name_of(copy);

	if (name && flags & (O_CREAT | O_TRUNC)) {
		tell_open(call, name, flags, copy);
	} else if (copy >= 0 && !is_nameless && flags & O_TRUNC) {
		launch_late(call, copy);
		struct opened *cut = new_opened(fcntl(copy, F_DUPFD_CLOEXEC, 0), 0);
		note_nameless(cut);
		release(cut);
	}
	if (name && trace.uses_table && options.format != 1 && call->process == home_process()) {
		if (call->flight)
			forget_spans(call->flight); /* (what it makes is there now) */
		begin_batch();
		ensure_number(call->process, (int)result);
	}
	free(name);
	if (copy >= 0)
		close(copy);
}

/* io_submit(2): the bytes that it writes come later. */
static void ended_submit(struct call *call, i64 result)
{
	for (u64 at = 0; result > 0 && at < call->file_count; at++)
		leave_change(call->files[at], "what io_submit(2) writes is left out");
}

/* Whether an open makes its file. */
static bool makes_name(const struct call *call)
{
	char *full = flags_of(call) & O_CREAT ? outside_path(call->names[0]) : NULL;
	bool makes = full && access(full, F_OK);

	free(full);
	return makes;
}

/* What a call by name touches. */
static void touch_named(struct call *call)
{
	bool is_open = kind_of(call->number)->ended == ended_open;
	bool is_link = kind_of(call->number)->ended == ended_link;
	bool cuts = kind_of(call->number)->ended == ended_truncate ||
		    (is_open && flags_of(call) & O_TRUNC);

	for (unsigned at = 0; at < 2; at++) {
		const char *name = call->names[at];
		bool writes = is_open ? makes_name(call) : !cuts && (!is_link || at);
		if (name)
			touch_name(call->flight, (const u8 *)name, (u32)strlen(name), writes);
	}
	if (call->names[0] && cuts) {
		call->flight->used = new_direct(call->names[0], O_WRONLY);
		touch_file(call->flight, call->flight->used, 0, UINT64_MAX, true);
	}
}

/* Each call, and its arguments: file, directory, path, the other's directory, the other path,
 * flags. */
static const struct kind kinds[] = {
	{ SYS_write, ended_write, 0, NONE, NONE, NONE, NONE, NONE },
	{ SYS_pwrite64, ended_write, 0, NONE, NONE, NONE, NONE, NONE },
	{ SYS_writev, ended_write, 0, NONE, NONE, NONE, NONE, NONE },
	{ SYS_pwritev, ended_write, 0, NONE, NONE, NONE, NONE, NONE },
	{ SYS_pwritev2, ended_write, 0, NONE, NONE, NONE, NONE, NONE },
	{ SYS_ftruncate, ended_ftruncate, 0, NONE, NONE, NONE, NONE, NONE },
	{ SYS_fallocate, ended_fallocate, 0, NONE, NONE, NONE, NONE, NONE },
	{ SYS_copy_file_range, ended_copy, 2, NONE, NONE, NONE, NONE, NONE },
	{ SYS_sendfile, ended_copy, 0, NONE, NONE, NONE, NONE, NONE },
	{ SYS_splice, ended_copy, 2, NONE, NONE, NONE, NONE, NONE },
	{ SYS_truncate, ended_truncate, NONE, NONE, 0, NONE, NONE, NONE },
	{ SYS_openat, ended_open, NONE, 0, 1, NONE, NONE, 2 },
	{ SYS_openat2, ended_open, NONE, 0, 1, NONE, NONE, NONE },
	{ SYS_open_by_handle_at, ended_open, NONE, NONE, NONE, NONE, NONE, 2 },
	{ SYS_io_submit, ended_submit, NONE, NONE, NONE, NONE, NONE, NONE },
	{ SYS_unlinkat, ended_unlink, NONE, 0, 1, NONE, NONE, 2 },
	{ SYS_mkdirat, ended_mkdir, NONE, 0, 1, NONE, NONE, NONE },
	{ SYS_renameat2, ended_rename, NONE, 0, 1, 2, 3, 4 },
	{ SYS_linkat, ended_link, NONE, 0, 1, 2, 3, 4 },
	{ SYS_symlinkat, ended_other_name, NONE, 1, 2, NONE, NONE, NONE },
	{ SYS_mknodat, ended_other_name, NONE, 0, 1, NONE, NONE, 2 },
#ifdef SYS_open
	{ SYS_open, ended_open, NONE, NONE, 0, NONE, NONE, 1 },
	{ SYS_creat, ended_open, NONE, NONE, 0, NONE, NONE, NONE },
	{ SYS_unlink, ended_unlink, NONE, NONE, 0, NONE, NONE, NONE },
	{ SYS_rmdir, ended_unlink, NONE, NONE, 0, NONE, NONE, NONE },
	{ SYS_mkdir, ended_mkdir, NONE, NONE, 0, NONE, NONE, NONE },
	{ SYS_rename, ended_rename, NONE, NONE, 0, NONE, 1, NONE },
	{ SYS_renameat, ended_rename, NONE, 0, 1, 2, 3, NONE },
	{ SYS_link, ended_link, NONE, NONE, 0, NONE, 1, NONE },
	{ SYS_symlink, ended_other_name, NONE, NONE, 1, NONE, NONE, NONE },
	{ SYS_mknod, ended_other_name, NONE, NONE, 0, NONE, NONE, 1 },
#endif
	/* (these are stopped by what they are to do) */
	{ SYS_fcntl, ended_fcntl, 0, NONE, NONE, NONE, NONE, NONE },
	{ SYS_ioctl, ended_ioctl, 0, NONE, NONE, NONE, NONE, NONE },
};
enum { KINDS = sizeof kinds / sizeof *kinds, KINDS_BY_COMMAND = 2 };

/* What is known of a call, or NULL. */
static const struct kind *kind_of(long number)
{
	for (u32 at = 0; at < KINDS; at++) {
		if (kinds[at].number == number)
			return &kinds[at];
	}
	return NULL;
}

u32 list_calls(long *numbers, u32 room)
{
	u32 count = 0;

	for (; count < KINDS - KINDS_BY_COMMAND && count < room; count++)
		numbers[count] = kinds[count].number;
	return count;
}

/* Whether a call makes, moves or takes away a link. */
static bool changes_link(const struct call *call)
{
	return kind_of(call->number)->ended == ended_other_name || call->is_link[0] ||
	       call->is_link[1];
}

/* Puts a call in flight with what it touches: entries that are submitted while it runs meet it. */
static void launch_call(struct call *call, int copy)
{
	reap_all(call->process, call->thread);
	call->flight = new_flight(call_ring(), allocate(sizeof(struct entry)), call->process);
	call->flight->changes_link = changes_link(call);
	if (copy >= 0) {
		call->flight->used = new_opened(copy, 0);
		touch_changed(call);
	} else {
		touch_named(call);
	}
	meet_others(call->flight);
	launch(call->flight);
}

void forget_call(struct call *call)
{
	if (call->flight) {
		struct entry *stand_in = call->flight->entry;
		land(call->flight);
		if (stand_in->outside == INSIDE)
			free(stand_in); /* (no note has it) */
	}
	free(call->names[0]);
	free(call->names[1]);
	call->names[0] = call->names[1] = NULL;
	call->flight = NULL;
	call->is_unknown = call->looks = call->replaces = false;
	call->is_link[0] = call->is_link[1] = false;
	while (call->file_count)
		release(call->files[--call->file_count]);
}

bool may_change(const struct call *call)
{
	const struct kind *kind = kind_of(call->number);
	struct stat status = { 0 };

	if (!kind || kind->ended == ended_copy || kind->ended == ended_other_name)
		return false;
	if (kind->file != NONE) {
		int copy = copy_descriptor(call->process, (int)call->arguments[kind->file]);
		bool is_file = copy >= 0 && !fstat(copy, &status) && S_ISREG(status.st_mode);
		if (copy >= 0)
			close(copy);
		return is_file;
	}
	if (kind->ended == ended_open && !(flags_of(call) & (O_CREAT | O_TRUNC)))
		return false;
	bool are_links[2];
	char *names[2], *full;
	find_names(call, names, are_links);
	full = names[0] ? outside_path(names[0]) : NULL;
	/* (an open of a pipe waits for its other end) */
	bool is_other = full && !stat(full, &status) && !S_ISREG(status.st_mode) &&
			!S_ISDIR(status.st_mode);
	bool may = (names[0] || names[1]) && !is_other;
	free(full);
	free(names[0]);
	free(names[1]);
	return may;
}

/* Files that a call opens, renames or links are such that the command uses. */
static void touch_by_names(const struct call *call)
{
	void (*ended)(struct call *, i64) = kind_of(call->number)->ended;

	if (ended != ended_open && ended != ended_rename && ended != ended_link &&
	    ended != ended_truncate)
		return;
	for (unsigned at = 0; at < 2; at++) {
		char *full = call->names[at] ? outside_path(call->names[at]) : NULL;
		if (full)
			is_touched_by_name(full);
		free(full);
	}
}

/* A call by a descriptor: whether it may change a file. */
static bool begins_on_file(struct call *call, const struct kind *kind)
{
	int copy = copy_descriptor(call->process, (int)call->arguments[kind->file]);
	struct stat status;
	bool is_file = copy >= 0 && !fstat(copy, &status) && S_ISREG(status.st_mode) &&
		       (kind->ended != ended_fcntl || changes_append(call, copy));

	if (is_file)
		launch_call(call, copy);
	else if (copy >= 0)
		close(copy);
	return is_file;
}

/* A call by names: whether its end matters. What an open or truncate(2) leads to is seen then. */
static bool begins_on_names(struct call *call, const struct kind *kind)
{
	if (kind->ended == ended_open && !trace.uses_table && !options.touched &&
	    !(flags_of(call) & (O_CREAT | O_TRUNC)))
		return false;
	call->looks = kind->ended == ended_open || kind->ended == ended_truncate;
	call->is_unknown = !find_names(call, call->names, call->is_link) && !call->looks;
	call->replaces = call->is_link[0] && call->names[1] && is_file(call->names[1]);
	bool has_name = call->names[0] || call->names[1];
	if (options.touched)
		touch_by_names(call);
	if (has_name)
		launch_call(call, -1);
	return has_name || call->looks || call->is_unknown;
}

/* Keeps a file that a call writes, once. */
static void keep_file(struct call *call, int copy)
{
	struct opened *file = new_opened(copy, 0);

	for (u64 at = 0; at < call->file_count; at++) {
		if (call->files[at]->inode == file->inode &&
		    call->files[at]->device == file->device) {
			release(file);
			return;
		}
	}
	GROW(call->files, call->file_count, call->file_room);
	call->files[call->file_count++] = file;
}

/* io_submit(2): the files that it writes. */
static bool begins_to_submit(struct call *call)
{
	u64 list = call->arguments[2], count = min64(call->arguments[1], MOST_SUBMITTED);

	for (u64 at = 0; at < count; at++) {
		struct iocb block;
		u64 address;
		if (!fetch(call->thread, list + 8 * at, &address, sizeof address) ||
		    !fetch(call->thread, address, &block, sizeof block))
			break;
		bool writes = block.aio_lio_opcode == IOCB_CMD_PWRITE ||
			      block.aio_lio_opcode == IOCB_CMD_PWRITEV;
		int copy = writes ? copy_descriptor(call->process, (int)block.aio_fildes) : -1;
		if (copy >= 0)
			keep_file(call, copy);
	}
	if (!call->file_count)
		return false;
	call->flight = new_flight(call_ring(), allocate(sizeof(struct entry)), call->process);
	for (u64 at = 0; at < call->file_count; at++)
		touch_file(call->flight, call->files[at], 0, UINT64_MAX, true);
	meet_others(call->flight);
	launch(call->flight);
	return true;
}

bool call_begins(struct call *call)
{
	const struct kind *kind = kind_of(call->number);

	if (!is_started() || trace.is_ended || !kind)
		return false;
	if (kind->ended == ended_submit)
		return begins_to_submit(call);
	return kind->file != NONE ? begins_on_file(call, kind) : begins_on_names(call, kind);
}

void call_ended(struct call *call, i64 result)
{
	const struct kind *kind = kind_of(call->number);

	if (result >= 0 && kind && call->is_unknown) {
		leave_unknown(call);
	} else if (result >= 0 && kind && (call->flight || call->looks)) {
		kind->ended(call, result);
		if (call->flight && call->flight->meets_name && kind->ended != ended_open)
			doubt_touched(call->flight, OUTSIDE_ORDER);
	}
	forget_call(call);
}

void file_mapped(const struct call *call)
{
	const u64 *arguments = call->arguments;

	if (!is_started() || trace.is_ended || !(arguments[2] & PROT_WRITE) ||
	    !(arguments[3] & MAP_SHARED))
		return;
	int copy = copy_descriptor(call->process, (int)arguments[4]);
	if (copy < 0)
		return;
	struct opened *file = new_opened(copy, 0);
	char *name = name_of(copy);
	if (name) {
		note_name("a file is mapped shared and for writing; stores there are not seen",
			  name);
		unsettle(file, OUTSIDE_MAPPED);
	}
	free(name);
	release(file);
}
