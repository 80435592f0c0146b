#include "opened.h"
#include "flights.h"
#include "paths.h"
#include "start.h"

#include <errno.h>
#include <fcntl.h>
#include <linux/kcmp.h>
#include <stdio.h>
#include <stdlib.h>
#include <string.h>
#include <sys/stat.h>
#include <sys/syscall.h>
#include <unistd.h>

enum { HANDLES = 16 };

/* Which stop of the command this is: what is looked at once in it is not looked at again. */
static u64 look = 1;

/* A handle on a process. The last few are kept. */
static int handle_of(pid_t process)
{
	static struct {
		pid_t process;
		int handle;
	} kept[HANDLES];
	static unsigned next;

	for (unsigned at = 0; at < HANDLES; at++) {
		if (kept[at].process == process)
			return kept[at].handle;
	}
	unsigned at = next++ % HANDLES;
	if (kept[at].process && kept[at].handle >= 0)
		close(kept[at].handle);
	kept[at].process = process;
	kept[at].handle = (int)syscall(SYS_pidfd_open, process, 0);
	return kept[at].handle;
}

int copy_descriptor(pid_t process, int descriptor)
{
	int handle = handle_of(process);

	return handle < 0 || descriptor < 0 ? -1
					    : (int)syscall(SYS_pidfd_getfd, handle, descriptor, 0);
}

bool is_open(pid_t process, int descriptor)
{
	return !syscall(SYS_kcmp, process, process, KCMP_FILE, descriptor, descriptor);
}

bool leads_to(pid_t process, int descriptor, const struct opened *opened)
{
	if (!opened || opened->descriptor < 0 || descriptor < 0)
		return false;
	return !syscall(SYS_kcmp, process, getpid(), KCMP_FILE, descriptor, opened->descriptor);
}

bool is_same(int one, int other)
{
	if (one < 0 || other < 0)
		return false;
	return !syscall(SYS_kcmp, getpid(), getpid(), KCMP_FILE, one, other);
}

static bool may_append_otherwise;

void appends_changed(void)
{
	may_append_otherwise = true;
}

bool has_other_append(const struct opened *opened)
{
	int flags = may_append_otherwise && opened->descriptor >= 0
			    ? fcntl(opened->descriptor, F_GETFL)
			    : -1;

	return flags >= 0 && !(flags & O_APPEND) == opened->appends;
}

bool is_copy_of(const struct opened *opened, int copy, const struct stat *status)
{
	return opened && !opened->is_unsure && opened->inode == status->st_ino &&
	       opened->device == status->st_dev && is_same(opened->descriptor, copy) &&
	       !has_other_append(opened);
}

char *name_of(int descriptor)
{
	struct stat status, named;

	if (fstat(descriptor, &status) || !(S_ISREG(status.st_mode) || S_ISDIR(status.st_mode)))
		return NULL;
	if (S_ISREG(status.st_mode) && (u64)status.st_size > MOST_SIZE)
		return NULL;
	char *target = descriptor_target(getpid(), descriptor), *name = NULL;
	if (!target)
		return NULL;
	/* The root itself cannot be opened by a path of the trace. */
	if (!is_deleted(target) && !stat(target, &named) && named.st_ino == status.st_ino &&
	    named.st_dev == status.st_dev && strcmp(target, root_path()))
		name = inside_root(target);
	free(target);
	if (name && doubt_count && doubted_by(name, (u32)strlen(name)) != INSIDE) {
		free(name);
		name = NULL;
	}
	return name;
}

int open_again(int descriptor, int flags)
{
	char path[64];

	snprintf(path, sizeof path, "/proc/self/fd/%d", descriptor);
	return open(path, flags | O_CLOEXEC);
}

/* Whether a descriptor of the recorder leads to the file of a description. */
static bool is_file_of(int descriptor, const struct opened *opened)
{
	struct stat status;

	return !fstat(descriptor, &status) && status.st_ino == opened->inode &&
	       status.st_dev == opened->device;
}

bool read_back(const struct opened *opened, void *bytes, u64 length, u64 offset)
{
	int flags = O_RDONLY | O_NONBLOCK | O_CLOEXEC, again = -1;

	if (opened->descriptor >= 0)
		again = open_again(opened->descriptor, flags);
	else if (opened->name)
		again = open(opened->name, flags);
	if (again < 0)
		return false;
	bool is_read = is_file_of(again, opened) &&
		       pread(again, bytes, length, (off_t)offset) == (ssize_t)length;
	close(again);
	return is_read;
}

struct opened *new_opened(int descriptor, u64 position)
{
	struct opened *opened = allocate(sizeof *opened);
	struct stat status;
	int flags = fcntl(descriptor, F_GETFL);

	opened->holders = 1;
	opened->descriptor = descriptor;
	opened->position = position;
	opened->access = flags < 0 ? 0 : (u8)(flags & O_ACCMODE);
	opened->appends = flags >= 0 && flags & O_APPEND;
	is_touched(descriptor);
	if (!fstat(descriptor, &status)) {
		opened->device = status.st_dev;
		opened->inode = status.st_ino;
	}
	return opened;
}

struct opened *new_foreign(int descriptor)
{
	return let_go_of(new_opened(descriptor, 0));
}

struct opened *new_unknown(void)
{
	struct opened *opened = allocate(sizeof *opened);

	opened->holders = 1;
	opened->descriptor = -1;
	return opened;
}

struct opened *let_go_of(struct opened *opened)
{
	if (opened->descriptor >= 0)
		close(opened->descriptor);
	opened->descriptor = -1;
	return opened;
}

struct opened *leave_opened(struct opened *opened)
{
	struct opened *left = opened;

	if (options.format == 3 && opened->holders > 1) {
		release(opened);
		left = new_unknown();
	}
	let_go_of(left);
	left->is_unsure = true;
	return left;
}

bool is_file_or_directory(int descriptor)
{
	struct stat status;

	return !fstat(descriptor, &status) && (S_ISREG(status.st_mode) || S_ISDIR(status.st_mode));
}

struct opened *new_direct(const char *path, u32 flags)
{
	struct opened *opened = allocate(sizeof *opened);

	opened->holders = 1;
	opened->descriptor = -1;
	opened->name = outside_path(path);
	opened->access = (u8)(flags & O_ACCMODE);
	opened->appends = flags & O_APPEND;
	is_touched_by_name(opened->name);
	look_at_direct(opened);
	return opened;
}

void look_at_direct(struct opened *opened)
{
	struct stat status;

	if (opened->name && !opened->inode && !stat(opened->name, &status)) {
		opened->device = status.st_dev;
		opened->inode = status.st_ino;
	}
}

struct opened *hold(struct opened *opened)
{
	opened->holders++;
	return opened;
}

struct opened *release(struct opened *opened)
{
	if (opened && !--opened->holders) {
		if (opened->descriptor >= 0)
			close(opened->descriptor);
		free(opened->name);
		free(opened);
	}
	return NULL;
}

void begin_look(void)
{
	look++;
}

u64 this_look(void)
{
	return look;
}

u64 size_now(struct opened *opened)
{
	struct stat status;

	if (opened->looked == look)
		return opened->size;
	bool is_there = opened->descriptor >= 0 ? !fstat(opened->descriptor, &status)
						: opened->name && !stat(opened->name, &status);

	opened->looked = look;
	opened->size = is_there ? (u64)status.st_size : 0;
	return opened->size;
}
