#include "paths.h"

#include <dirent.h>
#include <errno.h>
#include <fcntl.h>
#include <limits.h>
#include <linux/openat2.h>
#include <stdio.h>
#include <stdlib.h>
#include <string.h>
#include <sys/stat.h>
#include <sys/syscall.h>
#include <unistd.h>

enum { MOST_PATH = 4095 };

static char root[PATH_MAX];
static size_t root_length;

void set_root(const char *path)
{
	if (!realpath(path, root))
		die("%s: %s", path, strerror(errno));
	root_length = strlen(root);
	if (root_length == 1)
		die("the root of the system cannot be the root of a trace");
	struct stat status;
	if (stat(root, &status) || !S_ISDIR(status.st_mode))
		die("%s is not a directory", path);
}

const char *root_path(void)
{
	return root;
}

char *inside_root(const char *path)
{
	if (strncmp(path, root, root_length) || (path[root_length] && path[root_length] != '/'))
		return NULL;
	return copy_text(path[root_length] ? path + root_length : "/");
}

char *outside_path(const char *path)
{
	char *full = allocate(root_length + strlen(path) + 1);

	memcpy(full, root, root_length);
	strcpy(full + root_length, path);
	return full;
}

bool has_parent(const char *path)
{
	if (*path != '/')
		return false;
	char *full = outside_path(path);
	struct stat status;
	*strrchr(full, '/') = 0;
	bool is_there =
		strlen(full) >= root_length && !stat(full, &status) && S_ISDIR(status.st_mode);
	free(full);
	return is_there;
}

/* The target of a link, in memory of its own, or NULL. */
static char *target_of(const char *link)
{
	char target[PATH_MAX + 1];
	ssize_t length = readlink(link, target, PATH_MAX);

	return length < 0 ? NULL : copy_bytes(target, (size_t)length);
}

char *descriptor_target(pid_t process, int descriptor)
{
	char link[64];

	snprintf(link, sizeof link, "/proc/%d/fd/%d", process, descriptor);
	return target_of(link);
}

char *working_directory(pid_t process)
{
	char link[64];

	snprintf(link, sizeof link, "/proc/%d/cwd", process);
	return target_of(link);
}

bool is_deleted(const char *target)
{
	static const char mark[] = " (deleted)";
	size_t length = strlen(target), tail = sizeof mark - 1;

	return length > tail && !strcmp(target + length - tail, mark);
}

/* Takes double slashes and "." out of a full path. */
static void tidy(char *path)
{
	char *to = path;

	for (const char *from = path; *from;) {
		if (from[0] == '/' && from[1] == '/')
			from++;
		else if (from[0] == '/' && from[1] == '.' && (from[2] == '/' || !from[2]))
			from += 2;
		else
			*to++ = *from++;
	}
	*to = 0;
	if (!*path)
		strcpy(path, "/");
}

/* Whether a process sees other files under the same names. */
static bool has_own_names(pid_t process)
{
	char link[64];
	struct stat own, its;

	snprintf(link, sizeof link, "/proc/%d/ns/mnt", process);
	return stat(link, &its) || stat("/proc/self/ns/mnt", &own) || its.st_ino != own.st_ino;
}

/* Where the paths of a process start that begin with a slash, in memory of its own, or NULL. */
static char *root_of(pid_t process)
{
	char link[64];

	snprintf(link, sizeof link, "/proc/%d/root", process);
	return target_of(link);
}

/* Whether a descriptor has a file that lost its name: a relative path fails there, which no path
 * from the root tells. */
static bool is_lost_file(pid_t process, int descriptor, const char *target)
{
	char link[64];
	struct stat status;

	snprintf(link, sizeof link, "/proc/%d/fd/%d", process, descriptor);
	return is_deleted(target) && !stat(link, &status) && !S_ISDIR(status.st_mode);
}

/* The full path of what a call names, in memory of its own, or NULL. */
static char *full_path(pid_t process, int directory, const char *path)
{
	char *base = *path == '/'	     ? root_of(process)
		     : directory == AT_FDCWD ? working_directory(process)
					     : descriptor_target(process, directory);

	bool is_relative = *path != '/' && directory != AT_FDCWD;
	if (!base || *base != '/' || has_own_names(process) ||
	    (is_relative && is_lost_file(process, directory, base))) {
		free(base);
		return NULL;
	}
	size_t room = strlen(base) + strlen(path) + 2;
	char *full = allocate(room + 1);
	snprintf(full, room, "%s/%s", base, path);
	free(base);
	return full;
}

/* The same where links lead to the directory of the path, if that is there. */
static char *resolved(const char *path, bool *is_there)
{
	char directory[PATH_MAX], *parent = copy_text(path), *last = strrchr(parent, '/');
	char *found = NULL;

	*last = 0;
	*is_there = realpath(*parent ? parent : "/", directory);
	if (*is_there) {
		size_t room = strlen(directory) + strlen(last + 1) + 2;
		char *full = allocate(room);
		snprintf(full, room, "%s/%s", directory, last + 1);
		found = inside_root(full);
		free(full);
	}
	free(parent);
	return found;
}

char *translate(pid_t process, int directory, const char *path, bool *is_known)
{
	*is_known = true;
	if (!*path || strlen(path) > MOST_PATH)
		return copy_text(path);
	char *full = full_path(process, directory, path);
	if (!full) {
		*is_known = false;
		return copy_text(path);
	}
	tidy(full);
	bool is_there;
	char *found = inside_root(full);
	if (!found)
		found = resolved(full, &is_there);
	if (!found) {
		*is_known = false;
		return full;
	}
	free(full);
	return found;
}

/* What a name leads to, where no link is in its way. */
static enum name_kind kind_of_name(const char *path, bool follows)
{
	struct open_how how = { .flags = O_PATH | O_CLOEXEC, .resolve = RESOLVE_NO_SYMLINKS };
	char *full = outside_path(path);
	enum name_kind kind = NAME_TOLD;
	struct stat status;

	how.flags |= follows ? 0 : O_NOFOLLOW;
	int found = (int)syscall(SYS_openat2, AT_FDCWD, full, &how, sizeof how);
	if (found < 0)
		kind = errno == ELOOP ? NAME_LINK : NAME_TOLD;
	else if (fstat(found, &status) || !(S_ISREG(status.st_mode) || S_ISDIR(status.st_mode)))
		kind = NAME_LINK;
	else if (S_ISREG(status.st_mode) && (u64)status.st_size > MOST_SIZE)
		kind = NAME_LARGE;
	if (found >= 0)
		close(found);
	free(full);
	return kind;
}

enum name_kind look_through(char **path, bool follows)
{
	enum name_kind kind = **path == '/' ? kind_of_name(*path, follows) : NAME_TOLD;
	char whole[PATH_MAX];
	bool is_there;

	if (kind != NAME_LINK)
		return kind;
	char *full = outside_path(*path);
	char *found =
		follows && realpath(full, whole) ? inside_root(whole) : resolved(full, &is_there);
	free(full);
	if (!found || kind_of_name(found, follows) == NAME_LINK) {
		free(found);
		return NAME_LINK;
	}
	free(*path);
	*path = found;
	return kind_of_name(found, follows);
}

bool is_file(const char *path)
{
	char *full = outside_path(path);
	struct stat status;
	bool is_there = !lstat(full, &status) && S_ISREG(status.st_mode);

	free(full);
	return is_there;
}

/* Whether a name in a directory is that of a file or directory of the tree. */
static bool is_told_in(int directory, const char *name)
{
	struct stat status;

	return strcmp(name, ".") && strcmp(name, "..") &&
	       !fstatat(directory, name, &status, AT_SYMLINK_NOFOLLOW) &&
	       (S_ISREG(status.st_mode) || S_ISDIR(status.st_mode));
}

bool holds_names(const char *path)
{
	char *full = outside_path(path);
	DIR *directory = opendir(full);
	const struct dirent *entry;
	bool is_any = false;

	while (directory && !is_any && (entry = readdir(directory)))
		is_any = is_told_in(dirfd(directory), entry->d_name);
	if (directory)
		closedir(directory);
	free(full);
	return is_any;
}

bool starts_somewhere(pid_t process, int directory, const char *path)
{
	char *full = full_path(process, directory, path);
	bool is_known = full && (*path == '/' || !strstr(full, " (deleted)"));

	free(full);
	return is_known;
}

/* A path of a call as a full path of this machine, without slashes at its end, in memory of its
 * own, or NULL. What ends in dots names a directory, which no call makes, moves or takes away so.
 */
static char *stripped_path(pid_t process, int directory, const char *path, bool *is_name)
{
	char *full = *path ? full_path(process, directory, path) : NULL;

	for (size_t end = full ? strlen(full) : 0; end > 1 && full[end - 1] == '/'; end--)
		full[end - 1] = 0;
	const char *last = full ? strrchr(full, '/') + 1 : "";
	*is_name = *last && strcmp(last, ".") && strcmp(last, "..");
	return full;
}

char *full_name(pid_t process, int directory, const char *path)
{
	bool is_name;
	char *full = stripped_path(process, directory, path, &is_name);

	if (is_name)
		return full;
	free(full);
	return NULL;
}

char *resolve_name(const char *full, bool *is_there)
{
	return resolved(full, is_there);
}

char *canonical_path(pid_t process, int directory, const char *path, bool *is_known)
{
	bool is_name;
	char *full = stripped_path(process, directory, path, &is_name), *found = NULL;

	*is_known = full && !is_name;
	if (is_name)
		found = resolved(full, is_known);
	free(full);
	return found;
}

char *seen_path(pid_t process, int directory, const char *path)
{
	static const char *const own[] = { "/proc/self/", "/proc/thread-self/", "/dev/fd/" };
	static const char *const of_process[] = { "", "", "fd/" };
	char *full = *path ? full_path(process, directory, path) : NULL, *seen;

	if (!full)
		return NULL;
	tidy(full);
	for (unsigned at = 0; at < sizeof own / sizeof *own; at++) {
		size_t length = strlen(own[at]), room = strlen(full) + 32;
		if (strncmp(full, own[at], length))
			continue;
		seen = allocate(room);
		snprintf(seen, room, "/proc/%d/%s%s", process, of_process[at], full + length);
		free(full);
		return seen;
	}
	return full;
}

char *followed_path(pid_t process, int directory, const char *path)
{
	char *seen = seen_path(process, directory, path), whole[PATH_MAX];
	char *found = seen && realpath(seen, whole) ? inside_root(whole) : NULL;

	free(seen);
	return found;
}

bool device_of(pid_t process, int directory, const char *path, dev_t *device)
{
	char *seen = allocate(strlen(path) + 64);
	struct stat status;

	if (*path == '/')
		sprintf(seen, "/proc/%d/root%s", process, path);
	else if (directory == AT_FDCWD)
		sprintf(seen, "/proc/%d/cwd/%s", process, path);
	else
		sprintf(seen, "/proc/%d/fd/%d/%s", process, directory, path);
	for (size_t end = strlen(seen); seen[end - 1] == '/'; end--)
		seen[end - 1] = 0;
	*strrchr(seen, '/') = 0;
	bool is_there = !stat(seen, &status);
	*device = is_there ? status.st_dev : 0;
	free(seen);
	return is_there;
}
