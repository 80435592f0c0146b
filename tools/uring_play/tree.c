#include "tree.h"
#include "confine.h"
#include "nodes.h"
#include "numbers.h"
#include "sha256.h"
#include "trace.h"
#include "watch.h"

#include <dirent.h>
#include <errno.h>
#include <fcntl.h>
#include <inttypes.h>
#include <stdlib.h>
#include <string.h>
#include <time.h>
#include <unistd.h>

enum { MOST_SUMMED = 16777216, CHUNK = 1 << 16 };
/* Directories deeper than this are not looked at: each one above takes a descriptor and a frame. */
enum { DEEPEST = 8192 };
/* Files behind so many bytes have no sums: a trace of few bytes may have many and large files. */
#define MOST_SUMMED_TOGETHER (1ULL << 32)

int tree_root = -1;
static char *root_name;
static int above = -1; /* --directory, where the fresh directory is; none where it is prepared */

/* --- The start ----------------------------------------------------------------------------------
 */

const char *below(const char *path)
{
	while (*path == '/')
		path++;
	return path;
}

char *free_name(void)
{
	static u32 number;
	char *name = allocate(32);
	struct stat status;

	do
		snprintf(name, 32, ".uring_play.%u", ++number);
	while (!fstatat(tree_root, name, &status, AT_SYMLINK_NOFOLLOW));
	return name;
}

void learn_node(const char *path, u32 place)
{
	hold_node(below(path), (u64)trace.item_count + 1 + place);
}

static int open_inner(DIR *directory, const struct dirent *entry)
{
	return openat(dirfd(directory), entry->d_name,
		      O_RDONLY | O_DIRECTORY | O_NOFOLLOW | O_CLOEXEC);
}

int open_item(u32 number, int flags)
{
	const char *path = number ? trace.items[number].path : "/";
	int descriptor = openat(tree_root, number ? below(path) : ".", flags | O_CLOEXEC);

	if (descriptor < 0)
		die("%s: it cannot be opened: %s", shown(path), strerror(errno));
	return descriptor;
}

/* What lies between ranges is a hole. */
static void write_range(int descriptor, const struct item *item, const struct range *it)
{
	u32 done = 0;

	while (done < it->length) {
		ssize_t moved = pwrite(descriptor, it->bytes + done, it->length - done,
				       (off_t)(it->offset + done));
		if (moved <= 0)
			die("%s: it cannot be written: %s", shown(item->path), strerror(errno));
		done += (u32)moved;
		go_on();
	}
}

static void make_file(const struct item *item)
{
	int flags = O_WRONLY | O_CREAT | O_EXCL | O_CLOEXEC;
	int descriptor = openat(tree_root, below(item->path), flags, 0644);
	u64 end = 0;

	if (descriptor < 0)
		die("%s: it cannot be made: %s", shown(item->path), strerror(errno));
	for (u32 at = 0; at < item->range_count; at++) {
		write_range(descriptor, item, &item->ranges[at]);
		end = item->ranges[at].offset + item->ranges[at].length;
	}
	if (item->size > end && ftruncate(descriptor, (off_t)item->size))
		die("%s: it cannot have %" PRIu64 " bytes: %s", shown(item->path), item->size,
		    strerror(errno));
	if (close(descriptor))
		die("%s: it cannot be written: %s", shown(item->path), strerror(errno));
}

static void make_item(const struct item *item)
{
	const char *path = below(item->path);

	if (item->kind == ITEM_DIRECTORY && mkdirat(tree_root, path, 0755))
		die("%s: it cannot be made: %s", shown(item->path), strerror(errno));
	if (item->kind == ITEM_FILE)
		make_file(item);
	if (item->kind == ITEM_NAME &&
	    linkat(tree_root, below(trace.items[item->of].path), tree_root, path, 0))
		die("%s: it cannot be linked: %s", shown(item->path), strerror(errno));
}

void enter_directory(void)
{
	int flags = O_RDONLY | O_DIRECTORY | O_CLOEXEC;
	size_t size = strlen(options.directory) + 32;

	root_name = allocate(size);
	snprintf(root_name, size, "%s%s", options.directory,
		 options.prepared ? "" : "/uring_play.XXXXXX");
	if (!options.prepared && !mkdtemp(root_name))
		die("%s: no directory can be made there: %s", options.directory, strerror(errno));
	if (!options.prepared)
		above = move_up(open(options.directory, flags));
	tree_root = move_up(open(root_name, flags));
	at_death = take_away;
	if (tree_root < 0)
		die("%s: it cannot be opened: %s", root_name, strerror(errno));
	if (!confine(tree_root) && options.raw)
		die_with(STATUS_UNTRIED, "--raw needs chroot, which the system does not allow: %s",
			 strerror(errno));
}

/* A directory that somebody else prepared may have what leads elsewhere. Takes its descriptor. */
static void refuse_links(int descriptor, u32 depth)
{
	DIR *directory = descriptor < 0 || depth > DEEPEST ? NULL : fdopendir(descriptor);
	const struct dirent *it;
	struct stat status;

	if (!directory)
		die("%s: it cannot be read: %s", root_name, strerror(errno));
	while ((it = readdir(directory))) {
		if (!strcmp(it->d_name, ".") || !strcmp(it->d_name, ".."))
			continue;
		go_on();
		if (fstatat(dirfd(directory), it->d_name, &status, AT_SYMLINK_NOFOLLOW))
			die("%s: it cannot be looked at: %s", shown(it->d_name), strerror(errno));
		if (!S_ISDIR(status.st_mode) && !S_ISREG(status.st_mode))
			die("%s: it is neither a file nor a directory", shown(it->d_name));
		if (S_ISDIR(status.st_mode))
			refuse_links(open_inner(directory, it), depth + 1);
	}
	closedir(directory);
}

void lay_out(void)
{
	if (options.prepared)
		refuse_links(open_item(0, O_RDONLY), 0);
	hold_node(".", 0);
	for (u32 number = 1; number <= trace.item_count; number++) {
		go_on();
		if (!options.prepared)
			make_item(&trace.items[number]);
		if (trace.items[number].kind != ITEM_NAME)
			hold_node(below(trace.items[number].path), number);
	}
}

const char *laid_out_at(void)
{
	return root_name;
}

/* --- The end ------------------------------------------------------------------------------------
 */

/* A name of the tree at the end. */
struct name {
	char *path;
	u64 size, node;
	bool is_directory, has_node;
	char sum[SHA256_TEXT]; /* empty where it is not told */
};
static struct name *names;
static u64 name_count, name_room;
static u64 bytes_summed;

static void sum_file(int directory, const char *entry, struct name *name)
{
	int descriptor = openat(directory, entry, O_RDONLY | O_NOFOLLOW | O_CLOEXEC);
	static u8 chunk[CHUNK];
	struct sha256 sum;
	ssize_t moved = -1;

	sha256_begin(&sum);
	while (descriptor >= 0 && (moved = read(descriptor, chunk, CHUNK)) > 0) {
		sha256_add(&sum, chunk, (size_t)moved);
		go_on();
	}
	if (moved < 0) {
		say("%s: it cannot be read: %s", shown(name->path), strerror(errno));
		strcpy(name->sum, "unread");
	} else {
		sha256_end(&sum, name->sum);
	}
	if (descriptor >= 0)
		close(descriptor);
}

/* Looks at a name of a directory; true where it is one itself. */
static bool look_at_name(int directory, const char *entry, const char *above_it)
{
	struct stat status;

	if (fstatat(directory, entry, &status, AT_SYMLINK_NOFOLLOW)) {
		say("%s/%s: it cannot be looked at: %s", above_it, entry, strerror(errno));
		return false;
	}
	GROW(names, name_count, name_room);
	struct name *name = &names[name_count++];
	size_t size = strlen(above_it) + strlen(entry) + 2;
	*name = (struct name){ .path = allocate(size),
			       .size = (u64)status.st_size,
			       .is_directory = S_ISDIR(status.st_mode) };
	snprintf(name->path, size, "%s/%s", above_it, entry);
	name->has_node = !name->is_directory && node_of(&status, &name->node);
	if (!S_ISREG(status.st_mode))
		return name->is_directory;
	if (name->size > MOST_SUMMED) {
		strcpy(name->sum, "large");
	} else if (bytes_summed + name->size <= MOST_SUMMED_TOGETHER) {
		bytes_summed += name->size;
		sum_file(directory, entry, name);
	} else if (bytes_summed < UINT64_MAX / 2) {
		say("%s: from here on files have no sums, since they have too many bytes",
		    shown(name->path));
		bytes_summed = UINT64_MAX / 2;
	}
	return false;
}

/* Looks at all names below a directory, and takes its descriptor. */
static void look_below(int descriptor, const char *path, u32 depth)
{
	DIR *directory = descriptor < 0 || depth > DEEPEST ? NULL : fdopendir(descriptor);
	const struct dirent *it;

	if (!directory)
		die("%.200s..: it cannot be read: %s", shown(path),
		    depth > DEEPEST ? "it lies too deep" : strerror(errno));
	while ((it = readdir(directory))) {
		if (!strcmp(it->d_name, ".") || !strcmp(it->d_name, ".."))
			continue;
		go_on();
		if (!look_at_name(dirfd(directory), it->d_name, path))
			continue;
		const char *inner = names[name_count - 1].path;
		look_below(open_inner(directory, it), inner, depth + 1);
	}
	closedir(directory);
}

static int by_path(const void *one, const void *other)
{
	return strcmp(((const struct name *)one)->path, ((const struct name *)other)->path);
}

void write_tree(FILE *file)
{
	look_below(open_item(0, O_RDONLY), "", 0);
	if (name_count)
		qsort(names, name_count, sizeof *names, by_path);
	fputs("tree\n", file);
	for (u64 at = 0; at < name_count; at++) {
		const struct name *it = &names[at];
		fputs(it->is_directory ? "dir " : "file ", file);
		write_path(file, it->path);
		if (it->has_node)
			fprintf(file, " node=%" PRIu64, it->node);
		if (!it->is_directory)
			fprintf(file, " size=%" PRIu64, it->size);
		if (*it->sum)
			fprintf(file, " sum=%s", it->sum);
		fputc('\n', file);
	}
}

/* Puts a directory that lies too deep below the root, where it is removed later. */
static void raise_up(int directory, const char *entry)
{
	char *name = free_name();

	renameat(directory, entry, tree_root, name);
	free(name);
}

/* Removes all that is in a directory, and takes its descriptor. */
static void remove_below(int descriptor, u32 depth)
{
	DIR *directory = descriptor < 0 ? NULL : fdopendir(descriptor);
	const struct dirent *it;

	if (!directory)
		return;
	while ((it = readdir(directory))) {
		if (!strcmp(it->d_name, ".") || !strcmp(it->d_name, ".."))
			continue;
		go_on();
		if (!unlinkat(dirfd(directory), it->d_name, 0))
			continue;
		int inner = depth < DEEPEST ? open_inner(directory, it) : -1;
		if (inner < 0)
			raise_up(dirfd(directory), it->d_name);
		else
			remove_below(inner, depth + 1);
		unlinkat(dirfd(directory), it->d_name, AT_REMOVEDIR);
	}
	closedir(directory);
}

/* Files are closed first, and some time later: a file system may keep names of open files. */
void take_away(void)
{
	const struct timespec a_while = { 0, 20000000 };

	at_death = NULL;
	if (options.keep || options.prepared || tree_root < 0)
		return;
	let_open();
	release_nodes();
	for (u32 tries = 0; tries < 100; tries++) {
		go_on();
		remove_below(openat(tree_root, ".", O_RDONLY | O_DIRECTORY | O_CLOEXEC), 0);
		if (!unlinkat(above, strrchr(root_name, '/') + 1, AT_REMOVEDIR))
			return;
		nanosleep(&a_while, NULL);
	}
	say("%s: it cannot be removed: %s", root_name, strerror(errno));
}
