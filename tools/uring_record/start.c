#include "start.h"
#include "encode.h"
#include "flights.h"
#include "made.h"
#include "notes.h"
#include "opened.h"
#include "output.h"
#include "paths.h"
#include "rings.h"
#include "stream.h"
#include "table.h"

#include <dirent.h>
#include <errno.h>
#include <fcntl.h>
#include <limits.h>
#include <stdio.h>
#include <stdlib.h>
#include <string.h>
#include <sys/resource.h>
#include <time.h>
#include <unistd.h>

enum { MOST_PATH = 4095, FIRST_ROOM = 1 << 16 };

static const char unlinked_name[] = "/.uring_record.unlinked.";
static bool started;
static struct timespec began;
static pid_t home;

bool is_started(void)
{
	return started;
}

pid_t home_process(void)
{
	return home;
}

u64 time_now(void)
{
	static u64 known, look;
	struct timespec now;

	if (look == this_look())
		return known;
	clock_gettime(CLOCK_MONOTONIC, &now);
	look = this_look();
	known = (u64)((now.tv_sec - began.tv_sec) * 1000000000LL + now.tv_nsec - began.tv_nsec);
	return known;
}

/* Reads a range of a file into the bytes of its item, which grow to its end; false where they
 * cannot be read. */
static bool read_range(struct item *item, int descriptor, u64 from, u64 to, u64 *room)
{
	u64 wanted = *room ? *room : FIRST_ROOM;
	ssize_t moved = 0;

	while (wanted < to)
		wanted *= 2;
	if (wanted > *room) {
		item->bytes = realloc(item->bytes, wanted);
		if (!item->bytes)
			die("there is no more memory");
		memset(item->bytes + *room, 0, wanted - *room);
		*room = wanted;
	}
	for (u64 at = from; at < to; at += (u64)moved) {
		moved = pread(descriptor, item->bytes + at, to - at, (off_t)at);
		if (moved <= 0)
			break;
	}
	return moved >= 0;
}

/* Reads the bytes of a file up to its size, without its holes, as far as they fit into the trace;
 * gives where the last ones end. */
static u64 read_bytes(struct item *item, int descriptor, bool *is_read)
{
	u64 room = 0, stored = 0;
	off_t size = (off_t)item->size;

	for (off_t from = 0, to; *is_read; from = to) {
		from = lseek(descriptor, from, SEEK_DATA);
		to = from < 0 || from >= size ? -1 : lseek(descriptor, from, SEEK_HOLE);
		if (to <= from) /* (or what is no file on a disk) */
			break;
		stored = min64((u64)to, item->size);
		if (!would_fit(stored))
			break;
		*is_read = read_range(item, descriptor, (u64)from, stored, &room);
	}
	return stored;
}

/* Stores the bytes of a file, up to its last byte that is not zero. Where they cannot be read,
 * nothing is stored, and the file is marked. */
static void store_bytes(struct item *item, int descriptor, const struct stat *status)
{
	bool is_read = descriptor >= 0;
	u64 stored = is_read ? read_bytes(item, descriptor, &is_read) : 0;

	if (!is_read) {
		note_name("a file of the start that cannot be read", item->path);
		set_doubt(status->st_dev, status->st_ino, OUTSIDE_UNREADABLE);
		stored = 0;
	} else if (!would_fit(stored)) {
		note_name("a file of the start whose bytes do not fit into the trace", item->path);
		set_doubt(status->st_dev, status->st_ino, OUTSIDE_LARGE);
		stored = 0;
	}
	while (stored && !item->bytes[stored - 1])
		stored--;
	if (!stored) {
		free(item->bytes);
		item->bytes = NULL;
	}
	item->stored = (u32)stored;
	trace.bytes += stored;
}

/* Finds the ranges of a file's bytes, which are read when the trace is written. */
static void store_ranges(struct item *item, int descriptor, const struct stat *status)
{
	bool is_read = descriptor >= 0 && find_ranges(&item->ranges, descriptor, item->size);
	u64 bytes = bytes_of_ranges(&item->ranges);

	if (!is_read) {
		note_name("a file of the start that cannot be read", item->path);
		set_doubt(status->st_dev, status->st_ino, OUTSIDE_UNREADABLE);
	} else if (!would_fit(bytes)) {
		note_name("a file of the start whose bytes do not fit into the trace", item->path);
		set_doubt(status->st_dev, status->st_ino, OUTSIDE_LARGE);
	} else {
		trace.bytes += bytes;
		return;
	}
	item->ranges.count = 0;
}

void put_file_ranges(const struct item *item)
{
	char *full = outside_path(item->path);
	bool is_named = item->descriptor < 0 && item->ranges.count;
	int descriptor = is_named ? open(full, O_RDONLY | O_CLOEXEC | O_NOFOLLOW | O_NONBLOCK)
				  : item->descriptor;
	bool is_read = true;
	struct stat status;

	put_number(item->ranges.count, 4);
	for (u64 at = 0; at < item->ranges.count; at++)
		is_read &= put_range(&item->ranges.list[at], descriptor);
	if (!is_read) {
		note_name("a file of the start that cannot be read", item->path);
		if (!(descriptor < 0 ? lstat(full, &status) : fstat(descriptor, &status)))
			set_doubt(status.st_dev, status.st_ino, OUTSIDE_UNREADABLE);
	}
	if (is_named && descriptor >= 0)
		close(descriptor);
	free(full);
}

/* Adds a file; false where the trace is at its limit. */
static bool add_file(int descriptor, char *path, const struct stat *status)
{
	struct item *item = add_item(ITEM_FILE, path);

	if (!item)
		return false;
	item->size = (u64)status->st_size;
	set_node(status, (u32)trace.item_count);
	if (options.no_data)
		return true;
	if (options.touched && item->size)
		set_doubt(status->st_dev, status->st_ino, OUTSIDE_UNTOUCHED);
	else if (options.format == 3)
		store_ranges(item, descriptor, status);
	else
		store_bytes(item, descriptor, status);
	return true;
}

/* Stores the bytes of a file of the start that the command is about to use. */
static void store_touched(int descriptor, const struct stat *status)
{
	u32 node = node_of(status);
	int again;

	if (!S_ISREG(status->st_mode) || !node || node == NO_ITEM ||
	    doubt_of(status->st_dev, status->st_ino) != OUTSIDE_UNTOUCHED)
		return;
	set_doubt(status->st_dev, status->st_ino, INSIDE);
	again = open_again(descriptor, O_RDONLY);
	trace.items[node - 1].size = (u64)status->st_size;
	store_bytes(&trace.items[node - 1], again, status);
	if (again >= 0)
		close(again);
}

void is_touched(int descriptor)
{
	struct stat status;

	if (options.touched && !fstat(descriptor, &status))
		store_touched(descriptor, &status);
}

void is_touched_by_name(const char *full)
{
	struct stat status;
	int descriptor;

	if (!options.touched || stat(full, &status) || !S_ISREG(status.st_mode))
		return;
	descriptor = open(full, O_PATH | O_CLOEXEC);
	if (descriptor >= 0) {
		store_touched(descriptor, &status);
		close(descriptor);
	}
}

static void walk(const char *directory, const char *path);

/* Adds one name of a directory, and what is below it. */
static void add_name(const char *full, char *path, const struct stat *status)
{
	u32 known = node_of(status);

	if (S_ISREG(status->st_mode) && (u64)status->st_size > MOST_SIZE) {
		note_name("a file of the start of more than 2^40 bytes is left out", path);
		return;
	}
	if (S_ISDIR(status->st_mode)) {
		if (!add_item(ITEM_DIRECTORY, path))
			return;
		set_node(status, (u32)trace.item_count);
		walk(full, path);
		return;
	}
	if (status->st_nlink > 1 && known != NO_ITEM) {
		struct item *item = add_item(ITEM_NAME, path);
		if (item)
			item->of = known;
		return;
	}
	int descriptor = open(full, O_RDONLY | O_CLOEXEC | O_NOFOLLOW | O_NONBLOCK);
	add_file(descriptor, path, status);
	if (descriptor >= 0)
		close(descriptor);
}

/* The order of the bytes of names. */
static int by_bytes(const struct dirent **one, const struct dirent **other)
{
	return strcmp((*one)->d_name, (*other)->d_name);
}

/* Adds all names of a directory, in the order of their bytes. */
static void walk(const char *directory, const char *path)
{
	struct dirent **names;
	int count = scandir(directory, &names, NULL, by_bytes);

	if (count < 0) {
		note_name("a directory of the start that cannot be read", path);
		return;
	}
	for (int at = 0; at < count && trace.is_ended; at++)
		free(names[at]);
	for (int at = 0; at < count && !trace.is_ended; at++) {
		const char *name = names[at]->d_name;
		size_t length = strlen(path) + strlen(name) + 2;
		char *full = allocate(strlen(directory) + strlen(name) + 2),
		     *inner = allocate(length);
		struct stat status;
		sprintf(full, "%s/%s", directory, name);
		sprintf(inner, "%s/%s", path, name);
		bool is_dots = !strcmp(name, ".") || !strcmp(name, "..");
		if (is_dots || is_output(full) || length > MOST_PATH + 1 || lstat(full, &status))
			;
		else if (S_ISREG(status.st_mode) || S_ISDIR(status.st_mode))
			add_name(full, inner, &status);
		else
			note_name("a name of the start that is neither file nor directory is left "
				  "out",
				  inner);
		free(full);
		free(names[at]);
	}
	free(names);
}

/* Gives an unlinked file that is open a name, which is taken away again at the start. */
static u32 add_unlinked(int descriptor, const struct stat *status)
{
	char *target = descriptor_target(getpid(), descriptor);
	char *inside = target ? inside_root(target) : NULL;
	int again = inside ? open_again(descriptor, O_RDONLY) : -1;
	u32 node = NO_ITEM;

	free(target);
	free(inside);
	if (again >= 0) {
		char *name = allocate(sizeof unlinked_name + 16);
		sprintf(name, "%s%d", unlinked_name, (int)trace.item_count + 1);
		if (add_file(again, name, status))
			node = (u32)trace.item_count;
		if (options.format == 3 && node != NO_ITEM)
			trace.items[node - 1].descriptor = again;
		else
			close(again);
	}
	return node;
}

i64 description_of(int descriptor, bool adds)
{
	struct stat status;
	int flags = fcntl(descriptor, F_GETFL);

	for (u64 at = 0; at < trace.description_count; at++) {
		const struct opened *known = trace.descriptions[at].opened;
		if (is_same(known->descriptor, descriptor) && !has_other_append(known))
			return (i64)at;
	}
	if (!adds || flags < 0 || (flags & O_PATH) || (flags & O_ACCMODE) == O_ACCMODE)
		return -1;
	if (fstat(descriptor, &status) || !(S_ISREG(status.st_mode) || S_ISDIR(status.st_mode)))
		return -1;
	u32 node = node_of(&status);
	if (node == NO_ITEM && S_ISREG(status.st_mode) && !status.st_nlink)
		node = add_unlinked(descriptor, &status);
	if (node == NO_ITEM || trace.description_count == MOST_ITEMS - 1)
		return -1;
	bool is_file = S_ISREG(status.st_mode);
	off_t position = is_file ? lseek(descriptor, 0, SEEK_CUR) : 0;
	GROW(trace.descriptions, trace.description_count, trace.description_room);
	struct description *made = &trace.descriptions[trace.description_count];
	*made = (struct description){ .node = node, .append = !!(flags & O_APPEND) };
	made->access = is_file ? (u8)(flags & O_ACCMODE) : 0;
	made->position = position < 0 ? 0 : (u64)position;
	made->opened = new_opened(fcntl(descriptor, F_DUPFD_CLOEXEC, 0), made->position);
	return (i64)trace.description_count++;
}

/* Reads the open descriptors of the process. */
static void start_table(pid_t process)
{
	char directory[64];
	struct dirent **names;
	struct rlimit limit = { MOST_TABLE, MOST_TABLE };

	prlimit(process, RLIMIT_NOFILE, NULL, &limit);
	trace.table_size = limit.rlim_cur < MOST_TABLE ? (u32)limit.rlim_cur : MOST_TABLE;
	snprintf(directory, sizeof directory, "/proc/%d/fd", process);
	int count = scandir(directory, &names, NULL, versionsort);
	if (count < 0) {
		lose("the descriptors of the command cannot be read");
		return;
	}
	for (int at = 0; at < count; at++) {
		int number = atoi(names[at]->d_name);
		bool is_dots = names[at]->d_name[0] == '.';
		free(names[at]);
		if (is_dots || (u32)number >= trace.table_size)
			continue;
		int copy = copy_descriptor(process, number);
		start_place(number, description_of(copy, true));
		if (copy >= 0)
			close(copy);
	}
	free(names);
}

/* Notes a file that is mapped: its bytes are not told from the start on. */
static void is_mapped(const char *path)
{
	struct opened *file = new_direct(path, O_RDWR);

	note_name("a file is mapped shared and for writing at the start; stores there are not seen",
		  path);
	unsettle(file, OUTSIDE_MAPPED);
	release(file);
}

/* Notes each file of the tree that a process has mapped shared and for writing: what it stores
 * there is not seen. */
static void look_at_mappings(pid_t process)
{
	char name[64], line[PATH_MAX + 256], mode[8];
	int path_at = 0;

	snprintf(name, sizeof name, "/proc/%d/maps", process);
	FILE *maps = fopen(name, "r");
	while (maps && fgets(line, sizeof line, maps)) {
		line[strcspn(line, "\n")] = 0;
		if (sscanf(line, "%*s %7s %*s %*s %*s %n", mode, &path_at) != 1 || mode[1] != 'w' ||
		    mode[3] != 's')
			continue;
		char *inside = inside_root(line + path_at);
		if (inside)
			is_mapped(inside);
		free(inside);
	}
	if (maps)
		fclose(maps);
}

/* Reads the tree below the root. */
static void start_tree(void)
{
	struct stat status;

	if (stat(root_path(), &status)) {
		lose("the root is gone");
		return;
	}
	set_node(&status, 0);
	walk(root_path(), "");
}

void start_without_submission(void)
{
	if (started)
		return;
	note_of_all("the command submitted nothing through io_uring");
	start_tree();
	begin_stream();
}

void start(pid_t process)
{
	if (started)
		return;
	started = true;
	home = process;
	start_tree();
	start_table(process);
	for (u32 at = 0; at < ring_count; at++)
		start_slots(rings[at]);
	for (u64 at = 0; at < trace.item_count; at++) {
		if (!strncmp(trace.items[at].path, unlinked_name, sizeof unlinked_name - 1))
			make_path(OP_UNLINKAT, 0, trace.items[at].path);
	}
	look_at_mappings(process);
	begin_stream();
	clock_gettime(CLOCK_MONOTONIC, &began);
}
