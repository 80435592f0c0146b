#include "output.h"
#include "flights.h"
#include "notes.h"
#include "paths.h"
#include "rings.h"
#include "sha256.h"
#include "sums.h"
#include "tree_sum.h"

#include <dirent.h>
#include <errno.h>
#include <fcntl.h>
#include <inttypes.h>
#include <stdio.h>
#include <stdlib.h>
#include <string.h>
#include <sys/stat.h>
#include <unistd.h>

enum { MOST_SUMMED = 16777216, CHUNK = 1 << 16, MUCH = 1 << 20 };

/* What is printed goes to the file of the results: as the command runs, not before the records of
 * the trace. */
static FILE *file;
static struct sink results = { .descriptor = -1 };
static bool waits_for_trace;

/* A name of the tree at the end. */
struct name {
	char *path;
	bool is_directory;
	bool is_untold; /* nothing is known of it */
	enum outside outside;
	u64 size;
	char sum[SHA256_TEXT], tree_sum[SHA256_TEXT];
};
struct final_tree {
	struct name *names;
	u64 count, room;
};

/* Notes and marks a file whose bytes cannot be read. */
static void is_unreadable(const char *path, struct name *name)
{
	note_name("a file of the end that cannot be read", path);
	*name->sum = 0;
	if (name->outside == INSIDE)
		name->outside = OUTSIDE_UNREADABLE;
}

/* The sum of a file, read in pieces up to the size that it has. */
static void sum_file(const char *path, struct name *name)
{
	struct sha256 sum;
	u8 *chunk = allocate(CHUNK);
	int descriptor = open(path, O_RDONLY | O_CLOEXEC | O_NOFOLLOW);
	ssize_t moved = 0;

	sha256_begin(&sum);
	for (u64 left = name->size; descriptor >= 0 && left; left -= (u64)moved) {
		moved = read(descriptor, chunk, min64(left, CHUNK));
		if (moved <= 0)
			break;
		sha256_add(&sum, chunk, (size_t)moved);
	}
	if (descriptor >= 0)
		close(descriptor);
	free(chunk);
	sha256_end(&sum, name->sum);
	if (descriptor < 0 || moved < 0)
		is_unreadable(path, name);
}

static void look_below(struct final_tree *tree, const char *path);

/* Adds a name of the tree, and what is below it. The path becomes its own. */
static void look_at(struct final_tree *tree, char *path)
{
	char *full = outside_path(path);
	struct stat status;

	if (is_output(full) || lstat(full, &status) ||
	    !(S_ISREG(status.st_mode) || S_ISDIR(status.st_mode))) {
		free(path);
		free(full);
		return;
	}
	GROW(tree->names, tree->count, tree->room);
	struct name *name = &tree->names[tree->count++];
	*name = (struct name){ .path = path, .size = (u64)status.st_size, .sum = "large" };
	name->is_directory = S_ISDIR(status.st_mode);
	name->outside = unsettled_by(status.st_dev, status.st_ino);
	if (name->outside == INSIDE)
		name->outside = doubted_by(path, (u32)strlen(path));
	if (!name->is_directory && name->size > MOST_SIZE)
		name->outside = OUTSIDE_LARGE;
	if (options.no_data || name->outside == OUTSIDE_UNTOUCHED)
		*name->sum = 0;
	else if (!name->is_directory && name->size <= MOST_SUMMED)
		sum_file(full, name);
	else if (!name->is_directory && options.all_sums && name->size <= MOST_SIZE)
		tree_sum(full, name->size, name->tree_sum);
	if (name->is_directory)
		look_below(tree, path);
	free(full);
}

/* Of a directory that cannot be read, the names that it had at the start: it is not known which are
 * there. */
static void leave_out_below(struct final_tree *tree, const char *path)
{
	size_t length = strlen(path);

	for (u64 at = 0; at < trace.item_count; at++) {
		const struct item *item = &trace.items[at];
		if (strncmp(item->path, path, length) || item->path[length] != '/')
			continue;
		GROW(tree->names, tree->count, tree->room);
		tree->names[tree->count++] = (struct name){
			.path = copy_text(item->path),
			.is_directory = item->kind == ITEM_DIRECTORY,
			.outside = OUTSIDE_UNREADABLE,
			.size = item->size,
		};
	}
}

/* Adds what is in a directory. */
static void look_below(struct final_tree *tree, const char *path)
{
	char *full = outside_path(path);
	DIR *directory = opendir(full);
	const struct dirent *entry;

	if (!directory) {
		note_name("a directory of the end that cannot be read", *path ? path : "/");
		leave_out_below(tree, path);
		free(full);
		return;
	}
	while ((entry = readdir(directory))) {
		if (!strcmp(entry->d_name, ".") || !strcmp(entry->d_name, ".."))
			continue;
		char *inner = allocate(strlen(path) + strlen(entry->d_name) + 2);
		sprintf(inner, "%s/%s", path, entry->d_name);
		look_at(tree, inner);
	}
	closedir(directory);
	free(full);
}

/* Adds a line that says nothing of a path but that it is not told. */
static void add_untold(struct final_tree *tree, const char *path, bool is_directory,
		       enum outside why)
{
	GROW(tree->names, tree->count, tree->room);
	tree->names[tree->count++] = (struct name){ .path = copy_text(path),
						    .is_directory = is_directory,
						    .is_untold = true,
						    .outside = why };
}

/* Of each name in doubt, and of those of the start below it: that it is not told, as a file and as
 * a directory, where it is not there as that. */
static void add_doubts(struct final_tree *tree)
{
	for (u64 at = 0; at < doubt_count; at++) {
		const char *path = doubts[at].path;
		char *full = outside_path(path);
		struct stat status;
		bool is_there = !lstat(full, &status);
		if (*path && !(is_there && S_ISREG(status.st_mode)))
			add_untold(tree, path, false, doubts[at].why);
		if (*path && !(is_there && S_ISDIR(status.st_mode)))
			add_untold(tree, path, true, doubts[at].why);
		free(full);
	}
	for (u64 at = 0; doubt_count && at < trace.item_count; at++) {
		const struct item *item = &trace.items[at];
		enum outside why = doubted_by(item->path, (u32)strlen(item->path));
		char *full = outside_path(item->path);
		if (why != INSIDE && access(full, F_OK))
			add_untold(tree, item->path, item->kind == ITEM_DIRECTORY, why);
		free(full);
	}
}

/* The order of the bytes of paths. */
static int by_path(const void *one, const void *other)
{
	return strcmp(((const struct name *)one)->path, ((const struct name *)other)->path);
}

struct final_tree *read_final_tree(void)
{
	struct final_tree *tree = allocate(sizeof *tree);

	look_below(tree, "");
	add_doubts(tree);
	if (tree->count)
		qsort(tree->names, tree->count, sizeof *tree->names, by_path);
	return tree;
}

/* A path as a report has it. */
static void write_path(const char *path)
{
	for (const unsigned char *at = (const unsigned char *)path; *at; at++) {
		if (*at >= 0x21 && *at <= 0x7e && *at != '\\')
			fputc(*at, file);
		else
			fprintf(file, "\\x%02x", *at);
	}
}

/* The part `tree`. */
static void write_tree(const struct final_tree *tree)
{
	fputs("tree\n", file);
	for (u64 at = 0; at < tree->count; at++) {
		const struct name *it = &tree->names[at];
		fputs(it->is_directory ? "dir " : "file ", file);
		write_path(it->path);
		if (!it->is_directory && !it->is_untold)
			fprintf(file, " size=%" PRIu64, it->size);
		if (!it->is_directory && !it->is_untold && *it->sum)
			fprintf(file, " sum=%s", it->sum);
		if (*it->tree_sum)
			fprintf(file, " tree-sum=%s", it->tree_sum);
		if (it->outside != INSIDE)
			fprintf(file, " unchecked=%s", outside_words[it->outside]);
		fputc('\n', file);
	}
}

/* The line of an entry. */
static void write_entry(const struct record *record, const struct entry *entry)
{
	fprintf(file, "%" PRIu64, entry->place);
	if (options.format == 3)
		fprintf(file, " ring=%u", record->ring);
	fprintf(file, " user=%" PRIu64, (u64)entry->sqe.user_data);
	bool is_unseen = entry->state == ENTRY_UNSEEN || entry->is_given_up;
	if (is_unseen)
		fputs(" completion=unseen", file);
	else if (entry->state == ENTRY_SILENT)
		fputs(" silent", file);
	else
		fprintf(file, " res=%d", entry->result);
	if (entry->state == ENTRY_POSTED && !is_unseen)
		fputs(" posted", file);
	if (entry->data_length) {
		fputs(" data=", file);
		for (u64 at = 0; at < entry->data_length && at < DATA_SHOWN; at++)
			fprintf(file, "%02x", entry->data[at]);
		if (entry->data_length > DATA_SHOWN)
			fputc('+', file);
	}
	if (entry->sum && text_of_sum(entry->sum))
		fprintf(file, " data-sum=%s", text_of_sum(entry->sum));
	bool is_told_as_given = is_given(entry) && !is_ambiguous(entry);
	if (is_told_as_given)
		fputs(" given=1", file);
	fprintf(file, " op=%u", entry->opcode);
	if (entry->chosen)
		fprintf(file, " slot=%u", entry->chosen - 1);
	if (entry->state == ENTRY_MADE)
		fputs(" by=recorder", file);
	if (entry->outside != INSIDE && !is_told_as_given)
		fprintf(file, " unchecked=%s", outside_words[entry->outside]);
	if (entry->state != ENTRY_MADE)
		fprintf(file, " submitted=%" PRIu64, entry->submitted);
	if (entry->state == ENTRY_POSTED && !is_unseen)
		fprintf(file, " completed=%" PRIu64, entry->completed);
	fputc('\n', file);
}

void write_results_of(const struct record *record)
{
	for (u32 in = 0; file && in < record->count; in++)
		write_entry(record, &record->entries[in]);
}

/* The entries of each ring in recorded order: records are put with their rings once, not looked
 * for. */
static void write_entries(void)
{
	struct record **by_ring = allocate(trace.record_count * sizeof *by_ring);
	u64 starts[MOST_RINGS + 1] = { 0 }, next[MOST_RINGS];

	for (u64 at = 0; at < trace.record_count; at++)
		starts[trace.records[at]->ring + 1]++;
	for (u32 ring = 0; ring < MOST_RINGS; ring++)
		starts[ring + 1] += starts[ring];
	memcpy(next, starts, sizeof next);
	for (u64 at = 0; at < trace.record_count; at++)
		by_ring[next[trace.records[at]->ring]++] = trace.records[at];
	for (u32 ring = 0; ring < ring_count; ring++) {
		fprintf(file, "ring %u\n", ring);
		for (u64 at = starts[ring]; at < starts[ring + 1]; at++)
			write_results_of(by_ring[at]);
	}
	free(by_ring);
}

/* Puts what was printed into the file. */
static ssize_t take_printed(void *of, const char *bytes, size_t length)
{
	struct sink *sink = of;

	if (sink->used > MUCH && !waits_for_trace)
		flush_sink(sink);
	put_into(sink, bytes, length);
	return (ssize_t)length;
}

void open_results(void)
{
	cookie_io_functions_t printed = { .write = take_printed };

	if (!options.results)
		return;
	open_sink(&results, strcmp(options.results, "-") ? options.results : "./-");
	waits_for_trace = options.format == 3;
	file = fopencookie(&results, "w", printed);
	if (!file)
		die("there is no more memory");
	fprintf(file, "uring-report %d\n", options.format == 3 ? 2 : 1);
}

struct sink *results_file(void)
{
	return &results;
}

u64 results_put(void)
{
	if (file)
		fflush(file);
	return results.length + results.used;
}

void end_results(const struct final_tree *tree)
{
	if (!file)
		return;
	waits_for_trace = false;
	if (tree)
		write_tree(tree);
	fputs(RESULTS_END, file);
	fclose(file);
	file = NULL;
	flush_sink(&results);
}

void write_results(const struct final_tree *tree)
{
	open_results();
	if (file)
		write_entries();
	end_results(tree);
}
