#include "sink.h"

#include <errno.h>
#include <fcntl.h>
#include <signal.h>
#include <stdlib.h>
#include <string.h>
#include <sys/stat.h>
#include <unistd.h>

/* More bytes than these are not kept beside those that wait. */
enum { MANY = 1 << 20 };

/* Where a file that was opened goes on; -1 where it cannot be cut. */
static i64 end_of(int descriptor)
{
	struct stat status;

	if (fstat(descriptor, &status) || !S_ISREG(status.st_mode))
		return -1;
	bool appends = fcntl(descriptor, F_GETFL) & O_APPEND;
	return appends ? status.st_size : lseek(descriptor, 0, SEEK_CUR);
}

void open_sink(struct sink *sink, const char *path)
{
	/* (what a reader or a limit does not let it write is an error, and no signal) */
	signal(SIGPIPE, SIG_IGN);
	signal(SIGXFSZ, SIG_IGN);
	*sink = (struct sink){ .path = path };
	do {
		sink->descriptor =
			strcmp(path, "-")
				? open(path, O_WRONLY | O_CREAT | O_TRUNC | O_CLOEXEC, 0666)
				: STDOUT_FILENO;
	} while (sink->descriptor < 0 && errno == EINTR);
	sink->error = sink->descriptor < 0 ? errno : 0;
	sink->base = sink->error ? -1 : end_of(sink->descriptor);
}

/* Gives bytes to the file, as long as it takes them. A reader that goes away ends the recorder. */
static void write_out(struct sink *sink, const u8 *bytes, u64 length)
{
	for (u64 at = 0; at < length && !sink->error;) {
		ssize_t moved = write(sink->descriptor, bytes + at, length - at);
		if (moved < 0 && errno == EPIPE)
			die("%s: %s", sink->path, strerror(errno));
		if (moved < 0 && errno != EINTR)
			sink->error = errno;
		if (moved <= 0)
			continue;
		at += (u64)moved;
		sink->length += (u64)moved;
	}
}

void flush_sink(struct sink *sink)
{
	if (!sink->is_over)
		write_out(sink, sink->bytes, sink->used);
	sink->used = 0;
}

void put_into(struct sink *sink, const void *bytes, u64 length)
{
	if (sink->is_over || sink->error || !length)
		return;
	if (length > MANY) {
		flush_sink(sink);
		write_out(sink, bytes, length);
		return;
	}
	while (sink->used + length > sink->room)
		sink->bytes = grow(sink->bytes, sink->room, &sink->room, 1);
	memcpy(sink->bytes + sink->used, bytes, length);
	sink->used += length;
}

void shorten_sink(struct sink *sink, u64 length)
{
	if (length >= sink->length && length - sink->length < sink->used)
		sink->used = length - sink->length;
}

bool end_sink(struct sink *sink, u64 length, const char *end, u64 end_length)
{
	off_t at = sink->base + (i64)length;

	if (sink->base < 0 || length > sink->length || ftruncate(sink->descriptor, at) ||
	    lseek(sink->descriptor, at, SEEK_SET) != at)
		return false;
	sink->error = 0;
	sink->used = 0;
	sink->length = length;
	write_out(sink, (const u8 *)end, end_length);
	sink->is_over = !sink->error;
	return sink->is_over;
}

bool empty_sink(struct sink *sink)
{
	bool is_empty = end_sink(sink, 0, NULL, 0);

	sink->is_over = false;
	return is_empty;
}

void close_sink(struct sink *sink)
{
	bool was_whole = !sink->error;

	if (sink->descriptor >= 0 && close(sink->descriptor) && was_whole)
		die("%s: %s", sink->path, strerror(errno));
	sink->descriptor = -1;
	free(sink->bytes);
	sink->bytes = NULL;
	sink->room = sink->used = 0;
}
