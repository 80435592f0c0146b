#include "common.h"

#include <errno.h>
#include <fcntl.h>
#include <stdarg.h>
#include <stdlib.h>
#include <string.h>
#include <time.h>
#include <unistd.h>

struct options options = { .directory = ".", .patience = 30, .in_flight = 64 };
FILE *messages;
void (*at_death)(void);

static void say_words(const char *format, va_list words)
{
	FILE *file = messages ? messages : stderr;

	fputs("uring_play: ", file);
	vfprintf(file, format, words);
	fputc('\n', file);
}

void say(const char *format, ...)
{
	va_list words;

	va_start(words, format);
	say_words(format, words);
	va_end(words);
}

void die_with(int status, const char *format, ...)
{
	void (*before)(void) = at_death;
	va_list words;

	va_start(words, format);
	say_words(format, words);
	va_end(words);
	at_death = NULL;
	if (before)
		before();
	exit(status);
}

static void *or_die(void *made)
{
	if (!made)
		die("there is no more memory");
	return made;
}

void *allocate(size_t size)
{
	return or_die(calloc(1, size ? size : 1));
}

char *copy_bytes(const void *bytes, size_t length)
{
	char *copy = allocate(length + 1);

	if (length)
		memcpy(copy, bytes, length);
	return copy;
}

void *grow(void *list, u64 count, u64 *room, size_t size)
{
	if (count < *room)
		return list;
	*room = *room ? 2 * *room : 64;
	return or_die(realloc(list, *room * size));
}

u8 *read_whole(const char *path, u64 most, u64 *length)
{
	int descriptor = path ? open(path, O_RDONLY | O_CLOEXEC) : STDIN_FILENO;
	const char *name = path ? path : "standard input";
	u64 room = 1 << 16, count = 0;
	u8 *bytes = allocate(room);
	ssize_t moved = 1;

	if (descriptor < 0)
		die("%s: %s", name, strerror(errno));
	while (moved && count <= most) {
		moved = read(descriptor, bytes + count, min64(room - count - 1, most + 1 - count));
		if (moved < 0)
			die("%s: %s", name, strerror(errno));
		count += (u64)moved;
		if (count + 1 == room) {
			room *= 2;
			bytes = or_die(realloc(bytes, room));
		}
	}
	if (path)
		close(descriptor);
	bytes[count] = 0;
	*length = count;
	return bytes;
}

void write_path(FILE *file, const char *path)
{
	for (const unsigned char *at = (const unsigned char *)path; *at; at++) {
		if (*at >= 0x21 && *at <= 0x7e && *at != '\\')
			fputc(*at, file);
		else
			fprintf(file, "\\x%02x", *at);
	}
}

const char *shown(const char *path)
{
	static char *text;
	size_t size;
	int error = errno; /* which the message has too */

	free(text);
	text = NULL;
	FILE *file = open_memstream(&text, &size);
	if (!file)
		return path;
	write_path(file, path);
	fclose(file);
	errno = error;
	return text ? text : path;
}

u64 now(void)
{
	struct timespec time;

	clock_gettime(CLOCK_MONOTONIC, &time);
	return (u64)time.tv_sec * 1000000000ULL + (u64)time.tv_nsec;
}
