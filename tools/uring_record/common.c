#include "common.h"

#include <stdarg.h>
#include <stdio.h>
#include <stdlib.h>
#include <string.h>

struct options options = { .trace = "uring.trace", .root = ".", .format = 3 };

void die(const char *format, ...)
{
	va_list words;

	va_start(words, format);
	fputs("uring_record: ", stderr);
	vfprintf(stderr, format, words);
	fputc('\n', stderr);
	va_end(words);
	exit(STATUS_FAILED);
}

void *allocate(size_t size)
{
	void *made = calloc(1, size ? size : 1);

	if (!made)
		die("there is no more memory");
	return made;
}

char *copy_bytes(const char *text, size_t length)
{
	char *copy = allocate(length + 1);

	memcpy(copy, text, length);
	return copy;
}

char *copy_text(const char *text)
{
	return copy_bytes(text, strlen(text));
}

bool is_zero(const u8 *bytes, u64 length)
{
	return !length || (!*bytes && !memcmp(bytes, bytes + 1, length - 1));
}

void *grow(void *list, u64 count, u64 *room, size_t size)
{
	if (count < *room)
		return list;
	*room = *room ? 2 * *room : 64;
	list = realloc(list, *room * size);
	if (!list)
		die("there is no more memory");
	return list;
}
