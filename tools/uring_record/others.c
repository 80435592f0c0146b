#include "others.h"

#include <fcntl.h>
#include <stdio.h>
#include <stdlib.h>
#include <string.h>
#include <unistd.h>

/* A thread, with what the kernel told of it at the last look. */
struct watched {
	pid_t process, id;
	int stat, schedstat; /* files of /proc, or -1 until they are first read */
	u64 runs;	     /* how often it was put on a processor */
	bool was_asleep;
	struct watched *next;
};
static struct watched *watched;

void watch_thread(pid_t process, pid_t thread)
{
	struct watched *made = allocate(sizeof *made);

	*made = (struct watched){ process, thread, -1, -1, 0, false, watched };
	watched = made;
}

void unwatch_thread(pid_t thread)
{
	for (struct watched **it = &watched; *it; it = &(*it)->next) {
		struct watched *gone = *it;
		if (gone->id != thread)
			continue;
		*it = gone->next;
		if (gone->stat >= 0)
			close(gone->stat);
		if (gone->schedstat >= 0)
			close(gone->schedstat);
		free(gone);
		return;
	}
}

bool has_others(pid_t process, pid_t thread)
{
	for (const struct watched *it = watched; it; it = it->next) {
		if (it->process == process && it->id != thread)
			return true;
	}
	return false;
}

/* Reads a file of /proc of a thread, which is opened at the first time. */
static bool read_of(const struct watched *it, int *file, const char *name, char *text, size_t room)
{
	char path[64];

	if (*file < 0) {
		snprintf(path, sizeof path, "/proc/%d/task/%d/%s", it->process, it->id, name);
		*file = open(path, O_RDONLY | O_CLOEXEC);
	}
	ssize_t length = *file < 0 ? -1 : pread(*file, text, room - 1, 0);
	text[length < 0 ? 0 : length] = 0;
	return length > 0;
}

/* How often a thread was put on a processor; false where the kernel does not say. */
static bool count_runs(struct watched *it, u64 *runs)
{
	char text[128];
	unsigned long count;

	if (!read_of(it, &it->schedstat, "schedstat", text, sizeof text) ||
	    sscanf(text, "%*u %*u %lu", &count) != 1)
		return false;
	*runs = count;
	return true;
}

void look_at_others(pid_t process, pid_t thread)
{
	char text[512];

	for (struct watched *it = watched; it; it = it->next) {
		if (it->process != process || it->id == thread)
			continue;
		/* (the count first: a thread that sleeps behind it has not run since where the
		 * count stays) */
		it->was_asleep = count_runs(it, &it->runs) &&
				 read_of(it, &it->stat, "stat", text, sizeof text);
		const char *state = strrchr(text, ')');
		it->was_asleep = it->was_asleep && state && strlen(state) > 2 && state[2] != 'R';
	}
}

bool others_slept(pid_t process, pid_t thread)
{
	u64 runs;

	for (struct watched *it = watched; it; it = it->next) {
		if (it->process != process || it->id == thread)
			continue;
		if (!it->was_asleep || !count_runs(it, &runs) || runs != it->runs)
			return false;
	}
	return true;
}
