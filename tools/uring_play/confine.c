#include "confine.h"
#include "numbers.h"

#include <fcntl.h>
#include <sched.h>
#include <stdio.h>
#include <unistd.h>

static int descriptors = -1; /* /proc/self/fd */

bool confine(int directory)
{
	int flags = O_RDONLY | O_DIRECTORY | O_CLOEXEC;

	descriptors = move_up(open("/proc/self/fd", flags));
	if (fchdir(directory))
		return false;
	return !chroot(".") || (!unshare(CLONE_NEWUSER) && !chroot("."));
}

int open_anew(int descriptor, int flags)
{
	char name[16];

	snprintf(name, sizeof name, "%d", descriptor);
	return openat(descriptors, name, flags | O_CLOEXEC);
}
