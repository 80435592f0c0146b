#include "lacks.h"
#include "entry.h"
#include "mend.h"
#include "rings.h"
#include "trace.h"
#include "tree.h"
#include "uring.h"

#include <errno.h>
#include <fcntl.h>
#include <stdlib.h>
#include <string.h>
#include <unistd.h>

static const u32 modes[] = { 0, 1, 3, 0x10, 0x11 };
enum { MODES = sizeof modes / sizeof modes[0], RENAMES = 3 };

static bool is_lacking[OPCODES];
static bool is_mode_lacking[MODES];
static bool is_rename_lacking[RENAMES];

/* Says what is lacking once, where an entry first asks for it. */
static bool told(bool is_lack, bool *is_told, const char *what, u32 number)
{
	if (is_lack && !*is_told && !options.quiet)
		say("%s %u is lacking here", what, number);
	*is_told |= is_lack;
	return is_lack;
}

void try_kernel(void)
{
	ask_for_opcodes(is_lacking);
	for (u32 opcode = 0; opcode < OPCODES; opcode++) {
		is_lacking[opcode] |= options.lacking[opcode];
		if (is_served((u8)opcode) && is_lacking[opcode] && !can_be_mended((u8)opcode))
			die_with(STATUS_UNTRIED, "the kernel lacks opcode %u", opcode);
	}
}

/* Makes a file of the player's own, and gives its name; it is open as `*file`. */
static char *make_own(int *file)
{
	char *name = free_name();

	*file = openat(tree_root, name, O_CREAT | O_EXCL | O_RDWR | O_CLOEXEC, 0600);
	if (*file < 0)
		die("no file can be made: %s", strerror(errno));
	return name;
}

static bool means_lack(int error)
{
	return error == EINVAL || error == ENOSYS || error == EOPNOTSUPP;
}

static void try_rename(u32 flags)
{
	int file, other;
	char *old = make_own(&file), *new = make_own(&other);

	close(file);
	close(other);
	if (flags == 1)
		unlinkat(tree_root, new, 0);
	is_rename_lacking[flags] =
		renameat2(tree_root, old, tree_root, new, flags) && means_lack(errno);
	unlinkat(tree_root, old, 0);
	unlinkat(tree_root, new, 0);
	free(old);
	free(new);
}

static void try_mode(u32 at)
{
	int file;
	char *name = make_own(&file);

	is_mode_lacking[at] = fallocate(file, (int)modes[at], 0, 4096) && errno == EOPNOTSUPP;
	close(file);
	unlinkat(tree_root, name, 0);
	free(name);
}

void try_file_system(void)
{
	for (u32 flags = 0; flags < RENAMES; flags++)
		try_rename(flags);
	for (u32 at = 0; at < MODES; at++)
		try_mode(at);
}

bool lacks_opcode(u8 opcode)
{
	static bool is_told[OPCODES];

	return told(is_lacking[opcode], &is_told[opcode], "opcode", opcode);
}

bool lacks_mode(u32 mode)
{
	static bool is_told[MODES];

	for (u32 at = 0; at < MODES; at++) {
		if (modes[at] == mode)
			return told(is_mode_lacking[at], &is_told[at], "FALLOCATE with mode", mode);
	}
	return false;
}

bool lacks_rename(u32 flags)
{
	static bool is_told[RENAMES];

	return flags < RENAMES &&
	       told(is_rename_lacking[flags], &is_told[flags], "RENAMEAT with flags", flags);
}
