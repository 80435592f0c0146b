#include "nodes.h"
#include "keeper.h"
#include "numbers.h"
#include "tree.h"

#include <errno.h>
#include <fcntl.h>
#include <stdlib.h>
#include <unistd.h>

/* A node that is known, found by its device and its number there. */
struct known {
	dev_t device;
	ino_t number;
	u64 node;
	int handle;
	bool is_there;
};

static struct known *table;
static u64 table_size, known_count;
static int *held;
static u64 held_count, held_room;
static bool is_lost; /* there were too many nodes to hold: none is told */

static struct known *place_of(dev_t device, ino_t number)
{
	u64 at = ((u64)number * 0x9e3779b97f4a7c15ULL ^ (u64)device) & (table_size - 1);

	while (table[at].is_there && (table[at].number != number || table[at].device != device))
		at = (at + 1) & (table_size - 1);
	return &table[at];
}

static void know(dev_t device, ino_t number, u64 node, int handle)
{
	if (2 * (known_count + 1) > table_size) {
		struct known *old = table;
		u64 size = table_size;
		table_size = size ? 2 * size : 256;
		table = allocate(table_size * sizeof *table);
		for (u64 at = 0; at < size; at++) {
			if (old[at].is_there)
				*place_of(old[at].device, old[at].number) = old[at];
		}
		free(old);
	}
	*place_of(device, number) = (struct known){ device, number, node, handle, true };
	known_count++;
}

/* Whether a known node is there no more, so that another one has its number: a server of a file
 * system may give it away although the node is held. */
static bool is_gone(const struct known *it)
{
	struct stat status;

	return fstat(it->handle, &status) || !status.st_nlink || status.st_ino != it->number;
}

void hold_node(const char *path, u64 node)
{
	struct stat status;
	int descriptor;

	if (options.no_nodes || is_lost)
		return;
	if (is_kept_apart()) {
		keep_node(path, node);
		return;
	}
	descriptor = try_move_up(openat(tree_root, path, O_PATH | O_NOFOLLOW | O_CLOEXEC));
	if (descriptor < 0 && (errno == EMFILE || errno == ENFILE))
		release_nodes();
	if (descriptor < 0)
		return;
	if (fstat(descriptor, &status)) {
		close(descriptor);
		return;
	}
	struct known *it = table_size ? place_of(status.st_dev, status.st_ino) : NULL;
	if (it && it->is_there && !is_gone(it)) {
		close(descriptor);
		return;
	}
	if (it && it->is_there)
		*it = (struct known){ it->device, it->number, node, descriptor, true };
	else
		know(status.st_dev, status.st_ino, node, descriptor);
	GROW(held, held_count, held_room);
	held[held_count++] = descriptor;
	if (held_count > most_held())
		release_nodes();
}

bool node_of(const struct stat *status, u64 *node)
{
	const struct known *it;

	if (is_kept_apart())
		return kept_node_of(status->st_dev, status->st_ino, node);
	if (!table_size || is_lost)
		return false;
	it = place_of(status->st_dev, status->st_ino);
	*node = it->node;
	return it->is_there;
}

void release_nodes(void)
{
	end_keeper();
	while (held_count)
		close(held[--held_count]);
	is_lost = true;
}
