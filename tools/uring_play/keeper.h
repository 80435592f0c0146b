/* In flight, nodes are held by a process of their own: what it opens takes no number of the
 * trace's, and its limit of open files is not that of the entries. */
#ifndef KEEPER_H
#define KEEPER_H

#include "common.h"

#include <sys/stat.h>

/* Starts the process: it holds the nodes from then on. */
void start_keeper(void);
bool is_kept_apart(void);
/* What nodes.h has, asked of the process. */
void keep_node(const char *path, u64 node);
bool kept_node_of(dev_t device, ino_t number, u64 *node);
/* Ends it, so that all nodes are let go of. */
void end_keeper(void);

#endif
