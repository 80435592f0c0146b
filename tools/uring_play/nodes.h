/* The nodes of the trace, by what the kernel shows of them. */
#ifndef NODES_H
#define NODES_H

#include "common.h"

#include <sys/stat.h>

/* Holds the node of a name below the root, so that its number is given to no other; a name without
 * one, or whose node is known, is passed over. */
void hold_node(const char *path, u64 node);
/* The node of a file or directory; false where it is not known. */
bool node_of(const struct stat *status, u64 *node);
/* Lets go of all nodes: none is told from then on. */
void release_nodes(void);

#endif
