/* The directory that is played in: its tree at the start and at the end. */
#ifndef TREE_H
#define TREE_H

#include "common.h"

/* The descriptor of the root of the trace's tree: a fresh directory below --directory, or with
 * --prepared that itself. */
extern int tree_root;

/* Makes the directory, or takes the prepared one, and makes it the root of the process where the
 * system allows it; with --raw it has to. */
void enter_directory(void);
/* Makes the tree of the trace there, unless it is prepared; or ends the player with the path that
 * the file system cannot hold. */
void lay_out(void);
/* The path of the directory. */
const char *laid_out_at(void);
/* Takes the directory away again, unless it is to be kept. */
void take_away(void);

/* Opens the file or directory of an item (0 for the root). */
int open_item(u32 number, int flags);
/* A path of the trace as one below the root: without the slashes at its start. */
const char *below(const char *path);
/* A name that the root does not have, to be freed. */
char *free_name(void);
/* Learns the node of a name that a place made, if it made one. */
void learn_node(const char *path, u32 place);

/* Writes the part `tree`. */
void write_tree(FILE *file);

#endif
