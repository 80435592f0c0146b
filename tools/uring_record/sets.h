/* Records of version 3 for what calls of the command did between two submissions: what a slot or a
 * number of the table holds from there on, and positions. */
#ifndef SETS_H
#define SETS_H

#include "rings.h"

/* What holds an open description: a slot of a ring, or without a ring a number of the table. */
struct holder {
	struct ring *ring;
	u32 number;
};
struct holder of_slot(struct ring *ring, u32 slot);
struct holder of_number(int number);

/* It holds nothing from here on, or what is no file of the tree. */
void set_nothing(struct holder to);
void set_taken(struct holder to);
/* It holds a description of its own of a path. */
void set_path(struct holder to, const char *path, u32 flags, u64 position);
/* It holds what a slot of a ring holds, or what a descriptor of the recorder leads to. That is the
 * description of another number or slot where the replay has it there, so that they share its
 * position. The descriptor becomes the description's own. NULL, and nothing is set, where no record
 * can say it. */
struct opened *set_slot_of(struct holder to, struct ring *ring, u32 slot);
struct opened *set_opened(struct holder to, int copy);
/* The same where the replay has that description. */
struct opened *set_known(struct holder to, int copy);
/* The description that it holds gets a position. */
void seek_to(struct holder at, u64 position);

#endif
