/* Chains: which members are submitted together, and which are left out. */
#ifndef CHAINS_H
#define CHAINS_H

#include "trace.h"

/* What is done with some members of a chain: they are submitted together, or one is left out. */
typedef void on_members(struct entry *first, u32 count, bool is_left);

/* How many members the chain has that begins at an entry of a record. */
u32 chain_length(const struct record *record, u32 from);
/* Gives the members of a chain in order: by the answers, where there are any. What the kernel is
 * known to do otherwise is left out, and what it would then run that the answers cancel. */
void plan_chain(struct entry *first, u32 count, on_members *each);
/* Whether the answers say that no member of a chain runs since one fails its tests by itself. */
bool is_doomed(const struct entry *first, u32 count);

#endif
