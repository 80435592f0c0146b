/* Making up for what was not played as it stands: the answers' changes, by ordinary calls. */
#ifndef MEND_H
#define MEND_H

#include "trace.h"

/* Whether all that an opcode can do may be made up for, so that a kernel may lack it. */
bool can_be_mended(u8 opcode);
/* Whether the kernel leaves the position elsewhere: a write at the position that is cut at the
 * greatest size, by the answers. */
bool is_cut(const struct entry *entry);
/* Whether the world is to be put where the answers have it, behind an entry that was not played, or
 * whose position the kernel leaves elsewhere. */
bool is_to_mend(const struct entry *entry);
/* Puts it there. Nothing else may be in flight. */
void mend(const struct entry *entry);

#endif
