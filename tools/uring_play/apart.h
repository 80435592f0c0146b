/* What a play leaves out or does not compare, and why: the table of it.
 *
 * Each rule is a row of docs/LINUX.md, whose last column has the word; or the play's own (space,
 * unsupported, stuck: docs/PLAYING.md). Nothing else may be marked. */
#ifndef APART_H
#define APART_H

#include "trace.h"

/* The word of each, as docs/FORMAT.md has them. */
extern const char *const apart_words[APARTS];

/* Why an entry is not played as it stands, or NOT_APART. */
enum apart why_apart(const struct entry *entry);
/* Why an entry is not even played where all are, or NOT_APART: it might reach out of the directory,
 * or for memory that is none of the trace's, or would take much space. */
enum apart why_never(const struct entry *entry);
/* Whether the kernel finds the fault of a failing entry only when it runs it. */
bool is_found_late(const struct entry *entry);
/* Whether an entry that fails, as is expected, surely breaks its chain in the kernel too. */
bool surely_breaks(const struct entry *entry);
/* Why another result than the expected one is as right, or NOT_APART. */
enum apart why_as_right(const struct entry *entry);

#endif
