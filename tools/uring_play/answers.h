/* What the replay says of a trace: the answers, and the rounds. */
#ifndef ANSWERS_H
#define ANSWERS_H

#include "common.h"

/* Reads what the report says of the entries (docs/FORMAT.md), or ends the player. */
void read_expected(const char *path);
/* Reads when entries were submitted, of the results of a recording or of a play in flight: of each
 * place nanoseconds behind the first one, or NO_TIME. */
u64 *read_times(const char *path);
#define NO_TIME UINT64_MAX
/* Reads the text of `rounds` (docs/FORMAT.md): of each place its round, and how many there are. */
u32 *read_rounds(const char *path, u32 *count);

#endif
