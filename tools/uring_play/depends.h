/* What waits for what: the text of `uring_replay depends`. */
#ifndef DEPENDS_H
#define DEPENDS_H

#include "common.h"

/* The earlier places that each place waits for: those of place K are from starts[K] on, up to
 * starts[K + 1]. */
struct waits {
	u64 *starts;
	u32 *earlier;
};

/* Reads the text of `depends` (docs/FORMAT.md), or ends the player where it is none, or is another
 * trace's. The report has to be read before. */
struct waits read_depends(const char *path);

#endif
