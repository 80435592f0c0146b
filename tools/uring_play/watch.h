/* What keeps the player from hanging, and takes its directory away where a signal ends it. */
#ifndef WATCH_H
#define WATCH_H

#include "common.h"

/* From now on a signal that ends the player does so at the next `go_on`; those of a reader that has
 * gone away, and of a file that would be too long, are not heeded. */
void heed_signals(void);
/* From now on the player ends with status 3 where `go_on` is not called for --patience seconds and
 * five more: an ordinary call hangs. */
void watch(void);
/* Says that the player goes on; ends it where a signal came. */
void go_on(void);

#endif
