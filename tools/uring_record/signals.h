/* Signals of the recorder itself: INT and TERM, and a clock. */
#ifndef SIGNALS_H
#define SIGNALS_H

#include "common.h"

/* From here on the first INT or TERM goes on to the command, and the second ends the recording.
 * With `has_clock` the clock ticks all the time, else only while a signal is to be looked at. */
void take_signals(pid_t command, bool has_clock);
/* Whether the clock has ticked since the last time that this was asked. */
bool has_ticked(void);
/* Passes on what came; gives the signal that ends the recording at once, or 0. */
int pass_signals(void);

#endif
