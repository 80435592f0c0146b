/* The side bytes of an entry, and the fills before it. */
#ifndef SIDES_H
#define SIDES_H

#include "flights.h"

/* Takes what an entry points to in the command's memory. */
void take_side(struct flight *flight, pid_t thread);
/* Finds what an entry names in the tree whose path the trace does not have. Where the directory is
 * not there yet, the end of the entry tells. */
void name_outside(struct flight *flight, u32 which, int directory, const char *text);
/* Before a fixed write: fills of what the replay's buffer has otherwise. */
void fill_buffer(struct flight *flight, pid_t thread);

#endif
