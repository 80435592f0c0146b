/* The play: one chain at a time, or in rounds. (In flight: flight.h.) */
#ifndef PLAY_H
#define PLAY_H

#include "common.h"

/* Each chain is submitted, and waited for, before the next one is. */
void play_chains(void);
/* How many entries at most are in flight at once on a ring in rounds. */
u32 widest_of(const u32 *rounds, u32 count);
/* All places of a round are submitted at once, each by itself, and waited for. */
void play_rounds(const u32 *rounds, u32 count);

#endif
