/* The summary of a play: how fast it was, and in flight how long entries took. */
#ifndef FIGURES_H
#define FIGURES_H

#include "common.h"

/* Writes it to the messages, unless --quiet. `times` are those that the entries were to be
 * submitted at, or NULL. */
void write_summary(const u64 *times);

#endif
