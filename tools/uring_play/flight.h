/* The play in flight: each chain starts once all that it waits for has finished. */
#ifndef FLIGHT_H
#define FLIGHT_H

#include "depends.h"

/* Plays with at most --in-flight chains at once, each not before its time, if there are times
 * (read_times). */
void play_in_flight(const struct waits *waits, const u64 *times);

#endif
