/* Which flights meet: what one touches, and another does, where no link or drain orders them. */
#ifndef MEETINGS_H
#define MEETINGS_H

#include "flights.h"
#include "spans.h"

/* Compares a flight with those that are in flight: marks and notes entries whose order is not told.
 */
void meet_others(struct flight *flight);
/* Whether what a flight names may be otherwise in the replay, since one in flight changes it, or a
 * link, and what that did is told at its end. */
bool rests_on_given(const struct flight *flight);
/* A flight is in flight, or is so no more. */
void keep_spans(struct flight *flight);
void forget_spans(struct flight *flight);
/* The name below the root of what a descriptor of the recorder leads to, in memory of its own, or
 * NULL: where it is not told what is there, or something in flight makes, moves or takes it away,
 * the replay may not have it. */
char *name_in_replay(int descriptor);
/* Whether something else in flight may write the bytes of a file that a flight writes. */
bool is_written_by_others(struct flight *flight);
/* Searches a range of a process's memory that reads into registered buffers, in flight, will fill.
 */
void search_fillings(pid_t process, struct search *search);

#endif
