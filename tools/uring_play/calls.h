/* Sets and seeks: what calls of the program did between two submissions, by calls of the player's.
 */
#ifndef CALLS_H
#define CALLS_H

#include "trace.h"

/* Does what a set or a seek says. Nothing may be in flight. */
void play_call(const struct record *record);

/* Gives an open file its position. One that the file system cannot have is another one behind the
 * greatest file, where nothing can be read or written either; false where that cannot be had. */
bool put_position(int descriptor, u64 position);

#endif
