/* Pieces of chains that are in flight, their completions, and what is looked at once they ended. */
#ifndef PIECES_H
#define PIECES_H

#include "trace.h"

/* What came of it, for the summary. */
struct counts {
	u64 played, unplayed, given, mended, unsaid, unsummed;
	double seconds;
};
extern struct counts counts;

/* The most pieces, or places of a round, that are in flight at once. */
enum { MOST_AT_ONCE = 4096 };

/* Members of a chain that are submitted together. Each completion is looked at once. */
struct piece {
	struct entry *first;
	u32 count, posted;
	u32 sent;	 /* entries that were submitted, with the NOP behind them */
	u32 memory;	 /* what they use of it */
	bool has_silent; /* members that may be silent */
	bool has_end;	 /* a NOP behind it tells that it has ended */
	bool is_over;	 /* it has ended */
	bool is_doomed;	 /* by the answers no member runs */
	bool is_heard;	 /* a member that may be silent was not, and may have ended it */
	u64 end_number;
	u64 heard_at;	  /* when it was submitted, or something of it came last */
	u32 owner, index; /* of flight.c: whose it is, and where it stands there */
	struct piece *next_ended;
};

/* Makes room for so many pieces at once; times are told from now on. */
void make_pieces(u32 count);
/* Nanoseconds since then. */
u64 play_time(void);
/* Fills the queue of its ring behind the first `filled` entries. A piece with members that may be
 * silent has a NOP behind it, unless the queue is too short. */
struct piece *fill_piece(struct entry *first, u32 count, bool is_doomed, u32 filled);
/* Takes a piece that has ended, as a completion told, and was not taken before; NULL if there is
 * none. */
struct piece *take_ended(void);
/* Whether a piece is taken as ended since for a while nothing has come that might. */
bool is_silent_long(const struct piece *piece, u64 time);
/* Looks at what came of each member of a piece that has ended, and lets go of it. */
void end_piece(struct piece *piece);

/* Takes what has come on a ring; gives how much that is. */
u32 hear_ring(u32 ring);
/* What is known of an entry once it has ended, or is left out. */
void look_at(struct entry *entry);
/* Where something never ends nothing more can be played or looked at. What was submitted and has
 * not ended is silent, so that it differs; what was not is unchecked. */
void give_up(void) __attribute__((noreturn));
/* Plays a step that is no entry: bytes of a registered buffer, or one for which nothing may be in
 * flight. */
void play_record(const struct record *record);

#endif
