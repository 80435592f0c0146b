/* Entries in flight: submitted, and their completion not seen. What they touch, and which of them
 * meet. */
#ifndef FLIGHTS_H
#define FLIGHTS_H

#include "rings.h"

#include <sys/types.h>
#include <sys/uio.h>

enum touch_kind { TOUCH_FILE, TOUCH_NAME, TOUCH_SLOT, TOUCH_TABLE, TOUCH_MEMORY, TOUCH_POSITION };
enum { MOST_TOUCHES = 16, MOST_KEPT_VECTORS = 8, NO_BUFFER = 0xffff };
#define ANY_NUMBER UINT64_MAX

/* Something that an entry reads or writes. */
struct touch {
	enum touch_kind kind;
	bool writes;
	bool extends;	   /* of a file: a write behind its end makes it longer */
	const void *owner; /* a slot's ring; a position's description */
	struct opened *file;
	u64 from, to;	/* bytes of a file or of memory; a slot or number from `from` on */
	pid_t process;	/* whose memory */
	const u8 *path; /* a name, `length` bytes of it */
	u32 length;
};

struct flight {
	struct entry *entry;
	struct ring *ring;
	pid_t process;
	u64 sequence, chain,
		barrier;   /* its number in the ring, its chain's, and the ring's barrier for it */
	u64 renewals;	   /* those of its ring when it was submitted */
	bool is_deferred;  /* it may begin later than its submission */
	bool opens;	   /* it opens a number of the table */
	bool takes_number; /* and takes one in the replay, as far as is known */
	bool meets_table;  /* it opens a number, and meets another open or close in flight */
	int number;	   /* the number that the replay gives it, -1 for none that is free */
	u64 surprises;	   /* so many there were when that was reckoned */
	bool fills;	   /* it fills slots, which is told behind it */
	bool is_blind;	   /* what its slot has was not known when it was submitted */
	struct entry *alike; /* entries that may have had its completion, with their result */
	i32 alike_result;
	u32 alike_count;
	bool is_unsure;		       /* its result may be another's */
	bool meets_name;	       /* another one in flight touches its name */
	bool meets_maker;	       /* both make it, and not both by an open */
	bool is_mixed;		       /* they had several results */
	bool has_ended;		       /* so it has for sure, as has each of these */
	bool is_late;		       /* it writes what a read in flight puts there */
	struct io_uring_sqe asked_for; /* as the command has it */
	u32 buffer;		       /* the buffer of the trace, of fixed forms */

	u32 touch_count, vector_count; /* (of the last members) */
	struct iovec *more_vectors;    /* all of them, where they are more than are kept here */
	struct span *spans;	       /* where it is looked for */
	u64 asked;		       /* how many bytes it asks for */

	struct opened *used;	/* the description that it works on or opens */
	struct opened *changes; /* a file that an opcode changes which is not served */
	char *names[2];	     /* what it names; of an entry that is outside without dots and links */
	char *unresolved[2]; /* the same as full paths, where that is not known yet */
	bool is_link[2];     /* it is a link, or no file or directory */
	bool replaces;	     /* a link is moved over a file */
	bool walks;	     /* a path goes through links */
	bool changes_link;   /* it makes, moves or takes away one */
	bool rests;	     /* what it names rests on one in flight whose result is given */
	bool is_nowhere;     /* from where a name starts is not known */
	u32 open_flags;	     /* of an open that is outside */
	int *copies;	     /* of a FILES_UPDATE: the files of its descriptors */
	u32 copy_count;
	struct opened *moves; /* the description whose position it moves */
	bool takes_place; /* a slot or number is taken, and has to be put back where the entry fails
			   */
	u32 slot;	  /* the slot, from 1, or 0 for a number */
	bool is_outside;  /* what comes into it is outside: the replay's slot stays as it is */
	struct opened *before;
	struct opened *foreign_before; /* (what is no file of the tree, in the slot) */
	bool was_taken;		       /* (the same of a number, or of a slot in the replay) */

	struct flight *next, *previous, *next_same, *previous_same;

	struct touch touches[MOST_TOUCHES];
	struct iovec
		vectors[MOST_KEPT_VECTORS]; /* where a read puts its bytes, a write takes them */
};

/* All vectors of a flight. */
static inline const struct iovec *vectors_of(const struct flight *flight)
{
	return flight->more_vectors ? flight->more_vectors : flight->vectors;
}

/* A flight that is in no list yet, and its end in each way. */
struct flight *new_flight(struct ring *ring, struct entry *entry, pid_t process);
void launch(struct flight *flight);
void land(struct flight *flight);
/* Whether an entry in flight may put another file into a slot, which is told behind it. */
bool is_updating(const struct ring *ring, u32 slot);
/* The flight that a completion is of, or NULL. `is_sure` is false where it may be of another. */
struct flight *flight_of(struct ring *ring, u64 user_data, i32 result, bool *is_sure);
/* Marks entries that may have had each other's results. */
void mark_alike(struct entry *entry);
/* Marks all entries that may have had another's result, of all rings. */
void give_up_alike(void);
/* Whether an entry posts nothing where it succeeds. */
bool is_quiet(const struct flight *flight);

/* What a flight touches, once its fields, side bytes and description are known. */
void look_at_touches(struct flight *flight);
struct touch *add_touch(struct flight *flight, enum touch_kind kind, bool writes);
void touch_file(struct flight *flight, struct opened *file, u64 from, u64 to, bool writes);
void touch_name(struct flight *flight, const u8 *path, u32 length, bool writes);
/* The same of the name of an open, and of what it cuts. */
void touch_opened(struct flight *flight);

/* Whether another read in flight fills memory that a flight reads or writes: then it is not known
 * whose bytes are there. */
bool is_filled_by_others(struct flight *flight);

/* Why the bytes of a file are not told from some place on: writes of it met, or it was changed in a
 * way that has no entry; INSIDE where they are told. */
enum outside unsettled_by(dev_t device, ino_t inode);
void unsettle(const struct opened *file, enum outside why);
/* The same of names: whether there is something at a path, or what, is not told. */
struct doubt {
	char *path;
	enum outside why;
};
extern struct doubt *doubts;
extern u64 doubt_count;
void doubt_name(const u8 *path, u32 length, enum outside why);
enum outside doubted_by(const char *path, u32 length);
/* Something was submitted that is not in the trace: no result is compared from here on. */
void lose(const char *what);
/* How many that open a number of the table are in flight, and how many of these take one in the
 * replay. */
u32 count_opens_in_flight(void);
u32 count_takers_in_flight(void);
/* How many that go through links, and that change one, are in flight. */
u32 count_walks_in_flight(void);
u32 count_link_changes_in_flight(void);
/* An open of a number meets another open or close: its result is given. */
void meets_in_table(struct flight *flight);
/* The same of all that are in flight: the recorder opens numbers meanwhile. */
void give_up_numbers(void);

#endif
