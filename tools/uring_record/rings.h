/* The rings of the command, and what is registered with them. */
#ifndef RINGS_H
#define RINGS_H

#include "opened.h"
#include "trace.h"

enum { MOST_INDEXES = 65536, DATA_CHAINS = 1024, VERSION_ONE_SLOTS = 512 };

/* A registered buffer of the trace, with the bytes that it has in the replay. */
struct buffer {
	u64 address, length;
	u8 *values;  /* the bytes, once they matter */
	u8 *unknown; /* which of them a read put there, so that they are not known here */
};

struct flight;

/* The entry that changed a slot last, by its number and its chain; or a call before an entry. */
struct change {
	u64 sequence, chain;
};
#define NO_CHAIN UINT64_MAX

struct ring {
	u32 number;
	bool has_number; /* of version 3: there is a ring with its number in the trace */
	bool is_ours;	 /* it has the ordinary calls */
	bool is_begun;	 /* it has records, and in version 3 its ring has its slots and buffers */
	u64 renewals;	 /* how often it got a new number in version 3 */

	/* The queues in the command's memory. */
	pid_t process;	 /* which made it */
	pid_t submitter; /* which submitted last */
	int descriptor;
	u32 flags, sq_entries, cq_entries;
	struct io_sqring_offsets sq_offsets;
	struct io_cqring_offsets cq_offsets;
	u64 sq, cq, sqes;
	u32 seen;	/* completions that are seen */
	u32 claimed;	/* where the next call begins to take entries of the queue */
	u32 callers;	/* calls that are taking some */
	u32 in_flight;	/* how many entries are in flight */
	bool overflows; /* completions wait behind the queue: they are not as new as they seem */
	bool has_quiet; /* an entry asked for CQE_SKIP_SUCCESS */
	bool has_index; /* a thread has it by an index of its own */
	u32 updating;	/* how many of them fill slots, which is told behind them */
	pid_t user;	/* the thread of the last call */
	bool is_shared; /* several threads use it: no call of it is made to wait */

	/* Slots: at the start of the trace, and what the replay has there now. */
	u32 slot_count;
	u32 registered; /* how many slots the command has now */
	u32 slots[MOST_SLOTS];
	struct opened **beyond; /* the files of slots that a trace does not have */
	u64 beyond_count, beyond_room;
	struct opened *now[MOST_SLOTS];
	struct opened
		*foreign[MOST_SLOTS]; /* what is no file of the tree, which the command has there */
	bool taken[MOST_SLOTS];	      /* the replay has something there that is none, too */
	struct change changed[MOST_SLOTS]; /* what changed the slot last */

	/* Buffers of the trace, and which of them, from 1, the command's indexes are: 0 for none,
	 * less for one that is left out. */
	u32 buffer_count, index_count;
	struct buffer buffers[MOST_BUFFERS];
	i32 mapped[MOST_INDEXES];

	/* Entries in flight, the earliest first, and by their user_data. */
	struct flight *first, *last;
	struct flight *by_data[DATA_CHAINS], *by_data_last[DATA_CHAINS];
	/* What those touch that may meet a later one of the ring, and those that end before one
	 * begins; of each what is read, and what is written. */
	struct span *spans[2][2];
	struct flight *unsorted; /* the first that is not there yet */
	struct flight *behind;	 /* the first that may meet a later one of the ring */
	u64 sequence;		 /* how many entries were submitted */
	u64 barrier;		 /* entries numbered below have ended before a later one begins */
};

extern struct ring **rings;
extern u32 ring_count;

/* A new ring with a descriptor of a process, which no other ring has from then on; NULL where the
 * format has no more. */
struct ring *add_ring(pid_t process, int descriptor);
/* The ring of ordinary calls, which is made when it is first asked for. */
struct ring *our_ring(void);
/* A ring that is in no trace: ordinary calls are in flight there while they run. */
struct ring *call_ring(void);
/* The ring that a descriptor of a process leads to, or NULL. A ring that is closed is none. */
struct ring *find_ring(pid_t process, int descriptor);
/* Whether a descriptor leads to a ring at all. */
bool is_ring(pid_t process, int descriptor);
/* Lets go of the rings of a process that has ended or begins another program, and of all copies of
 * its descriptors: a lock would stay, or a file could not be executed. */
void let_go_of_process(pid_t process);
/* The same of all copies of what programs have closed: before a file is executed or locked. */
void let_go_of_closed_files(void);
/* What the kernel has for a word of a ring in /proc/PID/fdinfo; false where it says nothing. */
bool kernel_count(const struct ring *ring, const char *word, u32 *count);

/* What io_uring_register(2) did: `from` is the ring that buffers are cloned from. */
void registered(struct ring *ring, const struct ring *from, pid_t thread, u32 operation,
		u64 argument, u32 count);
/* Puts a list of descriptors of the command into slots, of which the kernel has done so many. It
 * has emptied the slot of the next one, which is none. (Versions 1 and 2 take all or none.) */
void update_slots(struct ring *ring, pid_t thread, u32 from, u64 list, u32 count, i64 done);
/* The same for io_uring_register(2), also where it failed. */
void updated_files(struct ring *ring, pid_t thread, u32 operation, u64 argument, u32 count,
		   i64 done);
/* Puts what a descriptor of the recorder leads to into a slot that a trace has. The descriptor
 * becomes the slot's. */
void put_into_slot(struct ring *ring, u32 slot, int copy);
/* The command has nothing in a slot. */
void empty_slot(struct ring *ring, u32 slot);
/* The command has something in a slot that is no file of the tree: what the replay has there goes.
 */
void give_up_slot(struct ring *ring, u32 slot);
/* It is not known what a slot has that an entry changed, unless it was changed since. */
void slot_is_unknown(struct ring *ring, u32 slot, u64 sequence, u64 renewals);
/* The replay has a description in a slot from here on, which becomes the slot's. */
void slot_holds(struct ring *ring, u32 slot, struct opened *opened);
/* So many slots a ring of the command may have in the trace. */
u32 most_slots(void);
/* Puts the slots at the start of the trace; slots that are no files of the tree stay empty. */
void start_slots(struct ring *ring);

#endif
