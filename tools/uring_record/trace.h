/* The trace as it is kept until it is written: docs/FORMAT.md has its form. */
#ifndef TRACE_H
#define TRACE_H

#include "common.h"
#include "ranges.h"
#include "record_kinds.h"
#include "uring.h"

#include <sys/stat.h>

/* The limits of the format. */
enum {
	MOST_ITEMS = 65535,
	MOST_RINGS = 64,
	MOST_RINGS_3 = 1048576,
	MOST_PLACES = 1048576,
	MOST_ITEMS_3 = 16777216,
	MOST_TABLE = 1024,
	MOST_SLOTS = 1024,
	MOST_BUFFERS = 1024,
	MOST_IN_RECORD = 32768,
	DATA_SHOWN = 32,
};
#define MOST_PLACES_3 (1ULL << 31)
#define NO_ITEM UINT32_MAX

enum item_kind { ITEM_DIRECTORY = 1, ITEM_FILE = 2, ITEM_NAME = 3 };

/* A name of the tree at the start. */
struct item {
	enum item_kind kind;
	char *path;
	u64 size;
	u32 stored; /* how many bytes of `bytes` are stored */
	u8 *bytes;
	u32 of; /* of another name: the item that it names */
	struct file_ranges
		ranges; /* the same bytes in version 3, which are read when it is written */
	int descriptor; /* of a file without a name, on that file; else -1 */
};

/* An open file description of the start. */
struct description {
	u32 node;
	u8 access;
	u8 append;
	u64 position;
	struct opened *opened; /* what the recorder knows of it later */
};

/* What is known of an entry's completion: it was not seen; it is known to have ended and posted
 * nothing; it was seen; or the recorder made the entry. */
enum entry_state { ENTRY_UNSEEN, ENTRY_SILENT, ENTRY_POSTED, ENTRY_MADE };

/* Why the kernel's result of an entry is not compared, or is given. */
enum outside {
	INSIDE,
	OUTSIDE_OPCODE,
	OUTSIDE_DESCRIPTOR,
	OUTSIDE_SELECTION,
	OUTSIDE_FLAGS,
	OUTSIDE_SLOT,
	OUTSIDE_PATH,
	OUTSIDE_LINK,
	OUTSIDE_LINKS,
	OUTSIDE_MEMORY,
	OUTSIDE_BUFFER,
	OUTSIDE_POSITION,
	OUTSIDE_LARGE,
	OUTSIDE_SYSTEM,
	OUTSIDE_POLLED,
	OUTSIDE_THREAD,
	OUTSIDE_USER,
	OUTSIDE_CHANGED,
	OUTSIDE_MAPPED,
	OUTSIDE_UNREADABLE,
	OUTSIDE_UNTOUCHED,
	OUTSIDE_LATE,
	OUTSIDE_ORDER,
	OUTSIDE_UNSEEN,
	OUTSIDE_CHAIN,
	OUTSIDE_COUNT,
};
extern const char *const outside_words[OUTSIDE_COUNT];

struct entry {
	struct io_uring_sqe sqe; /* as recorded */
	u8 *side;
	u32 side_length;
	u8 opcode;     /* as submitted */
	bool replaced; /* recorded as NOP */
	bool is_aside; /* outside: it is written so that its replay changes nothing; in version 3
			* given */
	bool fails, is_refused; /* of one that is given: whether it fails; on submission */
	bool is_given_up; /* it, or a member of its chain before it, was given before its end was
			   * seen */
	enum outside given_by;	  /* why it is given */
	struct record *record;	  /* the call's; NULL of what the recorder makes */
	struct entry *head;	  /* the first of its chain; NULL of what the recorder makes */
	struct entry *alike;	  /* another one that may have had its result */
	bool is_alike;		  /* it is one of those that may be marked still */
	struct changes *changes;  /* what it may have changed then */
	struct entry *alike_from; /* of a head: the first such member */
	bool is_left;		  /* it is behind one that had another's result */
	bool is_landed;		  /* it is in flight no more */
	struct entry *turned; /* of a head: the first member that may end otherwise in the replay */
	enum entry_state state;
	enum outside outside;
	i32 result;
	u64 submitted, completed; /* nanoseconds from the start of the trace */
	u64 data_length;	  /* how many bytes it read into the program's memory */
	u8 data[DATA_SHOWN];
	struct read_sum *sum; /* of all bytes that it read, where it is told */
	u64 place;
	u32 chosen; /* of an OPENAT whose slot the kernel chose: the slot, from 1 */
	const struct entry *told_by; /* of an ordinary call that ran: the entry that it became */
};

/* What one call submitted, bytes that the program put into a registered buffer, what a slot or
 * number holds, a position, or a ring's begin or end. */
struct record {
	enum record_kind kind;
	struct ring *of;
	u32 ring;	 /* its number, once the record is in the trace */
	u32 count, room; /* entries, and those that it was made for: the kernel may leave some */
	bool is_added;	 /* it is in the trace */
	bool is_open;	 /* its call runs still: the kernel may leave entries of it */
	bool is_put;	 /* it was written */
	bool is_gone; /* its results were written: it is kept for its call, and what is in flight */
	u32 flying;   /* so many entries are in flight then */
	u64 size;     /* its bytes in the trace, or a few more */
	u32 settled;  /* so many of its entries will be written as they are now */
	u32 final;    /* so many will have no other result or mark */
	bool is_drained; /* the kernel was given IO_DRAIN on its heads */
	u32 from;	 /* where in the queue its call begins */
	u32 claimed;	 /* how many places of the queue its call takes, or would have taken */
	struct entry *entries;
	u16 buffer;
	u32 offset;
	u32 length;
	u8 *bytes;
};

struct trace {
	struct item *items;
	struct description *descriptions;
	struct record **records;
	u64 item_count, item_room;
	u64 description_count, description_room;
	u64 record_count, record_room;
	bool is_lost;		      /* something is not in it: results are not compared */
	bool has_no_tree;	      /* what is below some directories is not known */
	bool is_ended;		      /* it is at a limit: nothing is added */
	u64 bytes, places;	      /* of its names, files and records; of its records */
	u64 held;		      /* bytes of records that are not written yet */
	u64 gone, gone_places;	      /* records that are kept no more, and their places */
	u32 ring_numbers;	      /* rings that are in it */
	bool uses_table;	      /* it is of version 2 */
	u32 table_size;		      /* how many descriptors the process may have */
	u32 table[MOST_TABLE];	      /* 0, or a description and 1 */
	bool table_taken[MOST_TABLE]; /* a number that is taken by what is no file of the tree */
};
extern struct trace trace;

/* Adds an item, or gives NULL where the trace is at its limit. The path becomes its own. The item
 * stays where it is until the next one is added. */
struct item *add_item(enum item_kind kind, char *path);
/* Ends the recording where it is, which is said at once; the command runs on. */
void end_recording(const char *why);
/* Whether there is room for so many more bytes; the recording ends where there is none. */
bool has_room(u64 bytes);
/* The same, and the recording goes on. */
bool would_fit(u64 bytes);
/* How many of the bytes of a write or a fill take room: with --no-data version 3 has their number
 * alone. */
u64 stored_of(u64 written);

/* The node (number of an item, 0 for the root) of a file, or NO_ITEM; and its being told. */
u32 node_of(const struct stat *status);
void set_node(const struct stat *status, u32 item);
/* Whether a file that is known is on a device. */
bool knows_device(dev_t device);
/* Why the bytes of a file are not told, in the tree or not; the first reason stays, unless it is
 * INSIDE or OUTSIDE_UNTOUCHED. */
enum outside doubt_of(dev_t device, ino_t inode);
void set_doubt(dev_t device, ino_t inode, enum outside why);

/* A record without entries, which is in no trace yet, and its being put at the end of the trace,
 * behind that of its ring where version 3 wants one. */
struct record *new_record(struct ring *ring, u32 count);
void add_record(struct record *record);
/* The same of a record whose ring has its number. */
void append_record(struct record *record);
/* How many places a record has. */
u32 places_of(const struct record *record);
void free_record(struct record *record);
/* Frees a record whose results were written, once nothing needs it. */
void leave_record(struct record *record);
/* Whether the results of an entry were written already. */
bool is_told(const struct entry *entry);
/* Takes away the last entry of a record, which is in the trace or not. */
void drop_entry(struct record *record);

bool is_served(u8 opcode);
/* Whether an opcode works on the file of its `fd`; moves bytes; has an offset. */
bool works_on_file(u8 opcode);
/* Whether an entry is a STATX of what is open at a number, and whether one uses a file number. */
bool stats_number(const struct io_uring_sqe *sqe);
bool uses_file(const struct io_uring_sqe *sqe);
bool moves_bytes(u8 opcode);
bool reads_bytes(u8 opcode);
/* Whether an opcode that is served puts something into the memory of the program. */
bool fills_memory(u8 opcode);
bool is_fixed(u8 opcode);
/* Whether it may change the bytes of its file. */
bool changes_file(u8 opcode);
/* Whether an OPENAT or CLOSE is of the descriptor table. */
bool opens_in_table(const struct io_uring_sqe *sqe);
bool closes_in_table(const struct io_uring_sqe *sqe);
/* Whether an OPENAT that the replay decides is to have the slot that the kernel chooses, which is
 * not known yet. */
bool awaits_slot(const struct entry *entry);
/* Whether the chain of an entry goes on behind it. */
bool goes_on(const struct io_uring_sqe *sqe);

/* Says why an entry is not compared, where nothing is said yet or less. */
void put_outside(struct entry *entry, enum outside why);
/* The same of an entry whose replay is to change nothing. */
void put_aside(struct entry *entry, enum outside why);
/* What was outside is told after all. */
void put_inside(struct entry *entry);
/* Whether the trace gives the result of an entry. */
bool is_given(const struct entry *entry);
/* Whether it is not sure whose result an entry has, given or not. */
bool is_ambiguous(const struct entry *entry);
/* Why an entry is outside, or is given. */
enum outside reason_of(const struct entry *entry);
/* Whether the replay may do otherwise with an entry: it, or an earlier member of its chain, is
 * outside. */
bool is_doubtful(const struct entry *entry);
/* Gives each entry of a record its place, from one on, and each member of a chain whose course is
 * not told its mark; gives the place behind. The same of all records. */
u64 number_record(struct record *record, u64 place);
u64 number_places(void);

#endif
