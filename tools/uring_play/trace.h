/* The trace as it was read (docs/FORMAT.md), and what became of each entry. */
#ifndef TRACE_H
#define TRACE_H

#include "common.h"
#include "record_kinds.h"

enum {
	MOST_BYTES = 1 << 30,
	MOST_ENTRIES = 1 << 15,
	DATA_SHOWN = 32,
};
/* The greatest size of a file. */
#define GREATEST_SIZE (1ULL << 40)

enum item_kind { ITEM_DIRECTORY = 1, ITEM_FILE = 2, ITEM_NAME = 3 };

/* Bytes of a file; all that are in none are zeros. */
struct range {
	u64 offset;
	u32 length;
	const u8 *bytes;
};
struct item {
	u8 kind;
	char *path;
	u64 size;
	u32 range_count, of;
	struct range *ranges;
};
struct description {
	u32 node;
	u8 access, append;
	u64 position;
};
struct buffer {
	u64 address;
	u32 length;
	u8 *memory;
	u64 low, high; /* what some entries read into lies between (brought.h) */
	u64 stretch;   /* which these are */
};
enum holder_kind { OF_SLOT, OF_DESCRIPTOR, OF_START };
/* A slot of a ring, a descriptor, or a description of the start. */
struct holder {
	u8 kind;
	u32 ring, number;
};
/* A slot of a new ring, and what it gets: what another one holds. */
struct full_slot {
	u32 slot;
	struct holder source;
};
enum content { CONTENT_NOTHING, CONTENT_PATH, CONTENT_COPY, CONTENT_TAKEN };
/* What a call of the program did between two submissions: what a slot or a descriptor holds from
 * then on, or the position of what it holds. */
struct call {
	struct holder file, source; /* the source of a copy */
	u8 content;
	u32 flags; /* of a path, as of open(2) */
	u64 position;
	char *path;
};

/* What is known of an entry once it was played. */
enum state {
	ENTRY_UNPLAYED, /* it was not submitted: nothing is told */
	ENTRY_POSTED,	/* a completion was seen */
	ENTRY_SILENT,	/* none was seen */
	ENTRY_ALONE,	/* a completion was seen, but the entry had been asked for one */
};
/* Why an entry is not played as it stands, or not compared: a word of docs/FORMAT.md each. */
enum apart {
	NOT_APART,
	/* The entry lies outside the profile. */
	APART_OPCODE,
	APART_SELECTION,
	APART_FLAGS,
	APART_SLOT,
	APART_PATH,
	APART_DIRECTORY,
	APART_MEMORY,
	APART_OFFSET,
	APART_MODE,
	APART_RANGE,
	/* The trace gives its result. */
	APART_GIVEN,
	/* The kernel does otherwise with its chain. */
	APART_LINKS,
	APART_DOOM,
	/* Its result is as right as the expected one. */
	APART_TESTS,
	APART_OPENS,
	APART_EITHER,
	/* The play itself leaves it out. */
	APART_SPACE,
	APART_LACKS,
	APART_STUCK,
	APARTS
};

struct piece;

struct entry {
	const u8 *sqe;
	const u8 *side;
	u32 side_length, place, ring;
	bool is_zeros;		 /* it writes zeros, which do not stand in the text */
	bool is_given;		 /* the trace gives its result: it has no side bytes */
	bool is_refused, fails;	 /* as the answer of its tests by itself; as the trace says */
	i32 given;		 /* that result */
	bool is_expected;	 /* the report tells of it */
	bool is_posted_expected; /* with a completion that is posted */
	bool is_submitted;
	bool is_folded; /* its bytes were too many to be kept beside others */
	i32 expected;	/* the result by the report */
	enum state state;
	enum apart apart;
	i32 result;
	struct piece *piece;	  /* in which it is in flight */
	u64 submitted, completed; /* nanoseconds from the start of the play */
	u8 *into;		  /* what it reads into, while it is in flight */
	u64 great;		  /* how many bytes of a mapping of its own it may fill then */
	u8 data[DATA_SHOWN + 1];
	u64 data_length;
	char *sum; /* of the bytes that it read, where it is told */
};
struct record {
	u8 kind;
	u32 ring, count, place;
	struct entry *entries; /* of other records none */
	u32 buffer, offset, length;
	const u8 *bytes;   /* NULL for zeros */
	struct call *call; /* of a set and of a seek, which have no ring */
};
struct ring_of_trace {
	u32 slot_count, full_count, buffer_count;
	struct full_slot *full;
	struct buffer *buffers;
	bool has_skip;
	bool has_ended; /* the trace ends it */
	u32 longest;	/* the most entries of a record */
	u32 place;	/* where the trace makes it, in version 3 */
};
struct trace {
	u32 version, item_count, description_count, ring_count, record_count, table_size, places;
	struct item *items; /* from 1 on */
	struct description *descriptions;
	u32 *table; /* the number of a description and 1, or 0 */
	struct ring_of_trace *rings;
	struct record *records;
	struct entry **by_place;   /* NULL for another step */
	struct record **record_at; /* of a step that is no entry its record, else NULL */
	u64 most_zeros;		   /* that an entry writes */
};
extern struct trace trace;
/* Whether its rings are records, and not there from the start on. */
bool has_ring_records(void);
/* Whether a record is one step that is no entry; and whether nothing may be in flight where it is
 * played, since that takes calls of the player's. */
bool is_step(const struct record *record);
bool is_quiet_step(const struct record *record);
/* The ring that a place is of; NO_RING of a set and of a seek. */
#define NO_RING UINT32_MAX
u32 ring_of(u32 place);
/* What a place has to do with beside: what the slots of a new ring get, or what a set and a seek
 * are about. NULL behind the last one. */
const struct holder *holder_at(u32 place, u32 at);

/* Reads a trace, or ends the player with status 1 and the line of docs/FORMAT.md. The judge is
 * uring_replay check. */
void read_trace(const u8 *bytes, u64 length);
#endif
