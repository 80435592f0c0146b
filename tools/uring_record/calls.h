/* Ordinary calls of the command that change the tree: each becomes an entry of the recorder's ring.
 */
#ifndef CALLS_H
#define CALLS_H

#include "common.h"

enum { ARGUMENTS = 6 };

struct call {
	long number;
	u64 arguments[ARGUMENTS];
	pid_t thread, process;
	char *names[2];	       /* the paths of the trace that it names, or NULL */
	bool is_link[2];       /* one is a link, or no file or directory: no tree has it */
	bool replaces;	       /* a link is moved over a file */
	struct flight *flight; /* while it runs, where it changes the tree: what it touches */
	bool is_unknown;       /* it has a name that is not known */
	bool looks;	       /* what it opens or cuts is seen at its end */
	struct opened **files; /* of io_submit(2): those that it writes */
	u64 file_count, file_room;
};

/* The numbers of these calls; gives how many there are. */
u32 list_calls(long *numbers, u32 room);
/* Before the start: whether a call may change the tree, and ends by itself. */
bool may_change(const struct call *call);
/* At its entry: whether its end matters. At its end, and where it has none. */
bool call_begins(struct call *call);
void call_ended(struct call *call, i64 result);
void forget_call(struct call *call);
/* A file is mapped: noted where it is one of the tree, shared and for writing. */
void file_mapped(const struct call *call);

#endif
