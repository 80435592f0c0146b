/* Open file descriptions of the command, and what the replay has of them. */
#ifndef OPENED_H
#define OPENED_H

#include "common.h"

#include <sys/stat.h>

/* A description that the replay has under some numbers of the table or slots. */
struct opened {
	u32 holders;	/* numbers and slots that lead to it */
	int descriptor; /* one of the recorder's own on it, or -1 where none can be had */
	char *name;	/* the file's path on this machine, where there is no descriptor */
	u64 position;	/* the position that it has in the replay */
	u32 moving;	/* entries in flight that move it */
	dev_t device;	/* which file it is; 0 where that is not known */
	ino_t inode;
	u64 size, looked; /* the file's size at a look */
	u8 access;
	bool appends;
	bool is_unsure; /* it may be another one in the replay */
};

/* A descriptor of the recorder's own on what a descriptor of the command leads to, or -1. */
int copy_descriptor(pid_t process, int descriptor);
/* Whether a descriptor of the command is open; whether it leads to a description. */
bool is_open(pid_t process, int descriptor);
bool leads_to(pid_t process, int descriptor, const struct opened *opened);
/* Whether two descriptors of the recorder lead to one description. */
bool is_same(int one, int other);
/* Whether the replay is sure to have what a descriptor of the recorder leads to, whose status is
 * this, as a description. */
bool is_copy_of(const struct opened *opened, int copy, const struct stat *status);

/* A program has changed O_APPEND of something that it has open: from then on it is looked at
 * whether a description has it otherwise than in the replay. */
void appends_changed(void);
bool has_other_append(const struct opened *opened);

/* The name below the root of what a descriptor of the recorder leads to, in memory of its own, or
 * NULL: also where it is not told what is at that name. */
char *name_of(int descriptor);
/* The path that opens anew what a descriptor of the recorder leads to. */
int open_again(int descriptor, int flags);
/* Reads bytes of the file of a description as they are now, whatever its access is. */
bool read_back(const struct opened *opened, void *bytes, u64 length, u64 offset);

/* A description with one holder. The descriptor becomes its own. */
struct opened *new_opened(int descriptor, u64 position);
/* One of which only is kept which file it is: a copy would hold a pipe or socket open. The
 * descriptor is closed. */
struct opened *new_foreign(int descriptor);
/* One of which nothing is known. */
struct opened *new_unknown(void);
/* Closes the recorder's descriptor of one. */
struct opened *let_go_of(struct opened *opened);
/* The same for one that holds it, which is looked at anew where it is used: gives what it has from
 * then on. In version 3 others that hold it keep it. */
struct opened *leave_opened(struct opened *opened);
/* Whether a descriptor of the recorder leads to a file or a directory. */
bool is_file_or_directory(int descriptor);
/* One that only a slot of the command leads to, by the path of the trace that it was opened by. */
struct opened *new_direct(const char *path, u32 flags);
struct opened *hold(struct opened *opened);
/* Takes one holder away; gives NULL. */
struct opened *release(struct opened *opened);
/* Learns which file a direct one is, once it is there. */
void look_at_direct(struct opened *opened);
/* The size of its file, looked at once in each stop of the command, which begins a new look. */
u64 size_now(struct opened *opened);
void begin_look(void);
u64 this_look(void);

#endif
