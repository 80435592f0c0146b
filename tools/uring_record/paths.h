/* Names: the root of the trace, and paths as the trace has them. */
#ifndef PATHS_H
#define PATHS_H

#include "common.h"

#include <sys/types.h>

/* Sets the root, or ends the recorder where it cannot be one. */
void set_root(const char *path);
const char *root_path(void);

/* The rest of a full path behind the root in memory of its own ("/" for the root), or NULL. */
char *inside_root(const char *path);
/* A path of the trace as a path of this machine, in memory of its own. */
char *outside_path(const char *path);
/* Whether the directory of a path of the trace is there below the root. */
bool has_parent(const char *path);

/* Where a descriptor of a process leads, and its working directory, in memory of their own, or
 * NULL. */
char *descriptor_target(pid_t process, int descriptor);
char *working_directory(pid_t process);
/* Whether a target says that its name is gone. */
bool is_deleted(const char *target);

/* A path of a call as the trace has it, in memory of its own. `is_known` is false where it leads
 * out of the root, or from where is not known. */
char *translate(pid_t process, int directory, const char *path, bool *is_known);

/* What a path of the trace leads to on this machine: a file or directory, or nothing; a symbolic
 * link or what has no form in a trace; a file that is larger than a trace may have. */
enum name_kind { NAME_TOLD, NAME_LINK, NAME_LARGE };
#define MOST_SIZE (1ULL << 40)
/* Looks at a path of the trace. One that leads through symbolic links becomes the one that they
 * lead to, where that is below the root; `follows` says that the last name is followed too. */
enum name_kind look_through(char **path, bool follows);
/* Whether a path of the trace leads to a file that it may have; to a directory that holds files or
 * directories. */
bool is_file(const char *path);
bool holds_names(const char *path);
/* Whether it is known from which directory a path of a call starts. */
bool starts_somewhere(pid_t process, int directory, const char *path);
/* A path of a call as the trace has it, without dots and links, or NULL where it is not below the
 * root. `is_known` is false where that is not known: its directory is not there, or another one in
 * the process. */
char *canonical_path(pid_t process, int directory, const char *path, bool *is_known);
/* The same of what the path leads to, through all links. */
char *followed_path(pid_t process, int directory, const char *path);
/* The device of the directory of a path, whatever the process sees there; false where that is not
 * there. */
bool device_of(pid_t process, int directory, const char *path, dev_t *device);
/* A full path by which the recorder finds what a path of a process leads to, or NULL. */
char *seen_path(pid_t process, int directory, const char *path);
/* A path of a call as a full path of this machine, as it stands, in memory of its own, or NULL
 * where it is none of a name. */
char *full_name(pid_t process, int directory, const char *path);
/* The same as the trace has it, without dots and links, or NULL where it is not below the root.
 * `is_there` says whether its directory is. */
char *resolve_name(const char *full, bool *is_there);

#endif
