/* Children that a program makes without a tracer (CLONE_UNTRACED). They would keep the filter of
 * the command, under which their calls fail, so they are traced like any others. The program and
 * the child find their registers and their memory as they were. */
#ifndef CLONES_H
#define CLONES_H

#include "calls.h"

/* A thread calls clone(2) or clone3(2): whether its end matters. Has it make such a call without
 * the flag. */
bool clone_begins(const struct call *call);
/* It has a child. */
void has_cloned(pid_t caller, pid_t child);
/* The call has ended, with a child or not, or its thread has. */
void clone_ended(pid_t caller);
void caller_is_gone(pid_t caller);
/* A new thread may be a child of such a call, which is not known yet: it is stopped until then. */
bool waits_for_caller(pid_t thread);
/* It is let go. */
void child_begins(pid_t thread);

#endif
