/* The other threads of a process: whether they can have changed its memory. */
#ifndef OTHERS_H
#define OTHERS_H

#include "common.h"

/* A thread begins, and ends. */
void watch_thread(pid_t process, pid_t thread);
void unwatch_thread(pid_t thread);
/* Whether a process has threads beside one. */
bool has_others(pid_t process, pid_t thread);
/* Looks at the others, at the entry of a call; later: whether all have slept since then. */
void look_at_others(pid_t process, pid_t thread);
bool others_slept(pid_t process, pid_t thread);

#endif
