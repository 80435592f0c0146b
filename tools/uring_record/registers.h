/* Registers of a stopped thread, where the machine is one that is known here. */
#ifndef REGISTERS_H
#define REGISTERS_H

#include "common.h"

#ifdef __x86_64__
enum { KNOWS_REGISTERS = 1 };
#else
enum { KNOWS_REGISTERS = 0 };
#endif

/* Gives the call that a thread is about to make other arguments, behind the first. */
void put_arguments(pid_t thread, const u64 *arguments);
/* The same of the first one; false where it cannot be changed. */
bool put_first_argument(pid_t thread, u64 value);
/* Changes the result of the call that a thread has made. */
void change_result(pid_t thread, u64 value);
/* The end of the stack of a thread, with what it may use below it; 0 where that is not known. */
u64 below_stack(pid_t thread);

#endif
