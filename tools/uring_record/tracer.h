/* The command under ptrace(2): a seccomp filter stops it only at the calls that matter. */
#ifndef TRACER_H
#define TRACER_H

/* Runs a command to its end; gives its exit status, 128 and the number for a signal. `has_run` says
 * whether it could be executed. */
int run_command(char **words, _Bool *has_run);

#endif
