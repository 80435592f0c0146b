/* A tracer that stops a command at the entry and the end of each io_uring_enter(2), and lets it go
 * on: what recording costs is told beside it. stops COMMAND ARGUMENT .. */
#include <errno.h>
#include <linux/filter.h>
#include <linux/seccomp.h>
#include <signal.h>
#include <stddef.h>
#include <stdio.h>
#include <sys/prctl.h>
#include <sys/ptrace.h>
#include <sys/syscall.h>
#include <sys/wait.h>
#include <unistd.h>

/* In the command: stops at that call alone. */
static void become(char **words)
{
	struct sock_filter filter[] = {
		BPF_STMT(BPF_LD | BPF_W | BPF_ABS, offsetof(struct seccomp_data, nr)),
		BPF_JUMP(BPF_JMP | BPF_JEQ | BPF_K, SYS_io_uring_enter, 0, 1),
		BPF_STMT(BPF_RET | BPF_K, SECCOMP_RET_TRACE),
		BPF_STMT(BPF_RET | BPF_K, SECCOMP_RET_ALLOW),
	};
	struct sock_fprog program = { sizeof filter / sizeof *filter, filter };

	raise(SIGSTOP);
	if (prctl(PR_SET_NO_NEW_PRIVS, 1, 0, 0, 0) ||
	    prctl(PR_SET_SECCOMP, SECCOMP_MODE_FILTER, &program))
		_exit(125);
	execvp(words[0], words);
	_exit(127);
}

int main(int count, char **words)
{
	int status;
	pid_t child = count > 1 ? fork() : -1;

	if (!child)
		become(words + 1);
	if (child < 0 || waitpid(child, &status, WUNTRACED) != child ||
	    ptrace(PTRACE_SEIZE, child, 0, PTRACE_O_TRACESYSGOOD | PTRACE_O_TRACESECCOMP))
		return 125;
	kill(child, SIGCONT);
	while (waitpid(child, &status, __WALL) == child || errno == EINTR) {
		if (WIFEXITED(status))
			return WEXITSTATUS(status);
		if (WIFSIGNALED(status))
			return 128 + WTERMSIG(status);
		int event = status >> 16, number = WSTOPSIG(status);
		if (event == PTRACE_EVENT_SECCOMP)
			ptrace(PTRACE_SYSCALL, child, 0, 0);
		else
			ptrace(PTRACE_CONT, child, 0,
			       event || number == (SIGTRAP | 0x80) ? 0 : number);
	}
	return 125;
}
