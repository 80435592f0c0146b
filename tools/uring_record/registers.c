#include "registers.h"

#include <sys/ptrace.h>
#include <sys/user.h>

#ifdef __x86_64__
/* So many bytes below its stack a function may use without moving it. */
enum { RED_ZONE = 128 };

void put_arguments(pid_t thread, const u64 *arguments)
{
	struct user_regs_struct registers;

	if (ptrace(PTRACE_GETREGS, thread, 0, &registers))
		return;
	registers.rsi = arguments[1];
	registers.rdx = arguments[2];
	registers.r10 = arguments[3];
	registers.r8 = arguments[4];
	registers.r9 = arguments[5];
	ptrace(PTRACE_SETREGS, thread, 0, &registers);
}

bool put_first_argument(pid_t thread, u64 value)
{
	struct user_regs_struct registers;

	if (ptrace(PTRACE_GETREGS, thread, 0, &registers))
		return false;
	registers.rdi = value;
	return !ptrace(PTRACE_SETREGS, thread, 0, &registers);
}

void change_result(pid_t thread, u64 value)
{
	struct user_regs_struct registers;

	if (ptrace(PTRACE_GETREGS, thread, 0, &registers))
		return;
	registers.rax = value;
	ptrace(PTRACE_SETREGS, thread, 0, &registers);
}

u64 below_stack(pid_t thread)
{
	struct user_regs_struct registers;

	return ptrace(PTRACE_GETREGS, thread, 0, &registers) ? 0 : registers.rsp - RED_ZONE;
}
#else
void put_arguments(pid_t thread, const u64 *arguments)
{
	(void)thread, (void)arguments;
}

bool put_first_argument(pid_t thread, u64 value)
{
	(void)thread, (void)value;
	return false;
}

void change_result(pid_t thread, u64 value)
{
	(void)thread, (void)value;
}

u64 below_stack(pid_t thread)
{
	(void)thread;
	return 0;
}
#endif
