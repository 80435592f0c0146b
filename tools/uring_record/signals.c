#include "signals.h"

#include <signal.h>
#include <stdio.h>
#include <sys/time.h>

/* Between two ticks. */
enum { TICK_MICROSECONDS = 20000, MOST_CAME = 8 };

static pid_t command;
static volatile sig_atomic_t ticked, came_count, came[MOST_CAME], is_known[MOST_CAME];
static int passed;

/* Lets the clock tick until the recorder ends: it also wakes a waitpid(2) that began just as a
 * signal came. */
static void start_clock(void)
{
	const struct timeval step = { 0, TICK_MICROSECONDS };
	const struct itimerval each = { step, step };

	setitimer(ITIMER_REAL, &each, NULL);
}

/* A tick. */
static void tick(int number)
{
	(void)number;
	ticked = 1;
}

/* INT or TERM. What a terminal sends, the command has too. */
static void signal_came(int number, siginfo_t *info, void *context)
{
	(void)context;
	if (came_count < MOST_CAME) {
		is_known[came_count] = info->si_code == SI_KERNEL;
		came[came_count++] = number;
	}
	ticked = 1;
	start_clock();
}

void take_signals(pid_t of_command, bool has_clock)
{
	static const int taken[] = { SIGINT, SIGTERM };
	struct sigaction on_signal = { .sa_flags = SA_SIGINFO }, on_tick = { .sa_flags = 0 }, now;

	command = of_command;
	on_signal.sa_sigaction = signal_came;
	on_tick.sa_handler = tick;
	sigaction(SIGALRM, &on_tick, NULL);
	for (unsigned at = 0; at < sizeof taken / sizeof *taken; at++) {
		/* (one that is ignored is ignored by the command too) */
		if (!sigaction(taken[at], NULL, &now) && now.sa_handler != SIG_IGN)
			sigaction(taken[at], &on_signal, NULL);
	}
	if (has_clock)
		start_clock();
}

bool has_ticked(void)
{
	bool has = ticked;

	if (has)
		ticked = 0;
	return has;
}

int pass_signals(void)
{
	for (; passed < came_count; passed++) {
		int number = came[passed];
		if (passed)
			return number;
		fprintf(stderr,
			"uring_record: signal %d: passed on to the command; the next one ends the "
			"recording at once\n",
			number);
		if (!is_known[passed])
			kill(command, number);
	}
	return 0;
}
