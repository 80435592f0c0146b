#include "watch.h"

#include <pthread.h>
#include <signal.h>
#include <stdatomic.h>
#include <string.h>
#include <time.h>
#include <unistd.h>

enum { SPARE_SECONDS = 5, LOOKS_A_SECOND = 5 };

static atomic_ulong steps;
static volatile sig_atomic_t caught;

static void catch (int number)
{
	caught = number;
}

void heed_signals(void)
{
	struct sigaction action = { .sa_handler = catch };

	sigaction(SIGINT, &action, NULL);
	sigaction(SIGTERM, &action, NULL);
	sigaction(SIGHUP, &action, NULL);
	signal(SIGPIPE, SIG_IGN);
	signal(SIGXFSZ, SIG_IGN);
}

/* Looks whether the player goes on. The thread takes no signal and no lock. */
static void *look(void *nothing)
{
	static const char text[] = "uring_play: an ordinary call hangs\n";
	const struct timespec pause = { 0, 1000000000 / LOOKS_A_SECOND };
	const u32 most = (options.patience + SPARE_SECONDS) * LOOKS_A_SECOND;
	unsigned long seen = atomic_load(&steps);

	for (u32 idle = 0; idle <= most; idle++) {
		nanosleep(&pause, NULL);
		unsigned long there = atomic_load(&steps);
		if (there != seen)
			idle = 0;
		seen = there;
	}
	if (write(fileno(messages ? messages : stderr), text, sizeof text - 1) < 0)
		_exit(STATUS_FAILED);
	_exit(STATUS_FAILED);
	return nothing;
}

void watch(void)
{
	sigset_t all, before;
	pthread_t thread;

	sigfillset(&all);
	pthread_sigmask(SIG_SETMASK, &all, &before);
	int fault = pthread_create(&thread, NULL, look, NULL);
	pthread_sigmask(SIG_SETMASK, &before, NULL);
	if (fault)
		die("there is no thread to watch: %s", strerror(fault));
	pthread_detach(thread);
}

void go_on(void)
{
	int number = caught;

	atomic_fetch_add(&steps, 1);
	if (!number || !at_death)
		return;
	/* What the signal would have done, once the directory is gone. */
	void (*before)(void) = at_death;
	at_death = NULL;
	before();
	signal(number, SIG_DFL);
	raise(number);
}
