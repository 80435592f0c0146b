#include "numbers.h"
#include "trace.h"

#include <errno.h>
#include <fcntl.h>
#include <stdlib.h>
#include <string.h>
#include <sys/resource.h>
#include <unistd.h>

/* The player's own numbers are from the first on, and of them some are kept free: a tree that is
 * looked at takes one for each directory above. */
enum { FEWEST = 64, KEPT_FREE = 10000 };

static struct rlimit ample;
static FILE *output;
/* Results wait in memory, so that a reader who does not read holds nothing else up. */
static FILE *results;
static char *results_text;
static size_t results_length;

/* The lowest number that is none of the trace's. */
static int lowest_own(void)
{
	return trace.table_size > FEWEST ? (int)trace.table_size : FEWEST;
}

int try_move_up(int descriptor)
{
	if (descriptor < 0)
		return -1;
	int moved = fcntl(descriptor, F_DUPFD_CLOEXEC, lowest_own()), error = errno;
	close(descriptor);
	errno = error;
	return moved;
}

int move_up(int descriptor)
{
	int moved = try_move_up(descriptor);

	if (descriptor >= 0 && moved < 0)
		die("there are no more descriptors: %s", strerror(errno));
	return moved;
}

u64 most_held(void)
{
	u64 own = ample.rlim_cur - (rlim_t)lowest_own();

	return own - min64(own / 2, KEPT_FREE);
}

void prepare_numbers(void)
{
	if (getrlimit(RLIMIT_NOFILE, &ample))
		die("the limit of open files: %s", strerror(errno));
	ample.rlim_cur = ample.rlim_max;
	if (setrlimit(RLIMIT_NOFILE, &ample))
		die("the limit of open files: %s", strerror(errno));
	if (ample.rlim_cur < (rlim_t)lowest_own() + FEWEST)
		die("at most %lu files may be open, which is too few",
		    (unsigned long)ample.rlim_cur);
	messages = fdopen(move_up(dup(STDERR_FILENO)), "w");
	if (messages)
		setvbuf(messages, NULL, _IOLBF, 0);
	int flags = O_WRONLY | O_CREAT | O_TRUNC | O_CLOEXEC;
	int opened = options.output ? open(options.output, flags, 0666) : dup(STDOUT_FILENO);
	if (opened < 0)
		die("%s: %s", options.output ? options.output : "standard output", strerror(errno));
	output = fdopen(move_up(opened), "w");
	results = open_memstream(&results_text, &results_length);
	if (!output || !results)
		die("there is no more memory");
}

FILE *results_file(void)
{
	return results;
}

void deliver_results(void)
{
	bool is_well = !ferror(results);

	if (fclose(results) || !is_well)
		die("there is no more memory");
	is_well = fwrite(results_text, 1, results_length, output) == results_length;
	if (fclose(output) || !is_well)
		die("the results cannot be written: %s", strerror(errno));
	free(results_text);
}

void leave_table(void)
{
	for (int number = 0; number < lowest_own(); number++)
		close(number);
}

void enter_table(const int *descriptions)
{
	leave_table();
	for (u32 number = 0; number < trace.table_size; number++) {
		u32 held = trace.table[number];
		if (held && dup2(descriptions[held - 1], (int)number) < 0)
			die("descriptor %u: %s", number, strerror(errno));
	}
	let_none_open();
}

void let_open(void)
{
	setrlimit(RLIMIT_NOFILE, &ample);
}

void let_none_open(void)
{
	struct rlimit none = { trace.table_size, ample.rlim_max };

	setrlimit(RLIMIT_NOFILE, &none);
}
