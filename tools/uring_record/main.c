/* uring_record: runs a command, and writes what it submits through io_uring as a trace
 * (docs/FORMAT.md).
 *
 * docs/RECORDING.md says how it is used and what is told faithfully, README.md how it works. */
#include "aside.h"
#include "notes.h"
#include "output.h"
#include "paths.h"
#include "rings.h"
#include "start.h"
#include "stream.h"
#include "tracer.h"

#include <errno.h>
#include <getopt.h>
#include <stdio.h>
#include <stdlib.h>
#include <string.h>

static const char help[] =
	"Usage: uring_record [OPTION..] [--] COMMAND [ARGUMENT..]\n"
	"\n"
	"Runs a command, and writes what it submits through io_uring as a trace for uring_replay.\n"
	"\n"
	"  -o, --output FILE    the trace (uring.trace); - for standard output: the command's own "
	"goes to\n"
	"                       standard error then\n"
	"  -k, --results FILE   the kernel's results, to compare the replay's report with\n"
	"  -r, --root FOLDER    the root of the trace's tree (the working directory)\n"
	"      --format N       the version of the format: 3 (if left out), written as the command "
	"runs;\n"
	"                       2, written when it has ended; or 1, where ordinary descriptors "
	"become\n"
	"                       slots 512 and up\n"
	"  -1, --version-1      the same as --format 1\n"
	"  -n, --nop            an entry outside the profile is recorded as NOP, so that chains "
	"hold\n"
	"                       (with --format 2 or 1)\n"
	"  -d, --drain          each ring runs in recorded order: the kernel is given IO_DRAIN on "
	"each\n"
	"                       head of a chain (this is not recorded)\n"
	"  -w, --wait           each call waits for what it submits\n"
	"  -t, --touched        bytes of files that the command never opens, renames or links are "
	"not "
	"stored\n"
	"                       (with --format 2 or 1)\n"
	"      --no-data        no byte of data and no sum is told: all bytes are zeros in the "
	"trace\n"
	"  -l, --limit BYTES    the most bytes that the trace may have (without end; 1073741824 in "
	"versions\n"
	"                       1 and 2): there the recording ends, and the command runs on\n"
	"      --all-sums       the results have tree sums of files over 16 MiB\n"
	"      --no-read-sums   the results have no sums of what reads brought\n"
	"  -v, --verbose        what is not told faithfully is said as it comes up\n"
	"  -h, --help           this text\n"
	"  -V, --version        the versions of the format that it writes\n"
	"\n"
	"The exit status is the command's own (128 and the number of the signal that ended it); "
	"125 where\n"
	"the recorder failed, 126 where the command could not be run, 127 where it was not "
	"found.\n";

static const char version[] = "uring_record 1, for traces of versions 1, 2 and 3\n";

static const struct option long_options[] = {
	{ "output", required_argument, NULL, 'o' }, { "results", required_argument, NULL, 'k' },
	{ "root", required_argument, NULL, 'r' },   { "version-1", no_argument, NULL, '1' },
	{ "nop", no_argument, NULL, 'n' },	    { "drain", no_argument, NULL, 'd' },
	{ "wait", no_argument, NULL, 'w' },	    { "touched", no_argument, NULL, 't' },
	{ "limit", required_argument, NULL, 'l' },  { "verbose", no_argument, NULL, 'v' },
	{ "help", no_argument, NULL, 'h' },	    { "version", no_argument, NULL, 'V' },
	{ "all-sums", no_argument, NULL, 's' },	    { "no-data", no_argument, NULL, 'N' },
	{ "format", required_argument, NULL, 'f' }, { "no-read-sums", no_argument, NULL, 'S' },
	{ NULL, 0, NULL, 0 },
};

/* A trace may not be limited to less: its descriptions, table and rings are always there. */
enum { LEAST_LIMIT = 65536 };

/* Reads a number of bytes that a trace may have. */
static u64 read_limit(const char *text)
{
	char *end;

	errno = 0;
	u64 limit = strtoull(text, &end, 10);
	if (errno || *text < '0' || *text > '9' || *end || limit < LEAST_LIMIT)
		die("--limit is a number of bytes, 65536 or more, not %s", text);
	return limit;
}

/* Reads the version of the format. */
static unsigned read_format(const char *text)
{
	if (*text < '1' || *text > '3' || text[1])
		die("--format is 1, 2 or 3, not %s", text);
	return (unsigned)(*text - '0');
}

/* What options may not go together, once all are known; the limit of the format where none is
 * given. */
static void settle_options(void)
{
	if (options.format == 3 && options.touched)
		die("--touched needs --format 2: version 3 stores files before it is known which "
		    "are used");
	if (options.format == 3 && options.replace)
		die("--nop needs --format 2 or 1: version 3 gives the results of entries outside "
		    "the profile");
	if (options.no_data && (options.touched || options.all_sums))
		die("--no-data stores no bytes and tells no sums: leave out --touched and "
		    "--all-sums");
	if (options.format != 3 && options.limit > MOST_BYTES)
		die("--limit is at most 1073741824 for versions 1 and 2");
	if (!options.limit)
		options.limit = options.format == 3 ? UINT64_MAX : MOST_BYTES;
}

/* Says what was asked for; gives the status. */
static int say(const char *text)
{
	return fputs(text, stdout) < 0 || fflush(stdout) ? STATUS_FAILED : 0;
}

/* The option that a letter turns on, or NULL. */
static bool *switch_of(int letter)
{
	switch (letter) {
	case 'n':
		return &options.replace;
	case 'd':
		return &options.drain;
	case 'w':
		return &options.wait;
	case 't':
		return &options.touched;
	case 's':
		return &options.all_sums;
	case 'N':
		return &options.no_data;
	case 'S':
		return &options.no_read_sums;
	case 'v':
		return &options.verbose;
	default:
		return NULL;
	}
}

/* Takes one option; false for the end of the program, with its status. */
static bool take_option(int letter, int *status)
{
	bool *is_on = switch_of(letter);

	if (is_on) {
		*is_on = true;
		return true;
	}
	switch (letter) {
	case 'o':
		options.trace = optarg;
		return true;
	case '1':
		options.format = 1;
		return true;
	case 'f':
		options.format = read_format(optarg);
		return true;
	case 'k':
		options.results = optarg;
		return true;
	case 'r':
		options.root = optarg;
		return true;
	case 'l':
		options.limit = read_limit(optarg);
		return true;
	case 'h':
		*status = say(help);
		return false;
	case 'V':
		*status = say(version);
		return false;
	default:
		fputs("uring_record: try uring_record --help\n", stderr);
		*status = STATUS_FAILED;
		return false;
	}
}

/* Writes a trace of version 1 or 2, and its results. */
static void write_as_whole(const struct final_tree *tree)
{
	u64 bytes = write_both(tree), places = number_places();

	for (u64 at = 0; at < trace.record_count; at++)
		count_outside(trace.records[at]);
	summary(places, bytes, ring_count);
}

/* Writes what is left of a trace of version 3, and of its results. */
static void end_as_stream(const struct final_tree *tree)
{
	u64 bytes = end_stream(tree);

	summary(trace.gone_places, bytes, trace.ring_numbers);
}

/* Reads the options, runs the command, and writes what came of it. */
int main(int count, char **words)
{
	int letter, status = 0;
	bool has_run;

	while ((letter = getopt_long(count, words, "+o:k:r:1ndwtl:vhV", long_options, NULL)) !=
	       -1) {
		if (!take_option(letter, &status))
			return status;
	}
	if (optind == count)
		die("there is no command; try uring_record --help");
	settle_options();
	set_root(options.root);
	try_output(options.trace);
	if (options.results)
		try_output(options.results);
	status = run_command(words + optind, &has_run);
	if (!has_run)
		return status;
	/* The tree is read before anything is written, which may be below the root. */
	start_without_submission();
	leave_unseen();
	bool is_told = !trace.is_lost && !trace.is_ended && !trace.has_no_tree;
	struct final_tree *tree = options.results && is_told ? read_final_tree() : NULL;
	if (options.format == 3)
		end_as_stream(tree);
	else
		write_as_whole(tree);
	return status;
}
