/* uring_play: plays a trace (docs/FORMAT.md) on this kernel and a file system, and writes what they
 * gave.
 *
 * docs/PLAYING.md says how it is used, README.md how it works. */
#include "answers.h"
#include "calls.h"
#include "depends.h"
#include "figures.h"
#include "fill.h"
#include "flight.h"
#include "keeper.h"
#include "lacks.h"
#include "numbers.h"
#include "pieces.h"
#include "play.h"
#include "registered.h"
#include "results.h"
#include "rings.h"
#include "trace.h"
#include "tree.h"
#include "watch.h"

#include <errno.h>
#include <fcntl.h>
#include <getopt.h>
#include <stdlib.h>
#include <string.h>
#include <sys/prctl.h>
#include <sys/resource.h>
#include <sys/stat.h>

enum { MOST_PATIENCE = 86400 };

static const char version[] = "uring_play 0.1.0\n"
			      "trace formats 1, 2 and 3\n"
			      "report formats 1 and 2\n";

static const char help[] =
	"Usage: uring_play [OPTION..] [TRACE]\n"
	"\n"
	"Plays a trace through io_uring in a fresh directory, and writes what the kernel gave.\n"
	"TRACE is standard input if it is left out.\n"
	"\n"
	"  -d, --directory FOLDER  where the fresh directory is made (the working directory)\n"
	"  -e, --expected FILE     the report of the replay: where Linux is known to differ,\n"
	"                          entries are skipped or corrected, and marked unchecked\n"
	"  -r, --rounds FILE       the text of uring_replay rounds: each round is submitted at\n"
	"                          once (needs --expected)\n"
	"  -D, --depends FILE      the text of uring_replay depends: each chain starts once all\n"
	"                          that it waits for has finished (needs --expected)\n"
	"  -i, --in-flight N       how many chains are in flight at once, 1 to 4096 (64; needs\n"
	"                          --depends)\n"
	"  -t, --pace FILE         results with submitted=, of a recording or of a play: no entry\n"
	"                          is submitted before its time (needs --depends)\n"
	"  -a, --async             each entry runs in a thread of the kernel's\n"
	"  -s, --strict            results that are as right as the expected ones are compared\n"
	"  -o, --output FILE       the results (standard output)\n"
	"  -p, --patience SECONDS  how long a completion is waited for, 1 to 86400 (30)\n"
	"  -k, --keep              the directory is left as it is\n"
	"  -q, --quiet             no summary\n"
	"  -j, --json              the summary is a line of JSON (needs --depends)\n"
	"      --prepare           the tree is laid out, its directory is told, and nothing is\n"
	"                          played\n"
	"      --prepared          --directory has the tree already: it is played in it itself\n"
	"      --lacking OPCODE    taken as one that the kernel lacks; may be given again\n"
	"      --no-nodes          no file is held, and no node is told\n"
	"      --no-limit          files may have more than 2^40 bytes\n"
	"      --no-read-sums      no sum of what a read brought is told\n"
	"      --raw               entries are played as they stand, with the fields that the\n"
	"                          profile does not look at (without --expected; needs chroot)\n"
	"  -h, --help              this text\n"
	"      --version           the version\n"
	"\n"
	"The exit status is 0 where the trace was played, 1 where it is refused, 2 for an\n"
	"invalid command line, 77 where the system does not give what a play needs, and 3 for\n"
	"any other fault.\n";

enum word { PREPARE = 256, PREPARED, LACKING, NO_NODES, NO_LIMIT, NO_READ_SUMS, RAW, VERSION };

static const struct option long_options[] = {
	{ "directory", required_argument, NULL, 'd' },
	{ "expected", required_argument, NULL, 'e' },
	{ "rounds", required_argument, NULL, 'r' },
	{ "depends", required_argument, NULL, 'D' },
	{ "in-flight", required_argument, NULL, 'i' },
	{ "pace", required_argument, NULL, 't' },
	{ "json", no_argument, NULL, 'j' },
	{ "async", no_argument, NULL, 'a' },
	{ "strict", no_argument, NULL, 's' },
	{ "output", required_argument, NULL, 'o' },
	{ "patience", required_argument, NULL, 'p' },
	{ "keep", no_argument, NULL, 'k' },
	{ "quiet", no_argument, NULL, 'q' },
	{ "prepare", no_argument, NULL, PREPARE },
	{ "prepared", no_argument, NULL, PREPARED },
	{ "lacking", required_argument, NULL, LACKING },
	{ "no-nodes", no_argument, NULL, NO_NODES },
	{ "no-limit", no_argument, NULL, NO_LIMIT },
	{ "no-read-sums", no_argument, NULL, NO_READ_SUMS },
	{ "raw", no_argument, NULL, RAW },
	{ "help", no_argument, NULL, 'h' },
	{ "version", no_argument, NULL, VERSION },
	{ NULL, 0, NULL, 0 },
};

/* --- Words --------------------------------------------------------------------------------------
 */

static bool *switch_of(int word)
{
	switch (word) {
	case 'a':
		return &options.async;
	case 's':
		return &options.strict;
	case 'k':
		return &options.keep;
	case 'q':
		return &options.quiet;
	case 'j':
		return &options.json;
	case PREPARE:
		return &options.prepare;
	case PREPARED:
		return &options.prepared;
	case NO_NODES:
		return &options.no_nodes;
	case NO_LIMIT:
		return &options.no_limit;
	case NO_READ_SUMS:
		return &options.no_sums;
	case RAW:
		return &options.raw;
	default:
		return NULL;
	}
}

static const char **file_of(int word)
{
	switch (word) {
	case 'd':
		return &options.directory;
	case 'e':
		return &options.expected;
	case 'r':
		return &options.rounds;
	case 'D':
		return &options.depends;
	case 't':
		return &options.pace;
	case 'o':
		return &options.output;
	default:
		return NULL;
	}
}

/* The number that a word is, or the end of the player. */
static u32 take_number(const char *option, const char *word, u32 least, u32 most)
{
	char *end;
	unsigned long number = strtoul(word, &end, 10);

	if (*word < '0' || *word > '9' || *end || number < least || number > most)
		die_with(STATUS_WORDS, "%s takes a number from %u to %u", option, least, most);
	return (u32)number;
}

static void __attribute__((noreturn)) tell(const char *text)
{
	exit(fputs(text, stdout) < 0 || fflush(stdout) ? STATUS_FAILED : 0);
}

static void take_option(int word)
{
	if (switch_of(word))
		*switch_of(word) = true;
	else if (file_of(word))
		*file_of(word) = optarg;
	else if (word == 'p')
		options.patience = take_number("--patience", optarg, 1, MOST_PATIENCE);
	else if (word == 'i')
		options.in_flight = take_number("--in-flight", optarg, 1, MOST_AT_ONCE);
	else if (word == LACKING)
		options.lacking[take_number("--lacking", optarg, 0, OPCODES - 1)] = true;
	else if (word == 'h')
		tell(help);
	else if (word == VERSION)
		tell(version);
	else
		die_with(STATUS_WORDS, "try uring_play --help");
}

/* Ends the player where options do not go together. */
static void test_options(bool is_number_given)
{
	if (options.rounds && options.depends)
		die_with(STATUS_WORDS, "--rounds and --depends do not go together");
	if ((options.rounds || options.depends) && !options.expected)
		die_with(STATUS_WORDS, "%s needs --expected",
			 options.rounds ? "--rounds" : "--depends");
	if ((is_number_given || options.pace || options.json) && !options.depends)
		die_with(STATUS_WORDS, "%s needs --depends",
			 is_number_given ? "--in-flight"
			 : options.pace	 ? "--pace"
					 : "--json");
	if (options.json && options.quiet)
		die_with(STATUS_WORDS, "--json and --quiet do not go together");
	if (options.raw && options.expected)
		die_with(STATUS_WORDS, "--raw goes without --expected");
	if (options.prepare && options.prepared)
		die_with(STATUS_WORDS, "--prepare and --prepared do not go together");
}

static void take_words(int count, char **words)
{
	bool is_number_given = false;
	int word;

	while ((word = getopt_long(count, words, "d:e:r:D:i:t:aso:p:kqjh", long_options, NULL)) !=
	       -1) {
		is_number_given |= word == 'i';
		take_option(word);
	}
	if (count - optind > 1)
		die_with(STATUS_WORDS, "there is more than one trace; try uring_play --help");
	options.trace = optind < count ? words[optind] : NULL;
	test_options(is_number_given);
}

/* --- The order of things ------------------------------------------------------------------------
 */

/* What is said of the order of the places. */
static struct {
	u32 *rounds, round_count;
	struct waits waits;
	u64 *times;
} order;

static void read_inputs(void)
{
	u64 length;
	u8 *bytes = read_whole(options.trace, MOST_BYTES, &length);

	read_trace(bytes, length);
	if (options.expected)
		read_expected(options.expected);
	if (options.rounds)
		order.rounds = read_rounds(options.rounds, &order.round_count);
	if (options.depends)
		order.waits = read_depends(options.depends);
	if (options.pace)
		order.times = read_times(options.pace);
}

/* How many entries a ring has to take at once at least, beside its longest record. */
static u32 most_at_once(void)
{
	if (options.rounds)
		return widest_of(order.rounds, order.round_count);
	return options.depends ? (u32)min64(options.in_flight, trace.places) : 0;
}

/* Opens the descriptions of the trace. */
static int *open_descriptions(void)
{
	int *opened = allocate(trace.description_count * sizeof *opened);

	for (u32 at = 0; at < trace.description_count; at++) {
		const struct description *it = &trace.descriptions[at];
		int flags = it->access == 0 ? O_RDONLY : it->access == 1 ? O_WRONLY : O_RDWR;
		go_on();
		opened[at] = move_up(open_item(it->node, flags | (it->append ? O_APPEND : 0)));
		if (!put_position(opened[at], it->position))
			say("description %u: its position cannot be had: %s", at, strerror(errno));
	}
	return opened;
}

static void limit_sizes(void)
{
	struct rlimit limit;

	if (options.no_limit || getrlimit(RLIMIT_FSIZE, &limit))
		return;
	limit.rlim_cur = min64(GREATEST_SIZE, limit.rlim_max);
	if (setrlimit(RLIMIT_FSIZE, &limit))
		die("the limit of file sizes: %s", strerror(errno));
}

static void play(void)
{
	if (options.rounds)
		play_rounds(order.rounds, order.round_count);
	else if (options.depends)
		play_in_flight(&order.waits, order.times);
	else
		play_chains();
	counts.seconds = (double)play_time() * 1e-9;
}

/* Where rings are no records of the trace, they are there from the start on. */
static void make_first_rings(void)
{
	for (u32 ring = 0; ring < trace.ring_count && !has_ring_records(); ring++) {
		make_ring(ring);
		fill_slots(ring);
	}
}

/* Makes all that the trace starts with. */
static void set_the_scene(void)
{
	prepare_rings(most_at_once());
	try_kernel();
	if (options.async)
		try_threads();
	end_own_ring();
	if (options.depends)
		watch_rings();
	if (options.pace)
		prctl(PR_SET_TIMERSLACK, 1UL);
	try_file_system();
	lay_out();
	int *descriptions = open_descriptions();
	hold_descriptions(descriptions);
	make_first_rings();
	prepare_memory();
	limit_sizes();
	enter_table(descriptions);
	let_descriptions_go();
}

/* Plays the trace, one chain at a time, in rounds or in flight. */
int main(int count, char **words)
{
	take_words(count, words);
	umask(022);
	read_inputs();
	prepare_numbers();
	heed_signals();
	enter_directory();
	if (options.depends)
		start_keeper();
	watch();
	if (options.prepare) {
		lay_out();
		fprintf(results_file(), "%s\n", laid_out_at());
		deliver_results();
		return 0;
	}
	set_the_scene();
	play();
	let_open();
	write_results();
	close_rings();
	leave_table();
	take_away();
	deliver_results();
	write_summary(order.times);
	return 0;
}
