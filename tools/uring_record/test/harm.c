/* Programs that a recorder must not harm: harm MODE [WORD ..], in an empty directory.
 *
 * Each ends by itself with 0, and writes what it found. Ends with 77 where the kernel lacks what a
 * mode needs. */
#include "raw.h"

#include <linux/sched.h>
#include <pthread.h>
#include <signal.h>
#include <sys/file.h>
#include <sys/resource.h>
#include <sys/socket.h>
#include <sys/wait.h>

static struct ring ring;
static int file; /* "a", with a block of bytes */
static char block[1 << 16];
static char **words; /* behind the mode */
static int is_over;  /* of what other threads do */

/* A number among the words. */
static unsigned number(unsigned at)
{
	return words[at] ? (unsigned)atoi(words[at]) : 0;
}

/* Writes a word through a ring, and reads it. */
static void write_and_read(struct ring *of)
{
	char read[5] = "";

	add(of, OP_WRITE, file, "word", 4, 0);
	expect("a write", run_one(of), 4);
	add(of, OP_READ, file, read, 4, 0);
	expect("a read", run_one(of), 4);
	if (strcmp(read, "word"))
		fail("what was read");
}

/* So many rings, one after another or, with a second word, side by side. */
static void rings(void)
{
	struct rlimit limit;

	if (!getrlimit(RLIMIT_NOFILE, &limit)) {
		limit.rlim_cur = limit.rlim_max;
		setrlimit(RLIMIT_NOFILE, &limit);
	}
	for (unsigned at = 0; at < number(0); at++) {
		struct ring one;
		open_ring(&one, 4, 0);
		write_and_read(&one);
		if (words[1])
			continue;
		munmap(one.sq_tail - 1, 4096);
		munmap(one.sqes, 4096);
		close(one.descriptor);
	}
}

/* The write end of a pipe or of a pair of sockets, in a slot of a ring that is closed (and that is
 * not mapped, so that it ends then): the read end sees the end. */
static void last_end(void)
{
	struct io_uring_params params = { 0 };
	int ends[2], of = (int)syscall(SYS_io_uring_setup, 4, &params);
	char byte;

	write_and_read(&ring);
	if (words[0] ? socketpair(AF_UNIX, SOCK_STREAM, 0, ends) : pipe(ends))
		fail("pipe");
	if (syscall(SYS_io_uring_register, of, IORING_REGISTER_FILES, &ends[1], 1))
		fail("io_uring_register");
	write_and_read(&ring);
	close(ends[1]);
	close(of);
	printf("%zd bytes behind the last\n", read(ends[0], &byte, 1));
}

/* Entries that post nothing where they succeed, behind such that are submitted again as they are.
 */
static void quiet(void)
{
	char byte;
	struct io_uring_sqe *sqe = add(&ring, OP_READ, file, &byte, 1, 0);
	struct io_uring_sqe kept = *sqe;

	expect("a read", run_one(&ring), 1);
	for (unsigned at = 0; at < 3; at++) {
		struct io_uring_sqe *again = add(&ring, OP_NOP, 0, NULL, 0, 0);
		*again = kept;
		add(&ring, OP_FSYNC, file, NULL, 0, 0)->flags = FLAG_ASYNC;
		submit(&ring, 2);
		expect("a read again", take(&ring) + take(&ring), 1);
		printf("flags %x and %x\n", sqe->flags, again->flags);
	}
	for (unsigned at = 0; at < 3; at++) {
		add(&ring, OP_WRITE, file, "word", 4, 0)->flags = FLAG_SKIP;
		add(&ring, OP_READ, file, &byte, 1, 0);
		expect("a read behind a write that posts nothing", run_one(&ring), 1);
	}
}

static unsigned taken;
enum { READS = 200 };

/* Takes the completions of READS reads: waits for each, or looks for it. */
static void *take_all(void *waits)
{
	while (taken < READS) {
		if (waits && syscall(SYS_io_uring_enter, ring.descriptor, 0, 1,
				     IORING_ENTER_GETEVENTS, NULL, 0))
			fail("io_uring_enter");
		unsigned tail = __atomic_load_n(ring.cq_tail, __ATOMIC_ACQUIRE);
		taken += tail - *ring.cq_head;
		__atomic_store_n(ring.cq_head, tail, __ATOMIC_RELEASE);
	}
	return NULL;
}

/* One thread submits, and another one takes what comes. */
static void two_threads(void)
{
	pthread_t thread;

	pthread_create(&thread, NULL, take_all, words[0] ? &ring : NULL);
	for (unsigned at = 0; at < READS; at++) {
		struct io_uring_sqe *sqe = add(&ring, OP_READ, file, block, 64, 0);
		sqe->flags = FLAG_ASYNC;
		submit(&ring, 0);
	}
	pthread_join(thread, NULL);
	printf("%u taken\n", taken);
}

/* So many entries of an opcode in one call; with a third word all have one user_data. */
static void at_once(void)
{
	static char bytes[1 << 22];

	open_ring(&ring, number(0), 0);
	for (unsigned at = 0; at < number(0); at++) {
		struct io_uring_sqe *sqe = add(&ring, (unsigned char)number(1), file,
					       bytes + 64 * (at % (1 << 16)), 64, 64 * at);
		if (words[2])
			sqe->user_data = 7;
	}
	submit(&ring, number(0));
}

/* The errors of rings with SQPOLL, and a submission by a thread that did not make its ring. */
static void sqpoll(void)
{
	static const unsigned cases[][3] = {
		{ IORING_SETUP_SQ_AFF, 0, 0 },
		{ IORING_SETUP_SQPOLL | IORING_SETUP_SQ_AFF, 1000000, 0 },
		{ IORING_SETUP_SQPOLL | (1U << 8), 0, 0 },
		{ IORING_SETUP_SQPOLL | SETUP_SINGLE_ISSUER | (1U << 13), 0, 0 },
		{ IORING_SETUP_SQPOLL | IORING_SETUP_ATTACH_WQ, 0, 999 },
		{ IORING_SETUP_SQPOLL | IORING_SETUP_ATTACH_WQ, 0, 1 },
		{ IORING_SETUP_SQPOLL | (1U << 31), 0, 0 },
		{ IORING_SETUP_SQPOLL, 0, 0 },
	};

	for (unsigned at = 0; at < sizeof cases / sizeof *cases; at++) {
		struct io_uring_params params = { .flags = cases[at][0] };
		params.sq_thread_cpu = cases[at][1];
		params.wq_fd = cases[at][2];
		long made = syscall(SYS_io_uring_setup, 4, &params);
		printf("flags %x: %d, then %x\n", cases[at][0], made < 0 ? errno : 0, params.flags);
	}
}

/* Writes through a ring with SQPOLL, whose thread may sleep. */
static void *writes(void *given)
{
	struct ring *of = given;

	add(of, OP_WRITE, file, "word", 4, 0);
	__atomic_store_n(of->sq_tail, *of->sq_tail + 1, __ATOMIC_SEQ_CST);
	if (syscall(SYS_io_uring_enter, of->descriptor, 1, 1,
		    IORING_ENTER_GETEVENTS | IORING_ENTER_SQ_WAKEUP, NULL, 0) != 1)
		fail("io_uring_enter");
	return of;
}

static void another_issuer(void)
{
	struct ring polled;
	pthread_t thread;

	open_ring(&polled, 4, IORING_SETUP_SQPOLL | SETUP_SINGLE_ISSUER);
	pthread_create(&thread, NULL, writes, &polled);
	pthread_join(thread, NULL);
	printf("%d\n", take(&polled));
}

/* Writes so many blocks, each behind the last; then says so. */
static void blocks(void)
{
	memset(block, 'b', sizeof block);
	for (unsigned at = 0; at < number(0); at++) {
		add(&ring, OP_WRITE, file, block, sizeof block, (uint64_t)at * sizeof block);
		expect("a write", run_one(&ring), sizeof block);
	}
	puts("all written");
}

/* So many entries, a queue of them at a time. */
static void places(void)
{
	enum { AT_ONCE = 4096 };

	open_ring(&ring, AT_ONCE, 0);
	for (unsigned at = 0; at < number(0); at += AT_ONCE) {
		for (unsigned in = 0; in < AT_ONCE; in++)
			add(&ring, OP_NOP, 0, NULL, 0, 0);
		submit(&ring, AT_ONCE);
		*ring.cq_head = *ring.cq_tail;
	}
	puts("all done");
}

/* Uses some of the files of the start: opens one by a call and one by the ring, renames one, links
 * one. */
static void touches(void)
{
	char byte[2] = "";
	int opened = open("opened", O_RDONLY);

	add(&ring, OP_READ, opened, byte, 1, 0);
	expect("a read", run_one(&ring), 1);
	add(&ring, OP_OPENAT, AT_FDCWD, "by_ring", 0, 0)->open_flags = O_RDONLY;
	int number = run_one(&ring);
	add(&ring, OP_READ, number, byte + 1, 1, 0);
	expect("a read", run_one(&ring), 1);
	add(&ring, OP_RENAMEAT, AT_FDCWD, "renamed", (unsigned)AT_FDCWD,
	    (uint64_t)(uintptr_t) "new");
	expect("a rename", run_one(&ring), 0);
	add(&ring, OP_LINKAT, AT_FDCWD, "linked", (unsigned)AT_FDCWD, (uint64_t)(uintptr_t) "link");
	expect("a link", run_one(&ring), 0);
	if (rename("by_call", "by_call2") || link("by_link", "by_link2"))
		fail("rename");
}

/* A file that is written through the ring and by a call, closed, and locked by another description.
 */
static void locks(void)
{
	struct flock whole = { .l_type = F_WRLCK };

	for (unsigned at = 0; at < 4; at++) {
		int opened = open("lock", O_RDWR | O_CREAT, 0644);
		if (at < 2 ? flock(opened, LOCK_EX | LOCK_NB) : fcntl(opened, F_OFD_SETLK, &whole))
			printf("locked: %s\n", strerror(errno));
		add(&ring, OP_WRITE, opened, "x", 1, at);
		expect("a write", run_one(&ring), 1);
		if (write(opened, "y", 1) != 1)
			fail("write");
		close(opened);
	}
}

/* Programs that were written through the ring and by calls, and closed. */
static void executes(void)
{
	static char program[1 << 20];
	int from = open("/bin/true", O_RDONLY);
	ssize_t length = read(from, program, sizeof program);

	for (unsigned at = 0; at < 4; at++) {
		int to = open(at & 1 ? "one" : "other", O_WRONLY | O_CREAT | O_TRUNC, 0755),
		    status = -1;
		if (at < 2) {
			add(&ring, OP_WRITE, to, program, (unsigned)length, 0);
			expect("a write", run_one(&ring), (int)length);
		} else if (write(to, program, (size_t)length) != length) {
			fail("write");
		}
		close(to);
		pid_t made = fork();
		if (!made) {
			execl(at & 1 ? "./one" : "./other", "true", (char *)NULL);
			_exit(errno);
		}
		waitpid(made, &status, 0);
		printf("ended with %x\n", (unsigned)status);
	}
}

/* Makes, fills and moves a file by calls, until all is over. */
static void *changes_files(void *of)
{
	char name[16], other[16];

	snprintf(name, sizeof name, "file%d", *(int *)of);
	snprintf(other, sizeof other, "other%d", *(int *)of);
	while (!__atomic_load_n(&is_over, __ATOMIC_RELAXED)) {
		int opened = open(name, O_WRONLY | O_CREAT | O_APPEND, 0644);
		if (opened < 0 || write(opened, "some bytes", 10) != 10 || rename(name, other) ||
		    rename(other, name))
			fail("calls");
		close(opened);
	}
	return NULL;
}

/* The first entry is submitted while threads change the tree. */
static void meanwhile(void)
{
	enum { THREADS = 3, FILES = 100 };
	pthread_t threads[THREADS];
	int numbers[THREADS] = { 0, 1, 2 };
	char name[16];

	for (unsigned at = 0; at < FILES; at++) {
		snprintf(name, sizeof name, "e%u", at);
		close(open(name, O_WRONLY | O_CREAT, 0644));
	}
	for (unsigned at = 0; at < THREADS; at++)
		pthread_create(&threads[at], NULL, changes_files, &numbers[at]);
	usleep(20000);
	write_and_read(&ring);
	usleep(5000);
	__atomic_store_n(&is_over, 1, __ATOMIC_RELAXED);
	for (unsigned at = 0; at < THREADS; at++)
		pthread_join(threads[at], NULL);
}

#ifdef __x86_64__
/* The kernel leaves the registers of a call as they were, and compilers know. */
static void registers(void)
{
	register long three __asm__("r10") = 0, four __asm__("r8") = 0, five __asm__("r9") = 77;
	long one = 1, two = 0, result;

	add(&ring, OP_READ, file, block, 64, 0)->flags = FLAG_ASYNC;
	__atomic_store_n(ring.sq_tail, *ring.sq_tail + 1, __ATOMIC_RELEASE);
	__asm__ volatile("syscall"
			 : "=a"(result), "+S"(one), "+d"(two), "+r"(three), "+r"(four), "+r"(five)
			 : "0"(SYS_io_uring_enter), "D"(ring.descriptor)
			 : "rcx", "r11", "memory");
	printf("%ld: %ld %ld %ld %ld %ld\n", result, one, two, three, four, five);
}

/* Makes a call with two arguments, and tells whether the first one's register and the memory below
 * the stack are as they were then. */
static long call_untouched(long number, long first, long second, bool *is_untouched)
{
	long result, kept, differs;

	__asm__ volatile("lea -1024(%%rsp), %%rdi\n\t"
			 "mov $896, %%ecx\n\t"
			 "mov $0x5a, %%al\n\t"
			 "rep stosb\n\t"
			 "mov %[first], %%rdi\n\t"
			 "mov %[second], %%rsi\n\t"
			 "mov %[number], %%rax\n\t"
			 "xor %%edx, %%edx\n\t"
			 "syscall\n\t"
			 "mov %%rax, %[result]\n\t"
			 "mov %%rdi, %[kept]\n\t"
			 "lea -1024(%%rsp), %%rdi\n\t"
			 "mov $896, %%ecx\n\t"
			 "mov $0x5a, %%al\n\t"
			 "xor %%esi, %%esi\n\t"
			 "repe scasb\n\t"
			 "setne %%sil\n\t"
			 "mov %%rsi, %[differs]"
			 : [result] "=&r"(result), [kept] "=&r"(kept), [differs] "=&r"(differs)
			 : [number] "r"(number), [first] "r"(first), [second] "r"(second)
			 : "rax", "rcx", "rdx", "rsi", "rdi", "r11", "memory");
	*is_untouched = kept == first && !differs;
	return result;
}

/* A child that is to have no tracer: it writes to a file, and ends. */
static void has_child(const char *name, long number, long first, long second)
{
	bool is_untouched;
	long child = call_untouched(number, first, second, &is_untouched);
	int status = -1;

	if (!child) {
		int made = open(name, O_WRONLY | O_CREAT, 0644);
		syscall(SYS_exit_group, made >= 0 && write(made, name, 5) == 5 ? is_untouched : 9);
	}
	waitpid((pid_t)child, &status, __WALL);
	printf("%s: %x %d\n", name, (unsigned)status, is_untouched);
}

/* Watches the arguments of a call, until all is over. */
static void *watches(void *arguments)
{
	const volatile struct clone_args *of = arguments;
	static long changes;

	while (!__atomic_load_n(&is_over, __ATOMIC_RELAXED))
		changes += of->flags != CLONE_UNTRACED;
	return &changes;
}

/* Children that are to have no tracer, by arguments that are watched and cannot be written. */
static void untraced(void)
{
	enum { CHILDREN = 50 };
	struct clone_args *arguments =
		mmap(NULL, 4096, PROT_READ | PROT_WRITE, MAP_PRIVATE | MAP_ANONYMOUS, -1, 0);
	pthread_t thread;
	void *changes;

	write_and_read(&ring);
	has_child("child by clone", SYS_clone, CLONE_UNTRACED | SIGCHLD, 0);
	has_child("child by vfork", SYS_clone, CLONE_UNTRACED | CLONE_VFORK | SIGCHLD, 0);
	arguments->flags = CLONE_UNTRACED;
	arguments->exit_signal = SIGCHLD;
	has_child("child by clone3", SYS_clone3, (long)arguments, sizeof *arguments);
	has_child("child that is refused", SYS_clone3, (long)arguments, 8);
	mprotect(arguments, 4096, PROT_READ);
	pthread_create(&thread, NULL, watches, arguments);
	for (unsigned at = 0; at < CHILDREN; at++)
		has_child("child by clone3 again", SYS_clone3, (long)arguments, sizeof *arguments);
	__atomic_store_n(&is_over, 1, __ATOMIC_RELAXED);
	pthread_join(thread, &changes);
	printf("%ld changes\n", *(long *)changes);
	write_and_read(&ring);
}
#else
static void registers(void)
{
	exit(UNTRIED);
}

static void untraced(void)
{
	exit(UNTRIED);
}
#endif

static const struct mode modes[] = {
	{ "rings", rings },	    { "last-end", last_end }, { "two-threads", two_threads },
	{ "at-once", at_once },	    { "sqpoll", sqpoll },     { "another-issuer", another_issuer },
	{ "blocks", blocks },	    { "places", places },     { "touches", touches },
	{ "registers", registers }, { "locks", locks },	      { "executes", executes },
	{ "meanwhile", meanwhile }, { "untraced", untraced }, { "quiet", quiet },
};

int main(int count, char **given)
{
	if (count < 2)
		return 1;
	words = given + 2;
	alarm(60);
	open_ring(&ring, 256, 0);
	file = open("a", O_RDWR | O_CREAT, 0644);
	if (file < 0 || write(file, block, 4096) != 4096)
		fail("a");
	return run_mode(modes, sizeof modes / sizeof *modes, given[1]) ? 0 : 1;
}
