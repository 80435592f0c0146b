/* Programs that break what others keep to: bad MODE, in an empty directory.
 *
 * Each ends by itself, and must end in the same way when it is recorded. `bad` alone lists the
 * modes. Ends with 77 where the kernel lacks what a mode needs. */
#include "raw.h"

#include <linux/filter.h>
#include <linux/seccomp.h>
#include <pthread.h>
#include <sched.h>
#include <signal.h>
#include <sys/prctl.h>
#include <sys/resource.h>
#include <sys/stat.h>
#include <sys/uio.h>
#include <sys/wait.h>
#include <time.h>

enum { QUEUE = 8, BUFFER = 1 << 16 };

static char buffer[BUFFER];
static struct ring ring;
static int file; /* "a" */
static char **own_words;

/* Calls that may fail. */
static long enter(const struct ring *of, unsigned count, unsigned waited)
{
	return syscall(SYS_io_uring_enter, of->descriptor, count, waited,
		       waited ? IORING_ENTER_GETEVENTS : 0, NULL, 0);
}

static void registers(unsigned operation, const void *argument, unsigned count)
{
	(void)!syscall(SYS_io_uring_register, ring.descriptor, operation, argument, count);
}

/* Puts what was added into the queue, and does not submit it. */
static void publish(struct ring *of)
{
	__atomic_store_n(of->sq_tail, *of->sq_tail + of->added, __ATOMIC_RELEASE);
	of->added = 0;
}

/* Takes all completions. */
static void drain(struct ring *of)
{
	*of->cq_head = __atomic_load_n(of->cq_tail, __ATOMIC_ACQUIRE);
}

/* Submits what was added, waits for so many, and takes all. */
static void go(struct ring *of, unsigned waited)
{
	unsigned count = of->added;

	publish(of);
	enter(of, count, waited);
	drain(of);
}

/* A write of some bytes to "a". */
static struct io_uring_sqe *add_write(struct ring *of, const char *text, uint64_t at)
{
	return add(of, OP_WRITE, file, text, (unsigned)strlen(text), at);
}

/* A write and a read as they should be, on a ring of its own. */
static void well(void)
{
	struct ring good;

	open_ring(&good, 4, 0);
	add_write(&good, "good", 0);
	go(&good, 1);
	add(&good, OP_READ, file, buffer, 4, 0);
	go(&good, 1);
}

static unsigned drawn(unsigned below)
{
	return (unsigned)rand() % below;
}

/* Queues */

static void tail_too_far(void)
{
	add_write(&ring, "x", 0);
	publish(&ring);
	*ring.sq_tail += 1U << 20;
	enter(&ring, UINT32_MAX, 0);
	drain(&ring);
	*ring.sq_tail = ring.sq_tail[-1] - 5; /* (the head stands before the tail) */
	enter(&ring, 100, 0);
	*ring.sq_tail = ring.sq_tail[-1] + 0x80000000U;
	enter(&ring, INT32_MAX, 0);
	drain(&ring);
}

static void heads_and_tails(void)
{
	for (unsigned at = 0; at < 30; at++) {
		add_write(&ring, "x", at);
		publish(&ring);
		ring.sq_tail[-1] ^= (unsigned)rand();
		enter(&ring, 3, 0);
		*ring.cq_head = (unsigned)rand();
		*ring.cq_tail ^= (unsigned)rand();
	}
}

static void masks(void)
{
	for (unsigned at = 0; at < 30; at++) {
		*ring.sq_mask = *ring.cq_mask = QUEUE - 1;
		add_write(&ring, "x", at);
		*ring.sq_mask = *ring.cq_mask = UINT32_MAX;
		publish(&ring);
		enter(&ring, 1, 0);
	}
}

static void any_bytes(void)
{
	for (unsigned call = 0; call < 200; call++) {
		for (unsigned at = 0; at < QUEUE; at++) {
			struct io_uring_sqe *sqe = add(&ring, 0, 0, NULL, 0, 0);
			for (unsigned byte = 0; byte < sizeof *sqe; byte++)
				((unsigned char *)sqe)[byte] = (unsigned char)rand();
			sqe->opcode %= 64;
			sqe->fd = drawn(2) ? file : sqe->fd;
			if (!drawn(3))
				ring.array[(*ring.sq_tail + ring.added - 1) & (QUEUE - 1)] =
					drawn(2) ? drawn(QUEUE) : (unsigned)rand();
		}
		go(&ring, 0);
	}
}

/* An entry of the profile with fields that are drawn. */
static void add_drawn(struct ring *of)
{
	static const unsigned char opcodes[] = { 0,  1,	 2,  3,	 4,  5,	 17, 18,
						 19, 22, 23, 35, 36, 37, 39, 55 };
	static const char *const names[] = { "p1", "p2", "d/p1", "p3", "", "d" };
	unsigned char opcode = opcodes[drawn(sizeof opcodes)];
	bool moves = opcode == OP_READV || opcode == OP_WRITEV || opcode == OP_READ ||
		     opcode == OP_WRITE;
	struct io_uring_sqe *sqe = add(of, opcode, drawn(4) ? file : AT_FDCWD,
				       moves ? buffer : names[drawn(6)], drawn(100), drawn(10000));

	sqe->user_data = drawn(5);
	sqe->flags = (unsigned char)(drawn(3) ? 0 : drawn(0x80));
	if (!drawn(8))
		sqe->addr = drawn(9000);
	if (opcode == OP_RENAMEAT || opcode == OP_LINKAT) {
		sqe->addr2 = (uint64_t)(uintptr_t)names[3];
		sqe->len = (unsigned)AT_FDCWD;
	}
	if (opcode == OP_OPENAT) {
		sqe->fd = AT_FDCWD;
		sqe->open_flags = O_CREAT | O_RDWR | (drawn(2) ? O_TRUNC : 0);
		sqe->len = 0600;
	}
	if (opcode == OP_CLOSE)
		sqe->fd = 30 + (int)drawn(40);
	if (!drawn(9))
		sqe->file_index = drawn(5);
	if (!drawn(30))
		sqe->rw_flags = drawn(64);
}

static void any_fields(void)
{
	open_ring(&ring, 64, 0);
	for (unsigned call = 0; call < 1000; call++) {
		for (unsigned count = 1 + drawn(9); count; count--)
			add_drawn(&ring);
		unsigned count = ring.added;
		publish(&ring);
		enter(&ring, count, 0);
		if (drawn(4))
			drain(&ring);
	}
}

static void much_at_once(void)
{
	open_ring(&ring, 32768, 0);
	for (unsigned at = 0; at < 32768; at++)
		add(&ring, OP_NOP, 0, NULL, 0, 0)->user_data = 0;
	go(&ring, 32768);
}

static void overflow(void)
{
	for (unsigned at = 0; at < 500; at++) {
		add(&ring, OP_READ, file, buffer, 1, 0);
		publish(&ring);
		enter(&ring, 1, 0);
	}
	go(&ring, 1);
}

static void over_the_queue(void)
{
	add(&ring, OP_READ, file, ring.sqes, 512, 0);
	if (write(file, buffer, 4096) != 4096)
		fail("write");
	go(&ring, 1);
	for (unsigned at = 0; at < QUEUE; at++)
		add(&ring, OP_NOP, 0, NULL, 0, 0);
	go(&ring, 0);
	add(&ring, OP_READ, file, ring.sq_tail - 1, 4096, 0);
	publish(&ring);
	enter(&ring, 1, 0);
	enter(&ring, 4, 0);
}

/* Memory */

static void without_queue(void)
{
	add_write(&ring, "x", 0);
	publish(&ring);
	munmap(ring.sqes, QUEUE * sizeof *ring.sqes);
	enter(&ring, 1, 0);
}

static void *unmaps(void *unused)
{
	usleep(3000);
	munmap(ring.sqes, QUEUE * sizeof *ring.sqes);
	return unused;
}

static void queue_goes(void)
{
	pthread_t thread;

	signal(SIGSEGV, (void (*)(int))(intptr_t)_exit);
	pthread_create(&thread, NULL, unmaps, NULL);
	for (unsigned at = 0; at < 1000000; at++) {
		add_write(&ring, "x", 0);
		go(&ring, 0);
	}
}

static char *map(size_t length)
{
	char *made = mmap(NULL, length, PROT_READ | PROT_WRITE,
			  MAP_PRIVATE | MAP_ANONYMOUS | MAP_NORESERVE, -1, 0);

	if (made == MAP_FAILED)
		fail("mmap");
	return made;
}

static void buffer_goes(void)
{
	char *of = map(1 << 20);
	struct iovec vector = { of, 1 << 20 };

	registers(IORING_REGISTER_BUFFERS, &vector, 1);
	memset(of, 7, 100);
	add(&ring, OP_WRITE_FIXED, file, of, 100, 0);
	go(&ring, 1);
	munmap(of, 1 << 19);
	add(&ring, OP_WRITE_FIXED, file, of, 100, 50);
	go(&ring, 1);
	add(&ring, OP_READ_FIXED, file, of + (1 << 19) - 10, 50, 0);
	go(&ring, 1);
}

static void bad_addresses(void)
{
	static struct iovec vectors[3] = { { NULL, 10 }, { buffer, SIZE_MAX }, { buffer, 5 } };
	char *page = map(8192);

	munmap(page + 4096, 4096);
	memset(page, 'q', 4096);
	open_ring(&ring, 64, 0);
	add(&ring, OP_READ, file, (void *)1, 10, 0);
	add(&ring, OP_WRITE, file, (void *)1, 10, 0);
	add(&ring, OP_WRITE, file, page + 4000, 200, 0);
	add(&ring, OP_WRITE, file, buffer, UINT32_MAX, 0);
	add(&ring, OP_READ, file, buffer, UINT32_MAX, UINT64_MAX - 1);
	add(&ring, OP_READV, file, vectors, 3, 0);
	add(&ring, OP_WRITEV, file, vectors, 3, 0);
	add(&ring, OP_WRITEV, file, vectors + 1, 2, 0);
	add(&ring, OP_READV, file, (void *)8, 3, 0);
	add(&ring, OP_READV, file, vectors, UINT32_MAX, 0);
	add(&ring, OP_WRITEV, file, vectors, 1025, 0);
	add(&ring, OP_OPENAT, AT_FDCWD, page + 4090, 0, 0);
	add(&ring, OP_UNLINKAT, AT_FDCWD, NULL, 0, 0);
	add(&ring, OP_RENAMEAT, AT_FDCWD, "a", (unsigned)AT_FDCWD,
	    (uint64_t)(uintptr_t)(page + 4090));
	go(&ring, 0);
	usleep(10000);
	drain(&ring);
}

static void shared_buffer(void)
{
	if (ftruncate(file, 8192))
		fail("ftruncate");
	char *of = mmap(NULL, 8192, PROT_READ | PROT_WRITE, MAP_SHARED, file, 0);
	struct iovec vector = { of, 8192 };
	int other = open("b", O_RDWR | O_CREAT, 0644);
	registers(IORING_REGISTER_BUFFERS, &vector, 1);
	memset(of, 'm', 100);
	add(&ring, OP_WRITE_FIXED, other, of, 100, 0);
	go(&ring, 1);
	add(&ring, OP_READ_FIXED, other, of + 4000, 100, 0);
	go(&ring, 1);
}

/* Threads and processes */

static int stop;

static void *closes(void *unused)
{
	while (!__atomic_load_n(&stop, __ATOMIC_RELAXED)) {
		int number = open("b", O_RDWR | O_CREAT, 0644);
		dup2(number, 40);
		close(40);
		close(number);
	}
	return unused;
}

static void number_comes_and_goes(void)
{
	pthread_t thread;

	pthread_create(&thread, NULL, closes, NULL);
	for (unsigned at = 0; at < 2000; at++) {
		add(&ring, OP_WRITE, 40, "x", 1, 0);
		add(&ring, OP_READ, 40, buffer, 1, 0);
		go(&ring, 0);
	}
	__atomic_store_n(&stop, 1, __ATOMIC_RELAXED);
	pthread_join(thread, NULL);
}

/* What a child does with the ring of its parent, and with one of its own. */
static void child(unsigned number)
{
	struct ring own;

	add_write(&ring, "c", number);
	go(&ring, 0); /* (one that waited might find that another child took all) */
	open_ring(&own, 4, 0);
	add_write(&own, "d", number + 50);
	go(&own, 1);
	if (number == 7)
		kill(getpid(), SIGKILL);
	if (number == 9)
		execl("/bin/true", "true", (char *)NULL);
	if (number == 11)
		abort();
	_exit(0);
}

static void children(void)
{
	for (unsigned at = 0; at < 20; at++) {
		long flags = SIGCHLD | (at & 2 ? CLONE_FILES : 0) | (at & 4 ? CLONE_PARENT : 0);
		long made = at & 1 ? fork() : syscall(SYS_clone, flags, 0, 0, 0, 0);
		if (!made)
			child(at);
		while (waitpid(-1, NULL, 0) > 0)
			;
	}
}

static void vforks(void)
{
	for (unsigned at = 0; at < 10; at++) {
		pid_t made = vfork();
		if (!made) {
			execl(at & 1 ? "/bin/true" : "/nonexistent", "true", (char *)NULL);
			_exit(1);
		}
		waitpid(made, NULL, 0);
		add_write(&ring, "v", at);
		go(&ring, 1);
	}
}

static void *waits(void *unused)
{
	enter(&ring, 1, 1);
	return unused;
}

/* Has a thread wait for bytes of a pipe that do not come. */
static void wait_aside(void)
{
	pthread_t thread;
	int ends[2];

	if (pipe(ends))
		fail("pipe");
	add(&ring, OP_READ, ends[0], buffer, 1, 0);
	publish(&ring);
	pthread_create(&thread, NULL, waits, NULL);
	usleep(20000);
}

static void another_program(void)
{
	if (own_words[2]) {
		well();
		return;
	}
	wait_aside();
	execl("/proc/self/exe", own_words[0], own_words[1], "again", (char *)NULL);
}

static void ends_while_waiting(void)
{
	wait_aside();
	well();
	_exit(3);
}

static void killed_while_waiting(void)
{
	wait_aside();
	well();
	kill(getpid(), SIGKILL);
}

static void *uses_one(void *number)
{
	unsigned at = (unsigned)(uintptr_t)number;
	struct ring own;

	open_ring(&own, 4, 0);
	add_write(&own, "th", 2ULL * at);
	go(&own, at & 1);
	if (at % 3 == 0)
		close(own.descriptor);
	return NULL;
}

static void many_threads(void)
{
	pthread_t threads[100];

	for (uintptr_t at = 0; at < 100; at++)
		pthread_create(&threads[at], NULL, uses_one, (void *)at);
	for (unsigned at = 0; at < 100; at++)
		pthread_join(threads[at], NULL);
}

static void stops_and_goes(void)
{
	pid_t made = fork();

	if (!made) {
		for (unsigned at = 0; at < 20; at++) {
			usleep(2000);
			kill(getppid(), at & 1 ? SIGCONT : SIGSTOP);
		}
		kill(getppid(), SIGCONT);
		_exit(0);
	}
	for (unsigned at = 0; at < 200; at++) {
		add_write(&ring, "s", at);
		go(&ring, 1);
		usleep(200);
	}
	waitpid(made, NULL, 0);
}

static void nothing(int number)
{
	(void)number;
}

static void signals(void)
{
	struct sigaction action = { .sa_handler = nothing };
	struct sigevent event = { .sigev_notify = SIGEV_SIGNAL, .sigev_signo = SIGUSR1 };
	struct itimerspec each = { { 0, 100000 }, { 0, 100000 } };
	timer_t timer;

	sigaction(SIGUSR1, &action, NULL);
	if (timer_create(CLOCK_MONOTONIC, &event, &timer) || timer_settime(timer, 0, &each, NULL))
		fail("timer");
	for (unsigned at = 0; at < 1000; at++) {
		add_write(&ring, "s", at);
		go(&ring, 1);
		int number = open("b", O_CREAT | O_RDWR, 0600);
		(void)!write(number, "x", 1);
		close(number);
	}
}

/* Ends, or is refused, at io_uring_enter by a filter of its own. */
static void filtered(unsigned what)
{
	struct sock_filter filter[] = {
		BPF_STMT(BPF_LD | BPF_W | BPF_ABS, 0),
		BPF_JUMP(BPF_JMP | BPF_JEQ | BPF_K, SYS_io_uring_enter, 0, 1),
		BPF_STMT(BPF_RET | BPF_K, what), BPF_STMT(BPF_RET | BPF_K, SECCOMP_RET_ALLOW)
	};
	struct sock_fprog program = { 4, filter };

	well();
	prctl(PR_SET_NO_NEW_PRIVS, 1, 0, 0, 0);
	if (prctl(PR_SET_SECCOMP, SECCOMP_MODE_FILTER, &program))
		lack("seccomp");
	add_write(&ring, "zz", 0);
	go(&ring, 0);
}

static void filter_refuses(void)
{
	filtered(SECCOMP_RET_ERRNO | EPERM);
}

static void filter_ends(void)
{
	filtered(SECCOMP_RET_KILL_PROCESS);
}

static void strict(void)
{
	well();
	prctl(PR_SET_SECCOMP, SECCOMP_MODE_STRICT);
	syscall(SYS_exit, 0);
}

/* Rings, files and names */

static void without_mapping(void)
{
	struct io_uring_params params = { .flags = SETUP_NO_MMAP | SETUP_NO_SQARRAY };
	int both = PROT_READ | PROT_WRITE, own = MAP_SHARED | MAP_ANONYMOUS;
	char *queue = mmap(NULL, BUFFER, both, own, -1, 0),
	     *sqes = mmap(NULL, BUFFER, both, own, -1, 0);

	/* (the last words of the offsets have the addresses) */
	memcpy((char *)&params.cq_off + 32, &queue, 8);
	memcpy((char *)&params.sq_off + 32, &sqes, 8);
	long made = syscall(SYS_io_uring_setup, QUEUE, &params);
	if (made < 0)
		lack("io_uring_setup");
	struct io_uring_sqe sqe = { .opcode = OP_WRITE, .fd = file, .len = 2 };
	sqe.addr = (uint64_t)(uintptr_t) "no";
	memcpy(sqes, &sqe, sizeof sqe);
	memcpy(queue + params.sq_off.tail, &(unsigned){ 1 }, sizeof(unsigned));
	syscall(SYS_io_uring_enter, made, 1, 1, IORING_ENTER_GETEVENTS, NULL, 0);
}

static void by_index(void)
{
	struct io_uring_rsrc_update update = { .offset = UINT32_MAX,
					       .data = (unsigned)ring.descriptor };
	int flags = (int)(IORING_ENTER_GETEVENTS | ENTER_REGISTERED_RING);

	registers(REGISTER_RING_FDS, &update, 1);
	for (unsigned at = 0; at < 2; at++) {
		add_write(&ring, "index", 5 * at);
		publish(&ring);
		syscall(SYS_io_uring_enter, update.offset, 1, 1, flags, NULL, 0);
		drain(&ring);
		close(ring.descriptor); /* (its index is there still) */
	}
}

static void registrations(void)
{
	for (unsigned at = 0; at < 2000; at++) {
		uint64_t argument[32];
		unsigned operation = drawn(36);
		for (unsigned word = 0; word < 32; word++)
			argument[word] = drawn(2) ? 0 : (uint64_t)rand() << 33 | (unsigned)rand();
		argument[drawn(4)] = (uint64_t)(uintptr_t)buffer;
		if (operation == 11 ||
		    operation == 12) /* (restrictions, which cannot be taken back) */
			continue;
		registers(operation, drawn(5) ? (const void *)argument : NULL,
			  drawn(4) ? drawn(8) : (unsigned)rand());
		if (at % 50)
			continue;
		add_write(&ring, "rg", at);
		add(&ring, OP_READ, (int)drawn(4), buffer, 2, 0)->flags = FLAG_FIXED;
		add(&ring, OP_READ_FIXED, file, buffer, 2, 0)->buf_index = (uint16_t)drawn(4);
		go(&ring, 0);
	}
}

static void another_number(void)
{
	int other = dup(ring.descriptor);

	close(ring.descriptor);
	ring.descriptor = other;
	add_write(&ring, "dup", 0);
	go(&ring, 1);
	if (dup2(file, other) != other)
		fail("dup2");
	add_write(&ring, "dup", 0);
	go(&ring, 1);
}

static void high_numbers(void)
{
	struct rlimit limit = { 4096, 4096 };

	if (setrlimit(RLIMIT_NOFILE, &limit))
		lack("setrlimit");
	int high = fcntl(file, F_DUPFD, 3000);
	add(&ring, OP_WRITE, high, "hi", 2, 0);
	add(&ring, OP_CLOSE, high, NULL, 0, 0);
	go(&ring, 2);
	for (unsigned at = 0; at < 1100; at++)
		(void)!open("a", O_RDONLY);
	add(&ring, OP_READ, 1050, buffer, 2, 0);
	add(&ring, OP_OPENAT, AT_FDCWD, "a", 0600, 0);
	go(&ring, 2);
}

static void directory_goes(void)
{
	if (mkdir("gone", 0755) || chdir("gone") || rmdir("../gone"))
		fail("gone");
	add(&ring, OP_MKDIRAT, AT_FDCWD, "x", 0755, 0);
	go(&ring, 1);
	add(&ring, OP_MKDIRAT, AT_FDCWD, "../y", 0755, 0);
	go(&ring, 1);
	(void)!mkdir("z", 0755);
}

static void long_paths(void)
{
	static char path[5000];
	char here[4096], part[201];

	if (!getcwd(here, sizeof here))
		fail("getcwd");
	memset(part, 'n', 200);
	part[200] = 0;
	for (unsigned at = 0; at < 30 && !mkdir(part, 0755) && !chdir(part); at++)
		;
	add(&ring, OP_MKDIRAT, AT_FDCWD, "deep", 0755, 0);
	go(&ring, 1);
	if (chdir(here))
		fail("chdir");
	for (unsigned at = 0; at < 4999; at++)
		path[at] = at % 201 == 200 ? '/' : 'n';
	add(&ring, OP_MKDIRAT, AT_FDCWD, path, 0755, 0);
	path[4095] = 0;
	add(&ring, OP_MKDIRAT, AT_FDCWD, path, 0755, 0);
	go(&ring, 2);
}

static void odd_names(void)
{
	static const char *const names[] = { "new\nline", "\xff\xfe", "sp ace", "tab\t",
					     "\\back",	  "\x01",     "..x",	" ",
					     "",	  "/",	      "//",	"/..",
					     ".",	  "..",	      "./dot",	"d//e" };

	for (unsigned at = 0; at < sizeof names / sizeof *names; at++) {
		add(&ring, OP_OPENAT, AT_FDCWD, names[at], 0600, 0)->open_flags = O_CREAT | O_RDWR;
		go(&ring, 1);
		add(&ring, OP_MKDIRAT, AT_FDCWD, names[at], 0755, 0);
		go(&ring, 1);
		int number = open(names[at], O_CREAT | O_RDWR, 0600);
		if (number >= 0)
			(void)!write(number, names[at], strlen(names[at]));
		add(&ring, OP_RENAMEAT, AT_FDCWD, names[at], (unsigned)AT_FDCWD,
		    (uint64_t)(uintptr_t)names[(at + 3) % 10]);
		go(&ring, 1);
	}
}

static void no_files(void)
{
	static const char *const names[] = { "fifo", "dangling", "/proc/self/mem", "/dev/null",
					     "/dev/zero" };

	if (mkfifo("fifo", 0600) || symlink("nowhere", "dangling"))
		fail("mkfifo");
	for (unsigned at = 0; at < 5; at++) {
		add(&ring, OP_OPENAT, AT_FDCWD, names[at], 0, 0)->open_flags = O_RDWR | O_NONBLOCK;
		int number = run_one(&ring);
		if (number < 0)
			continue;
		add(&ring, OP_WRITE, number, "spec", 4, 0);
		add(&ring, OP_READ, number, buffer, 4, 0);
		go(&ring, 2);
	}
}

static void huge_files(void)
{
	int sparse = open("sparse", O_CREAT | O_RDWR, 0644),
	    huge = open("huge", O_CREAT | O_RDWR, 0644);

	if (ftruncate(sparse, 1L << 40) || pwrite(sparse, "x", 1, (1L << 40) - 1) != 1 ||
	    ftruncate(huge, 1L << 42))
		lack("ftruncate");
	add(&ring, OP_READ, sparse, buffer, 10, 5);
	add(&ring, OP_READ, huge, buffer, 10, 5);
	go(&ring, 2);
}

static const struct mode modes[] = {
	{ "tail-too-far", tail_too_far },
	{ "heads-and-tails", heads_and_tails },
	{ "masks", masks },
	{ "any-bytes", any_bytes },
	{ "any-fields", any_fields },
	{ "much-at-once", much_at_once },
	{ "overflow", overflow },
	{ "over-the-queue", over_the_queue },
	{ "without-queue", without_queue },
	{ "queue-goes", queue_goes },
	{ "buffer-goes", buffer_goes },
	{ "bad-addresses", bad_addresses },
	{ "shared-buffer", shared_buffer },
	{ "number-comes-and-goes", number_comes_and_goes },
	{ "children", children },
	{ "vforks", vforks },
	{ "another-program", another_program },
	{ "ends-while-waiting", ends_while_waiting },
	{ "killed-while-waiting", killed_while_waiting },
	{ "many-threads", many_threads },
	{ "stops-and-goes", stops_and_goes },
	{ "signals", signals },
	{ "filter-refuses", filter_refuses },
	{ "filter-ends", filter_ends },
	{ "strict", strict },
	{ "without-mapping", without_mapping },
	{ "by-index", by_index },
	{ "registrations", registrations },
	{ "another-number", another_number },
	{ "high-numbers", high_numbers },
	{ "directory-goes", directory_goes },
	{ "long-paths", long_paths },
	{ "odd-names", odd_names },
	{ "no-files", no_files },
	{ "huge-files", huge_files },
};

int main(int count, char **words)
{
	own_words = words;
	if (count > 1) {
		alarm(30);
		file = open("a", O_RDWR | O_CREAT, 0644);
		open_ring(&ring, QUEUE, 0);
	}
	for (unsigned at = 0; count < 2 && at < sizeof modes / sizeof *modes; at++)
		puts(modes[at].name);
	if (count > 1) {
		run_mode(modes, sizeof modes / sizeof *modes, words[1]);
		well();
	}
	return 0;
}
