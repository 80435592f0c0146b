/* Programs with entries whose results no replay decides, and with some that look like them: given
 * MODE, in an empty directory. Each entry has the result that is expected of it. Ends with 1 where
 * one differs, and with 77 where the kernel lacks what a mode needs.
 *
 * served: what version 3 decides. chains: members that are given, which break their chain or not.
 * refused: chains that the kernel refuses on submission. errors: errors that the world does not
 * decide, and some that it does. filled: writes of what a member before them put there. quiet:
 * members that post nothing. names: such members that make and take away names. told: what a STATX
 * tells of a path, and of what is open. links: what fails, and lets its chain go on. otherwise:
 * other results of Linux. numbers: fewer of them. */
#include "raw.h"

#include <poll.h>
#include <sys/resource.h>
#include <sys/socket.h>
#include <sys/stat.h>
#include <sys/uio.h>

enum { ENTRIES = 32, BYTES = 4096, SILENT = INT32_MIN, NOBODY = 250 };

static struct ring ring;
static int wanted[ENTRIES], results[ENTRIES];
static char buffer[BYTES] __attribute__((aligned(4096))), memory[BYTES], more[BYTES];
static int file, pipes[2], sockets[2];

/* The next entry of a submission, with the result that it is to have. */
static struct io_uring_sqe *ask(unsigned char opcode, int descriptor, const void *address,
				unsigned length, uint64_t offset, int result)
{
	unsigned at = ring.added;
	struct io_uring_sqe *sqe = add(&ring, opcode, descriptor, address, length, offset);

	sqe->user_data = at;
	wanted[at] = result;
	return sqe;
}

/* Submits what was added, and waits for what posts. */
static void run(const char *what)
{
	unsigned count = ring.added, posted = 0;

	for (unsigned at = 0; at < count; at++) {
		posted += wanted[at] != SILENT;
		results[at] = SILENT;
	}
	submit(&ring, posted);
	while (posted--) {
		unsigned head = *ring.cq_head;
		while (head == __atomic_load_n(ring.cq_tail, __ATOMIC_ACQUIRE))
			if (syscall(SYS_io_uring_enter, ring.descriptor, 0, 1,
				    IORING_ENTER_GETEVENTS, NULL, 0) < 0 &&
			    errno != EINTR)
				fail("a completion that is lacking");
		const struct io_uring_cqe *cqe = &ring.cqes[head & *ring.cq_mask];
		results[cqe->user_data] = cqe->res;
		__atomic_store_n(ring.cq_head, head + 1, __ATOMIC_RELEASE);
	}
	for (unsigned at = 0; at < count; at++) {
		if (results[at] == wanted[at])
			continue;
		fprintf(stderr, "%s: entry %u gave %d, not %d\n", what, at, results[at],
			wanted[at]);
		exit(1);
	}
}

/* A write of some letters to the file. */
static struct io_uring_sqe *ask_write(const char *text, uint64_t offset, int result)
{
	return ask(OP_WRITE, file, text, (unsigned)strlen(text), offset, result);
}

static struct io_uring_sqe *ask_nop(int result)
{
	return ask(OP_NOP, 0, NULL, 0, 0, result);
}

static struct io_uring_sqe *ask_poll(int result)
{
	struct io_uring_sqe *sqe = ask(IORING_OP_POLL_ADD, pipes[0], NULL, 0, 0, result);

	sqe->poll32_events = POLLIN;
	return sqe;
}

/* What version 3 decides, and the others do not. */
static void served(void)
{
	struct iovec vector = { memory, 5 };

	ask(OP_SYNC_FILE_RANGE, file, NULL, 9, 0, 0)->sync_range_flags = 7;
	ask(OP_SYNC_FILE_RANGE, file, NULL, 9, 0, -EINVAL)->sync_range_flags = 8;
	ask(OP_SYNC_FILE_RANGE, NOBODY, NULL, 9, 0, -EBADF)->sync_range_flags = 8;
	ask(OP_SYNC_FILE_RANGE, file, NULL, 9, 1ULL << 63, -EINVAL);
	ask(OP_FADVISE, file, NULL, 9, 0, 0)->fadvise_advice = 4;
	ask(OP_FADVISE, file, NULL, 9, 0, -EINVAL)->fadvise_advice = 6;
	ask(OP_FADVISE, NOBODY, NULL, 9, 0, -EBADF);
	run("advice");
	struct io_uring_sqe *sqe = ask(OP_FADVISE, file, NULL, 9, 0, -EINVAL);
	sqe->fadvise_advice = 6;
	sqe->flags = FLAG_LINK;
	ask_nop(-ECANCELED);
	run("a chain that advice breaks");
	ask_write("dsync", 0, 5)->rw_flags = 2;
	ask(OP_WRITEV, file, &vector, 1, 5, 5)->rw_flags = 6;
	run("writes through");
	ask(OP_READ, file, memory, 9, 0, 9)->rw_flags = 4;
	run("a read");
}

/* Members that are given break their chain, or not. */
static void chains(void)
{
	struct __kernel_timespec late = { .tv_sec = 20 }, soon = { .tv_nsec = 1000000 };

	if (write(pipes[1], "x", 1) != 1)
		fail("write");
	ask_poll(POLLIN)->flags = FLAG_LINK;
	ask_write("behind a poll", 0, 13)->flags = FLAG_LINK;
	ask(OP_READ, file, memory, 6, 0, 6);
	run("a chain behind a poll");
	ask(OP_READ, file, memory, 13, 0, 13)->flags = FLAG_LINK;
	ask(IORING_OP_LINK_TIMEOUT, -1, &late, 1, 0, -ECANCELED)->flags = FLAG_LINK;
	ask_write("B", 0, 1);
	run("a timeout that does not fire");
	ask(OP_READ, file, memory, 99, 0, 13)->flags = FLAG_LINK;
	ask(IORING_OP_LINK_TIMEOUT, -1, &late, 1, 0, -ECANCELED)->flags = FLAG_LINK;
	ask_write("not written", 0, -ECANCELED);
	run("a short read with a timeout");
	ask(IORING_OP_TIMEOUT, -1, &soon, 1, 0, -ETIME)->flags = FLAG_LINK;
	ask_write("not written", 0, -ECANCELED);
	run("a timeout that breaks its chain");
	ask(IORING_OP_TIMEOUT, -1, &soon, 1, 0, -ETIME)->flags = FLAG_HARD;
	ask_write("hard", 20, 4);
	run("a timeout that is hard");
	ask(OP_READ, pipes[0], memory, 1, 0, 1)->flags = FLAG_LINK;
	ask_poll(-ECANCELED)->flags = FLAG_LINK;
	ask(IORING_OP_LINK_TIMEOUT, -1, &soon, 1, 0, -ETIME)->flags = FLAG_LINK;
	ask_write("not written", 0, -ECANCELED);
	run("a timeout that fires");
	ask_poll(-ECANCELED)->flags = FLAG_LINK;
	ask_write("not written", 0, -ECANCELED);
	ask(IORING_OP_ASYNC_CANCEL, -1, NULL, 0, 0, 0);
	run("a chain whose head is canceled");
}

/* Chains that the kernel refuses, as it looks at an opcode that it does not have. */
static void refused(void)
{
	ask_write("not written", 0, -ECANCELED)->flags = FLAG_LINK;
	ask(200, -1, NULL, 0, 0, -EINVAL);
	run("a write before an opcode that is none");
	ask_nop(-ECANCELED)->flags = FLAG_LINK;
	ask_write("not written", 0, -ECANCELED)->flags = FLAG_LINK;
	ask(IORING_OP_TIMEOUT, -1, memory, 7, 0, -EINVAL);
	run("a timeout that is none");
	ask(OP_FSYNC, file, NULL, 0, 0, -EINVAL)->fsync_flags = 8;
	ring.sqes[(*ring.sq_tail + ring.added - 1) & *ring.sq_mask].flags = FLAG_LINK;
	ask(OP_FSYNC, file, NULL, 0, 0, -EINVAL)->fsync_flags = 8;
	run("a chain that is refused on every member");
	ask(200, -1, NULL, 0, 0, -EINVAL)->flags = FLAG_LINK;
	ask(201, -1, NULL, 0, 0, -EINVAL);
	run("opcodes that are none");
	ask_write("written", 0, 7);
	run("a write");
}

/* Errors that the world does not decide, and such as it does. */
static void errors(void)
{
	struct iovec vector = { buffer, BYTES };

	if (syscall(SYS_io_uring_register, ring.descriptor, IORING_REGISTER_BUFFERS, &vector, 1) ||
	    mkdir("d", 0755))
		fail("io_uring_register");
	ask_write("here", 0, 4);
	run("a write");
	ask(OP_READ, file, (void *)1, 4, 0, -EFAULT)->flags = FLAG_LINK;
	ask_nop(-ECANCELED);
	run("memory that is not there");
	ask(OP_WRITE_FIXED, file, buffer, BYTES + 1, 0, -EFAULT);
	run("a range beyond the buffer");
	struct io_uring_sqe *sqe = ask(OP_LINKAT, AT_FDCWD, "d", (unsigned)AT_FDCWD, 0, -EPERM);
	sqe->addr2 = (uint64_t)(uintptr_t) "e";
	run("another name of a directory");
	ask(OP_READ, pipes[0], memory, 1, 0, 1);
	if (write(pipes[1], "x", 1) != 1)
		fail("write");
	run("a pipe");
	ask(OP_FSYNC, pipes[0], NULL, 0, 0, -EINVAL);
	run("a pipe that has nothing to write back");
	ask(OP_FADVISE, file, NULL, 0, 0, -EINVAL)->buf_index = 7;
	run("a field that no advice has");
}

/* Registers the buffer, and sends something through the pipe and through the sockets. */
static void send_through(const char *pipe, const char *socket)
{
	struct iovec vector = { buffer, BYTES };
	ssize_t piped = (ssize_t)strlen(pipe), sent = (ssize_t)strlen(socket);

	if (syscall(SYS_io_uring_register, ring.descriptor, IORING_REGISTER_BUFFERS, &vector, 1))
		fail("io_uring_register");
	if (write(pipes[1], pipe, (size_t)piped) != piped ||
	    write(sockets[1], socket, (size_t)sent) != sent)
		fail("write");
}

/* Takes bytes from a pipe or a socket, and writes them to the file by the next member of the chain.
 */
static void carry(unsigned char take, int from, unsigned char put, char *at, unsigned length,
		  uint64_t offset, const char *what)
{
	ask(take, from, at, length, 0, (int)length)->flags = FLAG_LINK;
	ask(put, file, at, length, offset, (int)length);
	run(what);
}

/* Writes of what a member before them put there. */
static void filled(void)
{
	send_through("piped", "sent");
	carry(OP_READ, pipes[0], OP_WRITE, memory, 5, 0, "a write of what came from a pipe");
	carry(IORING_OP_RECV, sockets[0], OP_WRITE, more, 4, 5,
	      "a write of what came from a socket");
	ask(OP_READ, file, memory + 100, 9, 0, 9);
	run("a read of both");
}

/* The same of a registered buffer, which nothing fills in the replay. */
static void filled_buffer(void)
{
	send_through("fixed", "buffer");
	carry(OP_READ_FIXED, pipes[0], OP_WRITE_FIXED, buffer, 5, 0,
	      "a fixed write of what came from a pipe");
	carry(IORING_OP_RECV, sockets[0], OP_WRITE_FIXED, buffer + 100, 6, 5,
	      "a fixed write of what came from a socket");
	ask(OP_WRITE_FIXED, file, buffer, 106, 0, 106);
	run("a fixed write of all");
}

/* Members that post nothing. */
static void quiet(void)
{
	struct io_uring_sqe *sqe;

	if (write(pipes[1], "x", 1) != 1)
		fail("write");
	sqe = ask_poll(SILENT);
	sqe->flags = FLAG_LINK | FLAG_SKIP;
	ask_write("behind", 0, 6);
	run("a silent poll");
	sqe = ask(IORING_OP_EPOLL_CTL, NOBODY, memory, 0, 0, -EBADF);
	sqe->flags = FLAG_LINK | FLAG_SKIP;
	ask_write("not written", 0, SILENT);
	run("a silent entry that fails");
	ask_write("end", 20, 3);
	run("the last");
}

/* A member of a chain with a path, which posts nothing. */
static struct io_uring_sqe *ask_silently(unsigned char opcode, const char *path, unsigned length)
{
	struct io_uring_sqe *sqe = ask(opcode, AT_FDCWD, path, length, 0, SILENT);

	sqe->flags = FLAG_LINK | FLAG_SKIP;
	return sqe;
}

/* The number that the next open gets. */
static int lowest_number(void)
{
	int number = dup(0);

	if (number < 0 || close(number))
		fail("dup");
	return number;
}

/* Names in a path that no replay walks, and the number of an open that nobody is told. */
static void names(void)
{
	int number = lowest_number();

	if (mkdir("d", 0755) || mkdir("e", 0755))
		fail("mkdir");
	ask_silently(OP_MKDIRAT, "d/../made", 0755);
	ask_silently(OP_MKDIRAT, "d/../made/in it", 0755);
	ask_silently(OP_UNLINKAT, "d/../e", 0)->unlink_flags = AT_REMOVEDIR;
	ask_write("told", 0, 4);
	run("names");
	ask_silently(OP_OPENAT, "new", 0644)->open_flags = O_RDWR | O_CREAT;
	ask_write("end", 4, 3);
	run("an open of a number that is not told");
	int other = lowest_number();
	ask(OP_OPENAT, AT_FDCWD, "new", 0, 0, other)->open_flags = O_RDWR;
	run("another open");
	ask(OP_WRITE, number, "by a guess", 10, 0, 10);
	ask(OP_WRITE, other, "known", 5, 10, 5);
	run("writes");
}

/* A STATX of a path. */
static struct io_uring_sqe *ask_stat(const char *path, unsigned flags, int result)
{
	static struct statx told[ENTRIES];
	static unsigned count;
	struct io_uring_sqe *sqe = ask(IORING_OP_STATX, AT_FDCWD, path, STATX_BASIC_STATS,
				       (uint64_t)(uintptr_t)&told[count++], result);

	sqe->statx_flags = flags;
	return sqe;
}

/* Kinds and sizes: of files, directories and what lacks; a link, and flags that are given. */
static void told(void)
{
	if (mkdir("directory", 0755) || symlink("a", "link"))
		fail("directory");
	ask_stat("a", 0, 0);
	run("an empty file");
	ask_write("123456789", 0, 9);
	run("a write");
	ask_stat("a", AT_SYMLINK_NOFOLLOW, 0);
	run("a file");
	ask_stat("directory", AT_STATX_DONT_SYNC, 0);
	run("a directory");
	ask_stat("none", 0, -ENOENT);
	run("a missing name");
	ask_stat("a/b", 0, -ENOTDIR);
	run("a name below a file");
	ask_stat("", 0, -ENOENT);
	run("an empty path");
	ask_stat("link", 0, 0);
	run("through a link");
	ask_stat("link", AT_SYMLINK_NOFOLLOW, 0);
	run("a link");
	ask_stat("", AT_EMPTY_PATH, 0)->fd = file;
	run("what is open");
	ask_stat("", AT_EMPTY_PATH, -EBADF)->fd = NOBODY;
	run("nothing open");
	ask_stat("", AT_EMPTY_PATH, 0)->fd = pipes[0];
	run("a pipe");
	ask_stat("", AT_EMPTY_PATH, 0);
	run("the working directory");
	ask_stat("a", 0x400, -EINVAL);
	run("a flag");
	ask_stat("a", AT_STATX_SYNC_TYPE, -EINVAL);
	run("both flags");
	ask_stat("a", 0, 0)->len = 1U << 31;
	wanted[0] = -EINVAL;
	run("a mask");
}

/* An entry that fails, and a write that goes on behind it. */
static void fails_before_write(struct io_uring_sqe *sqe, const char *what)
{
	static uint64_t offset;

	sqe->flags |= FLAG_LINK;
	ask_write("w", offset++, 1);
	run(what);
}

/* What fails, and lets its chain go on. */
static void links(void)
{
	static struct statx found;
	struct io_uring_sqe *sqe;

	if (mkdir("d", 0755))
		fail("mkdir");
	fails_before_write(ask(OP_SYNC_FILE_RANGE, file, NULL, 9, 1ULL << 63, -EINVAL), "a range");
	fails_before_write(ask(OP_FALLOCATE, file, NULL, 0, 0, -EINVAL), "an allocation");
	fails_before_write(ask(OP_FTRUNCATE, file, NULL, 0, UINT64_MAX, -EINVAL), "a cut");
	sqe = ask(OP_STATX, AT_FDCWD, "none", STATX_SIZE, (uint64_t)(uintptr_t)&found, -ENOENT);
	fails_before_write(sqe, "a status");
	fails_before_write(ask(OP_MKDIRAT, AT_FDCWD, "d", 0755, 0, -EEXIST), "a directory");
	fails_before_write(ask(OP_UNLINKAT, AT_FDCWD, "none", 0, 0, -ENOENT), "an unlink");
	sqe = ask(OP_RENAMEAT, AT_FDCWD, "none", (unsigned)AT_FDCWD, 0, -ENOENT);
	sqe->addr2 = (uint64_t)(uintptr_t) "other";
	fails_before_write(sqe, "a rename");
	sqe = ask(OP_LINKAT, AT_FDCWD, "none", (unsigned)AT_FDCWD, 0, -ENOENT);
	sqe->addr2 = (uint64_t)(uintptr_t) "other";
	fails_before_write(sqe, "a link");
	sqe = ask(OP_MKDIRAT, AT_FDCWD, "d", 0755, 0, SILENT);
	sqe->flags = FLAG_SKIP;
	fails_before_write(sqe, "a directory that tells nothing");
	sqe = ask(OP_MKDIRAT, AT_FDCWD, "new", 0755, 0, SILENT);
	sqe->flags = FLAG_SKIP;
	fails_before_write(sqe, "a directory that is made");
	ask(OP_READ, file, memory, 99, 0, 10);
	run("a read");
}

/* A rename or link of two names. */
static struct io_uring_sqe *ask_names(unsigned char opcode, const char *one, const char *other,
				      int result)
{
	struct io_uring_sqe *sqe = ask(opcode, AT_FDCWD, one, (unsigned)AT_FDCWD, 0, result);

	sqe->addr2 = (uint64_t)(uintptr_t)other;
	return sqe;
}

/* What Linux gives, and the profile otherwise. */
static void otherwise(void)
{
	int only_written = open("a", O_WRONLY), directory;
	struct iovec halves[2] = { { memory, 5 }, { memory + 5, 5 } };

	if (mkdir("d", 0755) || only_written < 0 || close(open("d/in", O_CREAT | O_RDWR, 0644)))
		fail("d");
	directory = open("d", O_RDONLY);
	ask(OP_READ, directory, memory, 0, 0, 0);
	run("nothing of a directory");
	ask(OP_READ_FIXED, only_written, memory, 9, 0, -EFAULT);
	run("a buffer that is none, of what is only written");
	ask(OP_READV, file, halves, 2, (1ULL << 63) - 5, -EINVAL);
	run("an end that is no offset");
	ask(OP_FSYNC, file, NULL, 0, 1ULL << 63, -EINVAL);
	run("an offset that is none");
	ask_names(OP_RENAMEAT, "d/in", "d", -ENOTEMPTY);
	run("a file onto the directory above it");
	ask_names(OP_LINKAT, "none", "a/b", -ENOENT);
	run("two names that are none");
	ask_nop(0)->flags = FLAG_LINK;
	ask_names(OP_RENAMEAT, "a", "d/in", -EINVAL)->rename_flags = 3;
	run("a rename with both flags");
	ask(OP_READ, file, memory, 9, 0, 0);
	run("a read");
}

/* The limit of numbers is lowered. */
static void numbers(void)
{
	struct rlimit limit;
	int next = dup(file);

	if (next < 0 || syscall(SYS_close_range, next, ~0U, 0) || getrlimit(RLIMIT_NOFILE, &limit))
		fail("dup");
	limit.rlim_cur = (rlim_t)next + 2;
	ask_nop(0);
	run("the start");
	if (setrlimit(RLIMIT_NOFILE, &limit))
		fail("setrlimit");
	for (int at = 0; at < 4; at++) {
		ask(OP_OPENAT, AT_FDCWD, "a", 0, 0, at < 2 ? next + at : -EMFILE);
		run("an open");
	}
	limit.rlim_cur++;
	if (setrlimit(RLIMIT_NOFILE, &limit))
		fail("setrlimit");
	ask(OP_OPENAT, AT_FDCWD, "a", 0, 0, next + 2);
	run("an open again");
}

static const struct mode modes[] = {
	{ "served", served }, { "chains", chains },	  { "refused", refused },
	{ "errors", errors }, { "filled", filled },	  { "filled_buffer", filled_buffer },
	{ "quiet", quiet },   { "names", names },	  { "told", told },
	{ "links", links },   { "otherwise", otherwise }, { "numbers", numbers },
};

int main(int count, char **words)
{
	alarm(30);
	open_ring(&ring, ENTRIES, 0);
	file = open("a", O_RDWR | O_CREAT, 0644);
	if (file < 0 || pipe(pipes) || socketpair(AF_UNIX, SOCK_STREAM, 0, sockets))
		fail("a");
	return count > 1 && run_mode(modes, sizeof modes / sizeof *modes, words[1]) ? 0 : 2;
}
