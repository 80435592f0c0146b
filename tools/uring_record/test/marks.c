/* Programs of which the recorder cannot tell all: marks MODE, in an empty directory whose parent
 * can be written too. What it does not know is to be marked. Ends with 77 where the kernel lacks
 * what a mode needs.
 *
 * Those of links: links, over_links (names that are moved over links, and links over names),
 * links_in_chains (a chain makes or takes away a link, and goes through it), any_links SEED (what
 * is drawn, each by a call or an entry). */
#include "raw.h"

#include <pthread.h>
#include <poll.h>
#include <signal.h>
#include <sys/resource.h>
#include <sys/socket.h>
#include <sys/stat.h>
#include <sys/uio.h>
#include <sys/un.h>

enum { BYTES = 256, ACCEPT = 13, OPENAT2 = 28, MSG_RING = 40, SYMLINKAT = 38 };
static struct ring ring;
static char bytes[BYTES];
static int file; /* "a", with BYTES bytes */

/* An entry with a path. */
static struct io_uring_sqe *add_open(struct ring *on, const char *path, int flags, unsigned index)
{
	struct io_uring_sqe *sqe = add(on, OP_OPENAT, AT_FDCWD, path, 0644, 0);

	sqe->open_flags = (unsigned)flags;
	sqe->file_index = index;
	return sqe;
}

/* Slots without files. */
static void register_slots(struct ring *on, unsigned count)
{
	int *slots = malloc(count * sizeof *slots);

	for (unsigned at = 0; slots && at < count; at++)
		slots[at] = -1;
	if (syscall(SYS_io_uring_register, on->descriptor, IORING_REGISTER_FILES, slots, count))
		fail("io_uring_register");
	free(slots);
}

/* A path of this directory's parent, so that it lies outside the root. */
static const char *elsewhere(const char *name)
{
	static char path[4200];
	char here[4096];

	if (!getcwd(here, sizeof here))
		fail("getcwd");
	snprintf(path, sizeof path, "%s.%s", here, name);
	return path;
}

/* A link in the tree is opened, read and closed, by a number that the replay has too. */
static void through_a_link(void)
{
	if (symlink("a", "link") || mkdir("d", 0755) || symlink("d", "dirlink"))
		fail("symlink");
	for (int at = 0; at < 20; at++) {
		add_open(&ring, at % 2 ? "link" : "dirlink/../a", O_RDWR, 0);
		int number = run_one(&ring);
		add(&ring, OP_READ, number, bytes, 10, 0);
		expect("a read", run_one(&ring), 10);
		add(&ring, OP_CLOSE, number, NULL, 0, 0);
		expect("a close", run_one(&ring), 0);
	}
	add_open(&ring, "dirlink/new", O_RDWR | O_CREAT, 0);
	if (run_one(&ring) < 0)
		fail("an open through a link");
}

/* A symbolic link by an entry, taken away by a call and by an entry. */
static void links(void)
{
	add(&ring, SYMLINKAT, AT_FDCWD, "a", 0, (uint64_t)(uintptr_t) "link");
	expect("a link", run_one(&ring), 0);
	if (unlink("link") || symlink("a", "other"))
		fail("unlink");
	add(&ring, OP_UNLINKAT, AT_FDCWD, "other", 0, 0);
	expect("an unlink", run_one(&ring), 0);
	if (symlink("a", "third") || rename("third", "fourth") || unlink("fourth"))
		fail("rename");
}

static void make_file(const char *name)
{
	int made = open(name, O_CREAT | O_WRONLY | O_TRUNC, 0644);

	if (made < 0 || write(made, name, strlen(name)) != (ssize_t)strlen(name) || close(made))
		fail(name);
}

static void make_link(const char *text, const char *name)
{
	if (symlink(text, name))
		fail(name);
}

/* An entry with two paths. */
static struct io_uring_sqe *add_two(unsigned char opcode, const char *one, const char *other)
{
	return add(&ring, opcode, AT_FDCWD, one, (unsigned)AT_FDCWD, (uint64_t)(uintptr_t)other);
}

/* Moves a name by a call, or by an entry; gives what that gave. */
static int moves(bool is_call, const char *one, const char *other, unsigned flags)
{
	if (is_call)
		return (int)syscall(SYS_renameat2, AT_FDCWD, one, AT_FDCWD, other, flags);
	add_two(OP_RENAMEAT, one, other)->rename_flags = flags;
	return run_one(&ring);
}

/* Looks through an entry at what a name leads to, and has so many bytes. */
static void reads_name(const char *name, int wanted)
{
	add_open(&ring, name, O_RDONLY, 0);
	int number = run_one(&ring);
	add(&ring, OP_READ, number, bytes, BYTES, 0);
	expect(name, run_one(&ring), wanted);
	add(&ring, OP_CLOSE, number, NULL, 0, 0);
	expect("a close", run_one(&ring), 0);
}

/* Files over links, links over files, and directories that hold a link alone, in a directory. */
static void over_links_by(bool is_call, const char *folder)
{
	if (mkdir(folder, 0755) || chdir(folder) || mkdir("full", 0755) || mkdir("empty", 0755))
		fail(folder);
	make_link("nowhere", "full/link");
	add(&ring, OP_UNLINKAT, AT_FDCWD, "full", 0, 0)->unlink_flags = AT_REMOVEDIR;
	expect("a directory with a link", run_one(&ring), -ENOTEMPTY);
	add_two(OP_RENAMEAT, "empty", "full");
	expect("a directory onto it", run_one(&ring), -ENOTEMPTY);
	make_file("f");
	expect("a file over a link", moves(is_call, "f", "full/link", 0), 0);
	reads_name("full/link", 1);
	make_link("empty", "l");
	make_file("file");
	expect("a link over a file", moves(is_call, "l", "file", 0), 0);
	add_open(&ring, "file/new", O_RDWR | O_CREAT, 0);
	if (run_one(&ring) < 0)
		fail("file/new");
	expect("a link to a new name", moves(is_call, "file", "k", 0), 0);
	make_file("one");
	expect("a file for a link", moves(is_call, "k", "one", 2), 0);
	reads_name("k", 3);
	expect("a link for a file", moves(is_call, "k", "one", 2), 0);
	reads_name("one", 3);
	expect("another name of a link", link("k", "k2"), 0);
	expect("another name of a file", linkat(AT_FDCWD, "one", AT_FDCWD, "two", 0), 0);
	expect("a name through a link", linkat(AT_FDCWD, "k/new", AT_FDCWD, "three", 0), 0);
	add_two(OP_RENAMEAT, "two", "k2");
	expect("a name over a link", run_one(&ring), 0);
	reads_name("k2", 3);
	if (chdir(".."))
		fail("chdir");
}

static void over_links(void)
{
	over_links_by(true, "calls");
	over_links_by(false, "entries");
}

/* A chain by which the kernel goes: its members have these results. */
static void runs_chain(const char *what, const int *wanted)
{
	unsigned count = ring.added;

	for (unsigned at = 0; at + 1 < count; at++)
		ring.sqes[(*ring.sq_tail + at) & *ring.sq_mask].flags |= FLAG_HARD;
	submit(&ring, count);
	for (unsigned at = 0; at < count; at++)
		expect(what, take(&ring), wanted[at]);
}

static void links_in_chains(void)
{
	int number = dup(0);

	if (number < 0 || close(number) || mkdir("d", 0755) || mkdir("e", 0755))
		fail("d");
	make_file("d/file");
	add(&ring, SYMLINKAT, AT_FDCWD, "d", 0, (uint64_t)(uintptr_t) "l");
	add_open(&ring, "l/file", O_RDWR, 0);
	add(&ring, OP_MKDIRAT, AT_FDCWD, "l/made", 0755, 0);
	runs_chain("a link that is made", (int[]){ 0, number, 0 });
	close(number);
	add(&ring, OP_UNLINKAT, AT_FDCWD, "l", 0, 0);
	add_open(&ring, "l/file", O_RDWR, 0);
	runs_chain("a link that is gone", (int[]){ 0, -ENOENT });
	make_link("d", "l");
	add_two(OP_RENAMEAT, "l", "k");
	add_open(&ring, "k/file", O_RDWR, 0);
	runs_chain("a link that is moved", (int[]){ 0, number });
	close(number);
	add(&ring, OP_MKDIRAT, AT_FDCWD, "d/../new", 0755, 0);
	add(&ring, OP_MKDIRAT, AT_FDCWD, "new/in", 0755, 0);
	add_open(&ring, "new/in/file", O_RDWR | O_CREAT, 0);
	runs_chain("a path with dots", (int[]){ 0, 0, number });
	close(number);
	add(&ring, SYMLINKAT, AT_FDCWD, "file", 0, (uint64_t)(uintptr_t) "e/m");
	add(&ring, OP_UNLINKAT, AT_FDCWD, "e", 0, 0)->unlink_flags = AT_REMOVEDIR;
	runs_chain("a directory that is not empty", (int[]){ 0, -ENOTEMPTY });
	reads_name("new/in/file", 0);
}

/* A directory is moved to a name from which another entry in flight moves one away. */
static void moved_beside(void)
{
	if (mkdir("d", 0755) || mkdir("e", 0755))
		fail("d");
	make_file("d/in");
	add_two(OP_RENAMEAT, "e", "f")->flags = FLAG_ASYNC;
	add_two(OP_RENAMEAT, "d", "e")->flags = FLAG_ASYNC;
	submit(&ring, 2);
	take(&ring);
	take(&ring);
}

/* The next number below a limit of those that a seed gives. */
static uint64_t drawn;
static unsigned draw(unsigned limit)
{
	drawn = drawn * 6364136223846793005u + 1442695040888963407u;
	return (unsigned)(drawn >> 33) % limit;
}

/* A name: the first four are of the root. */
static const char *draw_name(unsigned count)
{
	static const char *const names[] = { "a",   "b", "s",	"t",   "d",   "d/x",
					     "d/s", "e", "e/y", "s/x", "t/y", "u" };

	return names[draw(count)];
}

/* A file is made or cut, and written. */
static void any_file(const char *name)
{
	int flags = O_RDWR | O_CREAT | (draw(2) ? O_TRUNC : 0);

	if (draw(2)) {
		int made = open(name, flags, 0644);
		if (made >= 0 && (write(made, name, strlen(name)) < 0 || close(made)))
			fail(name);
		return;
	}
	add_open(&ring, name, flags | (draw(4) ? 0 : O_EXCL) | (draw(4) ? 0 : O_NOFOLLOW), 0);
	int number = run_one(&ring);
	add(&ring, OP_WRITE, number, name, (unsigned)strlen(name), 0);
	run_one(&ring);
	add(&ring, OP_CLOSE, number, NULL, 0, 0);
	run_one(&ring);
}

/* A name is made or taken away by a call; the results are those of the file system. */
static int any_call(const char *one, const char *other)
{
	switch (draw(6)) {
	case 0:
		return symlink(other, one);
	case 1:
		return unlink(one);
	case 2:
		return rmdir(one);
	case 3:
		return mkdir(one, 0755);
	case 4:
		return linkat(AT_FDCWD, one, AT_FDCWD, other, draw(2) ? AT_SYMLINK_FOLLOW : 0);
	default:
		return moves(true, one, other, draw(4) ? 0 : 1 + draw(2));
	}
}

/* The same by an entry. */
static int any_entry(const char *one, const char *other)
{
	switch (draw(6)) {
	case 0:
		add(&ring, SYMLINKAT, AT_FDCWD, other, 0, (uint64_t)(uintptr_t)one);
		break;
	case 1:
		add(&ring, OP_UNLINKAT, AT_FDCWD, one, 0, 0)->unlink_flags =
			draw(2) ? AT_REMOVEDIR : 0;
		break;
	case 2:
		add(&ring, OP_MKDIRAT, AT_FDCWD, one, 0755, 0);
		break;
	case 3: /* (of two paths that are both wrong Linux tells the other one) */
		add_two(OP_LINKAT, one, draw_name(4))->hardlink_flags = draw(2) ? 0x400 : 0;
		break;
	case 4:
		add_open(&ring, one, O_RDONLY, 0);
		close(run_one(&ring));
		return 0;
	default:
		return moves(false, one, other, draw(4) ? 0 : 1 + draw(2));
	}
	return run_one(&ring);
}

static void any_links(void)
{
	int last = 0;

	for (int round = 0; round < 80; round++) {
		const char *one = draw_name(12), *other = draw_name(12);
		unsigned which = draw(8);
		if (which < 2)
			any_file(one);
		else
			last = which < 5 ? any_call(one, other) : any_entry(one, other);
	}
	(void)last;
}

/* Files elsewhere: opened, written and closed, alone and beside files of the tree. */
static void elsewhere_opened(void)
{
	add_open(&ring, elsewhere("out"), O_RDWR | O_CREAT, 0);
	int number = run_one(&ring);
	add(&ring, OP_WRITE, number, "elsewhere", 9, 0);
	expect("a write elsewhere", run_one(&ring), 9);
	add_open(&ring, "a", O_RDWR, 0);
	int other = run_one(&ring);
	add(&ring, OP_CLOSE, number, NULL, 0, 0);
	expect("a close", run_one(&ring), 0);
	add(&ring, OP_CLOSE, number, NULL, 0, 0);
	expect("a close of what is closed", run_one(&ring), -EBADF);
	add_open(&ring, "a", O_RDWR, 0);
	expect("the number again", run_one(&ring), number);
	add(&ring, OP_WRITE, other, "here", 4, 0);
	expect("a write", run_one(&ring), 4);
	unlink(elsewhere("out"));
}

/* The kernel chooses slots; what is there is used and closed. */
static void chosen_slots(void)
{
	register_slots(&ring, 8);
	for (int at = 0; at < 8; at++) {
		add_open(&ring, "a", O_RDWR, IORING_FILE_INDEX_ALLOC);
		expect("a chosen slot", run_one(&ring), at);
	}
	add(&ring, OP_WRITE, 3, "slot", 4, 0)->flags = FLAG_FIXED;
	expect("a write by a chosen slot", run_one(&ring), 4);
	add(&ring, OP_READ, 3, bytes, 10, 0)->flags = FLAG_FIXED;
	expect("a read by a chosen slot", run_one(&ring), 10);
	for (unsigned at = 0; at < 8; at++) {
		add(&ring, OP_CLOSE, 0, NULL, 0, 0)->file_index = at + 1;
		expect("a close", run_one(&ring), 0);
	}
	add_open(&ring, "a", O_RDWR, 4);
	expect("an open", run_one(&ring), 0);
	if (syscall(SYS_io_uring_register, ring.descriptor, IORING_UNREGISTER_FILES, NULL, 0))
		fail("io_uring_register");
	add(&ring, OP_CLOSE, 0, NULL, 0, 0)->file_index = 4;
	expect("a close without slots", run_one(&ring), -ENXIO);
}

/* OPENAT2, which the profile does not serve, into a slot and to a number; it makes files. */
static void open_by_how(void)
{
	struct {
		uint64_t flags, mode, resolve;
	} how = { O_RDWR | O_CREAT, 0644, 0 };

	register_slots(&ring, 4);
	add(&ring, OPENAT2, AT_FDCWD, "by_slot", sizeof how, (uint64_t)(uintptr_t)&how)
		->file_index = 2;
	expect("an open into a slot", run_one(&ring), 0);
	add(&ring, OP_WRITE, 1, "hidden", 6, 0)->flags = FLAG_FIXED;
	expect("a write", run_one(&ring), 6);
	add(&ring, OPENAT2, AT_FDCWD, "by_number", sizeof how, (uint64_t)(uintptr_t)&how);
	int number = run_one(&ring);
	add(&ring, OP_WRITE, number, "seen", 4, 0);
	expect("a write", run_one(&ring), 4);
	add(&ring, OP_CLOSE, number, NULL, 0, 0);
	expect("a close", run_one(&ring), 0);
}

/* A socket comes into a slot, and a file into a slot of another ring. */
static void passed_on(void)
{
	struct sockaddr_un name = { .sun_family = AF_UNIX };
	struct ring other;
	int listening = socket(AF_UNIX, SOCK_STREAM, 0), calling = socket(AF_UNIX, SOCK_STREAM, 0);

	snprintf(name.sun_path, sizeof name.sun_path, "socket");
	if (bind(listening, (struct sockaddr *)&name, sizeof name) || listen(listening, 1) ||
	    connect(calling, (struct sockaddr *)&name, sizeof name) ||
	    write(calling, "hello", 5) != 5)
		fail("socket");
	register_slots(&ring, 4);
	add(&ring, ACCEPT, listening, NULL, 0, 0)->file_index = 3;
	expect("an accept into a slot", run_one(&ring), 0);
	add(&ring, OP_READ, 2, bytes, 10, 0)->flags = FLAG_FIXED;
	expect("a read of a socket", run_one(&ring), 5);
	open_ring(&other, 8, 0);
	register_slots(&other, 4);
	add_open(&ring, "a", O_RDWR, 1);
	expect("an open", run_one(&ring), 0);
	struct io_uring_sqe *sqe = add(&ring, MSG_RING, other.descriptor, NULL, 0, 0);
	sqe->addr = 1;
	sqe->file_index = 2;
	expect("a file that is sent", run_one(&ring), 0);
	expect("its message", take(&other), 0);
	add(&other, OP_READ, 1, bytes, 10, 0)->flags = FLAG_FIXED;
	expect("a read", run_one(&other), 10);
	unlink("socket");
}

/* Slots and numbers beyond those that a trace has. */
static void beyond(void)
{
	struct rlimit limit = { 3000, 3000 };
	int *slots = malloc(2000 * sizeof *slots), number = 0;

	for (int at = 0; at < 2000; at++)
		slots[at] = at == 1500 ? file : -1;
	if (syscall(SYS_io_uring_register, ring.descriptor, IORING_REGISTER_FILES, slots, 2000))
		lack("io_uring_register");
	free(slots);
	add(&ring, OP_READ, 1500, bytes, 10, 0)->flags = FLAG_FIXED;
	expect("a read", run_one(&ring), 10);
	add(&ring, OP_WRITE, 1500, "beyond", 6, 0)->flags = FLAG_FIXED;
	expect("a write", run_one(&ring), 6);
	if (setrlimit(RLIMIT_NOFILE, &limit))
		lack("setrlimit");
	while (number < 1100)
		number = open("a", O_RDONLY);
	add_open(&ring, "b", O_RDWR | O_CREAT, 0);
	number = run_one(&ring);
	add(&ring, OP_WRITE, number, "number", 6, 0);
	expect("a write", run_one(&ring), 6);
}

/* One user_data for entries with several results, and for entries with one. */
static void alike(void)
{
	struct __kernel_timespec soon = { .tv_nsec = 1000000 };

	add(&ring, IORING_OP_TIMEOUT, -1, &soon, 1, 0)->user_data = 7;
	add(&ring, OP_NOP, 0, NULL, 0, 0)->user_data = 7;
	submit(&ring, 2);
	take(&ring);
	take(&ring);
	for (unsigned at = 0; at < 4; at++)
		add(&ring, OP_NOP, 0, NULL, 0, 0)->user_data = 8;
	submit(&ring, 4);
	for (unsigned at = 0; at < 4; at++)
		expect("a NOP", take(&ring), 0);
	add(&ring, OP_READ, file, bytes, 200, 100)->user_data = 9;
	add(&ring, OP_READ, file, bytes + 100, 50, 100)->user_data = 9;
	submit(&ring, 2);
	take(&ring);
	take(&ring);
}

/* Takes so many completions that may be in any order, with any result. */
static void take_any(unsigned count)
{
	submit(&ring, count);
	while (count--)
		take(&ring);
}

/* One user_data for entries of which some are given: whose result is whose is not known, and what
 * they changed neither. */
static void alike_given(void)
{
	int ends[2], to = open("b", O_CREAT | O_RDWR, 0644);

	if (pipe2(ends, O_NONBLOCK) || mkdir("there", 0755))
		fail("pipe");
	for (unsigned at = 0; at < 3; at++) {
		struct io_uring_sqe *sqe = add(&ring, OP_WRITE, to, "write", 5, 5 * at);
		sqe->user_data = 7;
		sqe->flags = FLAG_ASYNC;
		sqe = add(&ring, OP_READ, ends[0], bytes, 5, 0);
		sqe->user_data = 7;
		sqe->rw_flags = 8;
		take_any(2);
	}
	if (write(ends[1], "piped", 5) != 5)
		fail("write");
	add(&ring, OP_READ, file, bytes + 100, 5, BYTES - 3)->user_data = 8;
	struct io_uring_sqe *sqe = add(&ring, OP_READ, ends[0], bytes, 5, 0);
	sqe->user_data = 8;
	sqe->flags = FLAG_LINK;
	add(&ring, OP_WRITE, open("c", O_CREAT | O_RDWR, 0644), "behind", 6, 0);
	take_any(3);
	add(&ring, OP_MKDIRAT, AT_FDCWD, "there", 0755, 0)->user_data = 9;
	add(&ring, OP_MKDIRAT, AT_FDCWD, "here", 0755, 0)->user_data = 9;
	take_any(2);
	for (int at = 0; at < 4; at++)
		add(&ring, OP_MKDIRAT, AT_FDCWD, "there", 0755, 0)->user_data = 10;
	take_any(4);
	add(&ring, OP_READ, to, bytes, 15, 0);
	expect("a read", run_one(&ring), 15);
}

/* A read into the queue of its ring, over the entry behind it. */
static void into_the_queue(void)
{
	struct io_uring_sqe nop = { .opcode = OP_NOP, .user_data = 77 };
	int from = open("b", O_CREAT | O_RDWR, 0644);

	if (write(from, &nop, sizeof nop) != sizeof nop)
		fail("b");
	struct io_uring_sqe *sqe = add(&ring, OP_READ, from, NULL, sizeof nop, 0);
	struct io_uring_sqe *next = add(&ring, OP_WRITE, file, "written or not", 14, 0);
	sqe->addr = (uint64_t)(uintptr_t)next;
	take_any(2);
	add(&ring, OP_READ, file, bytes, 14, 0);
	expect("a read", run_one(&ring), 14);
}

/* Completions that are never seen: of a pipe, behind a drain, and more than the queue holds. */
static void unseen(void)
{
	int ends[2];
	struct ring small;

	if (pipe(ends))
		fail("pipe");
	open_ring(&small, 4, 0);
	for (unsigned at = 0; at < 40; at++) {
		add(&small, OP_READ, file, bytes, 1, at);
		submit(&small, 0);
	}
	add(&ring, OP_READ, ends[0], bytes, 1, 0)->flags = FLAG_LINK;
	add_open(&ring, "never", O_CREAT | O_RDWR, 0);
	add(&ring, OP_NOP, 0, NULL, 0, 0)->flags = FLAG_DRAIN;
	submit(&ring, 0);
	usleep(10000);
}

/* A poll with many completions, and a drain behind it. */
static void many_completions(void)
{
	int ends[2];

	if (pipe(ends))
		fail("pipe");
	struct io_uring_sqe *sqe = add(&ring, IORING_OP_POLL_ADD, ends[0], NULL, 1, 0);
	sqe->poll32_events = POLLIN;
	submit(&ring, 0);
	if (write(ends[1], "x", 1) != 1)
		fail("write");
	usleep(2000);
	add(&ring, OP_NOP, 0, NULL, 0, 0)->flags = FLAG_DRAIN;
	submit(&ring, 0);
	usleep(2000);
}

/* Results that no replay has: a limit on the size of files, a polled ring, memory that is not
 * there. */
static void refused(void)
{
	struct rlimit limit = { 1000, 1000 };
	struct ring polled;

	signal(SIGXFSZ, SIG_IGN);
	if (setrlimit(RLIMIT_FSIZE, &limit))
		fail("setrlimit");
	add(&ring, OP_FALLOCATE, file, (void *)(uintptr_t)4000, 0, 0);
	expect("an allocation", run_one(&ring), -EFBIG);
	add(&ring, OP_READ, file, (void *)8, 10, 0);
	expect("a read to nowhere", run_one(&ring), -EFAULT);
	add(&ring, OP_READ, file, bytes, 10, 0)->ioprio = 0xffff;
	expect("a read with a wrong priority", run_one(&ring), -EINVAL);
	open_ring(&polled, 4, IORING_SETUP_IOPOLL);
	add(&polled, OP_READ, file, bytes, 10, 0);
	submit(&polled, 1);
	take(&polled);
}

/* Chains with a member that the profile does not serve: files, slots and names that they change. */
static void chains(void)
{
	struct __kernel_timespec late = { .tv_sec = 10 };
	char other[] = "chain";
	struct iovec vector = { other, 5 };

	register_slots(&ring, 4);
	add(&ring, OP_WRITEV, file, &vector, 1, 0)->flags = FLAG_LINK;
	add(&ring, IORING_OP_LINK_TIMEOUT, -1, &late, 1, 0);
	submit(&ring, 2);
	take(&ring);
	take(&ring);
	add(&ring, IORING_OP_STATX, AT_FDCWD, "a", 0x7ff, (uint64_t)(uintptr_t)malloc(256))->flags =
		FLAG_LINK;
	add_open(&ring, "chained", O_CREAT | O_RDWR, 2)->flags = FLAG_LINK;
	add(&ring, OP_WRITE, 1, "chained", 7, 0)->flags = FLAG_FIXED | FLAG_LINK;
	add(&ring, OP_MKDIRAT, AT_FDCWD, "made", 0755, 0);
	submit(&ring, 4);
	for (int at = 0; at < 4; at++)
		take(&ring);
	add(&ring, OP_READ, 1, bytes, 7, 0)->flags = FLAG_FIXED;
	expect("a read of a chained slot", run_one(&ring), 7);
	add_open(&ring, "made/x", O_CREAT | O_RDWR, 0);
	if (run_one(&ring) < 0)
		fail("an open");
}

/* Another root for the names of the process. */
static void other_root(void)
{
	mkdir("jail", 0755);
	if (chroot("jail"))
		lack("chroot");
	if (chdir("/"))
		fail("chdir");
	add(&ring, OP_MKDIRAT, AT_FDCWD, "/injail", 0755, 0);
	expect("a directory", run_one(&ring), 0);
	if (mkdir("/ordinary", 0755))
		fail("mkdir");
	add_open(&ring, "/injail/file", O_CREAT | O_RDWR, 0);
	if (run_one(&ring) < 0)
		fail("an open");
}

/* Files of more than 2^40 bytes, at the start and later. */
static void huge(void)
{
	int number = open("huge", O_CREAT | O_RDWR, 0644);

	if (ftruncate(number, 1LL << 42))
		lack("ftruncate");
	add(&ring, OP_READ, number, bytes, 10, 5);
	expect("a read", run_one(&ring), 10);
	add_open(&ring, "huge", O_RDWR, 0);
	if (run_one(&ring) < 0)
		fail("an open");
	number = open("grows", O_CREAT | O_RDWR, 0644);
	add(&ring, OP_WRITE, number, "small", 5, 0);
	expect("a write", run_one(&ring), 5);
	if (ftruncate(number, 1LL << 41))
		fail("ftruncate");
	add(&ring, OP_READ, number, bytes, 5, 0);
	expect("a read", run_one(&ring), 5);
}

/* Threads */

static volatile bool is_over, has_begun;

/* Writes through a ring of its own. */
static void *write_on(void *number)
{
	struct ring own;
	unsigned me = (unsigned)(uintptr_t)number;

	open_ring(&own, 4, 0);
	for (unsigned at = 0; at < 100000; at++) {
		add(&own, OP_WRITE, file, "work", 4, 4ULL * (me * 100000 + at));
		expect("a write", run_one(&own), 4);
	}
	return NULL;
}

/* The process ends while its threads submit. */
static void ends_meanwhile(void)
{
	pthread_t thread;

	for (uintptr_t at = 0; at < 4; at++)
		pthread_create(&thread, NULL, write_on, (void *)at);
	usleep(30000);
	exit(0);
}

/* Opens and closes the number 40. */
static void *close_on(void *unused)
{
	(void)unused;
	while (!is_over) {
		int number = open("b", O_RDWR | O_CREAT, 0644);
		dup2(number, 40);
		close(40);
		close(number);
	}
	return NULL;
}

/* Another thread closes what entries use. */
static void closed_meanwhile(void)
{
	pthread_t thread;

	pthread_create(&thread, NULL, close_on, NULL);
	for (int at = 0; at < 150; at++) {
		add(&ring, OP_WRITE, 40, "x", 1, 0);
		run_one(&ring);
		add(&ring, OP_READ, 40, bytes, 1, 0);
		run_one(&ring);
	}
	is_over = true;
	pthread_join(thread, NULL);
}

/* Changes the bytes that are read. */
static void *change_on(void *unused)
{
	(void)unused;
	while (!is_over) {
		memset(bytes, 'Z', BYTES);
		has_begun = true;
	}
	return NULL;
}

/* Another thread changes what a read brings. */
static void changed_meanwhile(void)
{
	pthread_t thread;

	pthread_create(&thread, NULL, change_on, NULL);
	while (!has_begun)
		usleep(100);
	for (int at = 0; at < 100; at++) {
		add(&ring, OP_READ, file, bytes, BYTES, 0);
		expect("a read", run_one(&ring), BYTES);
	}
	is_over = true;
	pthread_join(thread, NULL);
}

/* Waits without a call of the ring for so many completions, and takes them: the program changes
 * bytes before it looks. */
static void take_late(char *moved, unsigned count)
{
	submit(&ring, 0);
	for (int tries = 0; tries < 10000 && *ring.cq_tail - *ring.cq_head < count; tries++)
		usleep(100);
	memset(moved, '!', 64);
	while (count--)
		take(&ring);
}

/* A chain writes what it reads, by each kind of access to the copy, and with vectors. */
static void written_late(void)
{
	static const int access[] = { O_RDWR, O_WRONLY };
	static char moved[4][64];

	for (unsigned at = 0; at < 4; at++) {
		struct iovec halves[] = { { moved[at], 20 }, { moved[at] + 20, 44 } };
		int to = open("copy", O_CREAT | access[at % 2], 0644);
		add(&ring, OP_READ, file, moved[at], 64, 64ULL * at)->flags = FLAG_LINK;
		if (at < 2)
			add(&ring, OP_WRITE, to, moved[at], 64, 64ULL * at);
		else
			add(&ring, OP_WRITEV, to, halves, 2, 64ULL * at);
		take_late(moved[at], 2);
		close(to);
	}
	add(&ring, OP_READ, open("copy", O_RDONLY), bytes, 256, 0);
	expect("a read of the copy", run_one(&ring), 256);
}

/* The same where the bytes are not in the copy, or it is not known where. */
static void written_away(void)
{
	static char moved[64];
	int to = open("copy", O_CREAT | O_RDWR, 0644);

	add(&ring, OP_READ, file, moved, 64, 0)->flags = FLAG_LINK;
	add(&ring, OP_WRITE, to, moved, 64, 0)->flags = FLAG_LINK;
	add(&ring, OP_WRITE, to, "over it", 7, 60);
	take_late(moved, 3);
	to = open("end", O_CREAT | O_RDWR | O_APPEND, 0644);
	add(&ring, OP_READ, file, moved, 64, 0)->flags = FLAG_LINK;
	add(&ring, OP_WRITE, to, moved, 64, 0);
	take_late(moved, 2);
}

static const struct mode modes[] = {
	{ "through_a_link", through_a_link },
	{ "links", links },
	{ "over_links", over_links },
	{ "links_in_chains", links_in_chains },
	{ "moved_beside", moved_beside },
	{ "any_links", any_links },
	{ "elsewhere", elsewhere_opened },
	{ "chosen_slots", chosen_slots },
	{ "open_by_how", open_by_how },
	{ "passed_on", passed_on },
	{ "beyond", beyond },
	{ "alike", alike },
	{ "alike_given", alike_given },
	{ "into_the_queue", into_the_queue },
	{ "unseen", unseen },
	{ "many_completions", many_completions },
	{ "refused", refused },
	{ "chains", chains },
	{ "other_root", other_root },
	{ "huge", huge },
	{ "ends_meanwhile", ends_meanwhile },
	{ "closed_meanwhile", closed_meanwhile },
	{ "changed_meanwhile", changed_meanwhile },
	{ "written_late", written_late },
	{ "written_away", written_away },
};

int main(int count, char **words)
{
	alarm(30); /* (a completion that does not come is waited for no longer) */
	for (unsigned at = 0; at < BYTES; at++)
		bytes[at] = (char)('A' + at % 26);
	open_ring(&ring, 16, 0);
	file = open("a", O_CREAT | O_RDWR, 0644);
	if (file < 0 || write(file, bytes, BYTES) != BYTES)
		fail("a");
	drawn = count > 2 ? strtoull(words[2], NULL, 10) : 0;
	if (count < 2 || !run_mode(modes, sizeof modes / sizeof *modes, words[1])) {
		fputs("marks MODE [SEED]\n", stderr);
		return 2;
	}
	add(&ring, OP_NOP, 0, NULL, 0, 0);
	submit(&ring, 0);
	return 0;
}
