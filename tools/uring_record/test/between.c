/* Programs that change what their slots and numbers hold, and positions, by calls between two
 * submissions: between MODE, in an empty directory. Each entry has the result that is expected of
 * it, and the bytes. Ends with 1 where one differs, and with 77 where the kernel lacks what a mode
 * needs.
 *
 * shared: numbers of one description. moved: positions behind the end, of what is only written, and
 * without a name. updated: files that come into slots later. chosen: slots that the kernel chooses.
 * taken: numbers of what is no file. root: the root itself. nameless: files that lost their name.
 * passed: slots and numbers that entries fill which no replay decides. left: copies that the
 * recorder has let go of. held: a thread holds a number while it waits in an ordinary open. beside:
 * an entry does. at_once: opens in flight at once. making: a thread makes files by ordinary calls.
 * any SEED: calls and entries as they are drawn, with any result. */
#include "raw.h"

#include <linux/openat2.h>
#include <pthread.h>
#include <signal.h>
#include <sys/file.h>
#include <sys/stat.h>

enum {
	ENTRIES = 16,
	BYTES = 200,
	SLOTS = 8,
	HIGH = 20,
	FILES_UPDATE = 20,
	OPENAT2 = 28,
	MSG_RING = 40,
	FD_INSTALL = 54,
	SENDS_DESCRIPTOR = 1,
};

static struct ring ring;
static char memory[4096];

/* An entry by itself: its result is this one. */
static void one(const char *what, const struct io_uring_sqe *sqe, int wanted)
{
	(void)sqe;
	expect(what, run_one(&ring), wanted);
}

/* A read at an offset, or at the position, that begins with this byte of the file. */
static void reads(const char *what, int from, uint8_t flags, uint64_t offset, int length, int first)
{
	struct io_uring_sqe *sqe = add(&ring, OP_READ, from, memory, (unsigned)length, offset);

	sqe->flags = flags;
	memory[0] = 0;
	one(what, sqe, length);
	expect(what, (unsigned char)memory[0], first);
}

/* An entry on a number or slot that is refused. */
static void refuses(const char *what, unsigned char opcode, int on, uint8_t flags, int wanted)
{
	struct io_uring_sqe *sqe = add(&ring, opcode, on, memory, 1, 0);

	if (opcode == OP_FSYNC || opcode == OP_CLOSE)
		sqe->addr = sqe->len = 0;
	sqe->flags = flags;
	one(what, sqe, wanted);
}

static void writes(const char *what, int to, uint8_t flags, uint64_t offset)
{
	struct io_uring_sqe *sqe = add(&ring, OP_WRITE, to, "text", 4, offset);

	sqe->flags = flags;
	one(what, sqe, 4);
}

static struct io_uring_sqe *opens(const char *path, int flags, unsigned index)
{
	struct io_uring_sqe *sqe = add(&ring, OP_OPENAT, AT_FDCWD, path, 0644, 0);

	sqe->open_flags = (unsigned)flags;
	sqe->file_index = index;
	return sqe;
}

static void closes(const char *what, int number, unsigned index, int wanted)
{
	struct io_uring_sqe *sqe = add(&ring, OP_CLOSE, number, NULL, 0, 0);

	sqe->file_index = index;
	one(what, sqe, wanted);
}

/* A file of as many bytes as there are, each its own place, opened by an ordinary call. */
static int new_file(const char *name, int flags)
{
	int made = open(name, O_RDWR | O_CREAT | O_TRUNC, 0644);
	char bytes[BYTES];

	for (int at = 0; at < BYTES; at++)
		bytes[at] = (char)at;
	if (made < 0 || write(made, bytes, BYTES) != BYTES || close(made))
		fail(name);
	made = open(name, flags);
	if (made < 0)
		fail(name);
	return made;
}

static void updates(unsigned slot, int number)
{
	struct io_uring_rsrc_update update = { .offset = slot };

	update.data = (uint64_t)(uintptr_t)&number;
	if (syscall(SYS_io_uring_register, ring.descriptor, IORING_REGISTER_FILES_UPDATE, &update,
		    1) != 1)
		fail("io_uring_register");
}

/* Slots without files. */
static void has_slots(const struct ring *of)
{
	int none[SLOTS];

	memset(none, -1, sizeof none);
	if (syscall(SYS_io_uring_register, of->descriptor, IORING_REGISTER_FILES, none, SLOTS))
		fail("io_uring_register");
}

static void moves(int number, off_t position)
{
	if (lseek(number, position, SEEK_SET) != position)
		fail("lseek");
}

static void shared(void)
{
	int number = new_file("a", O_RDONLY), other = new_file("b", O_RDONLY);

	if (dup2(number, HIGH) < 0)
		fail("dup2");
	reads("a number", number, 0, AT_POSITION, 10, 0);
	reads("its other one", HIGH, 0, AT_POSITION, 10, 10);
	reads("another file", other, 0, AT_POSITION, 3, 0);
	moves(HIGH, 100);
	reads("a number that was moved", number, 0, AT_POSITION, 5, 100);
	close(number);
	refuses("a number that is closed", OP_READ, number, 0, -EBADF);
	reads("the one that is left", HIGH, 0, AT_POSITION, 5, 105);
	if (dup2(HIGH, number) < 0 || dup2(other, HIGH) < 0)
		fail("dup2");
	reads("a number again", number, 0, AT_POSITION, 5, 110);
	reads("the other file", HIGH, 0, AT_POSITION, 5, 3);
	reads("by its first number", other, 0, AT_POSITION, 5, 8);
	closes("a close", other, 0, 0);
	reads("the other file again", HIGH, 0, AT_POSITION, 5, 13);
}

static void moved(void)
{
	int number = new_file("a", O_RDWR), written = new_file("b", O_WRONLY);
	int nameless = new_file("c", O_RDWR), plain = new_file("d", O_RDONLY);

	reads("a file that loses its name", nameless, 0, 0, 1, 0);
	unlink("c");
	moves(nameless, 70);
	reads("a file without a name", nameless, 0, AT_POSITION, 3, 70);
	moves(nameless, 7);
	reads("the same, before", nameless, 0, AT_POSITION, 3, 7);
	moves(number, 1000);
	refuses("nothing yet", OP_FSYNC, number, 0, 0);
	writes("behind the end", number, 0, AT_POSITION);
	writes("and behind it", number, 0, AT_POSITION);
	moves(written, 1 << 21);
	writes("what is only written", written, 0, AT_POSITION);
	moves(written, 5);
	writes("the same, before", written, 0, AT_POSITION);
	reads("a file", plain, 0, AT_POSITION, 2, 0);
	if (read(plain, memory, 40) != 40 || pread(plain, memory, 40, 100) != 40)
		fail("read");
	reads("a file that read(2) moved", plain, 0, AT_POSITION, 2, 42);
}

static void updated(void)
{
	int number = new_file("a", O_RDWR), other = new_file("b", O_RDWR), ends[2];

	if (pipe(ends))
		fail("pipe");
	has_slots(&ring);
	updates(2, number);
	reads("a slot", 2, FLAG_FIXED, AT_POSITION, 10, 0);
	reads("its number", number, 0, AT_POSITION, 10, 10);
	moves(number, 50);
	reads("a slot that was moved", 2, FLAG_FIXED, AT_POSITION, 10, 50);
	updates(2, number);
	updates(3, number);
	close(number);
	reads("another slot", 3, FLAG_FIXED, AT_POSITION, 10, 60);
	updates(2, -1);
	refuses("a slot that is empty", OP_READ, 2, FLAG_FIXED, -EBADF);
	updates(3, other);
	reads("another file", 3, FLAG_FIXED, 30, 10, 30);
	updates(3, ends[1]);
	writes("a pipe", 3, FLAG_FIXED, 0);
	updates(3, -1);
	refuses("a slot that had a pipe", OP_FSYNC, 3, FLAG_FIXED, -EBADF);
	updates(4, ends[1]);
	closes("a slot that has a pipe", 0, 4 + 1, 0);
	refuses("a slot that had a pipe", OP_FSYNC, 4, FLAG_FIXED, -EBADF);
	updates(4, ends[1]);
	one("an open over a pipe", opens("a", O_RDONLY, 4 + 1), 0);
	reads("what came there", 4, FLAG_FIXED, 5, 5, 5);
}

static void chosen(void)
{
	new_file("a", O_RDWR);
	has_slots(&ring);
	for (int at = 0; at < SLOTS; at++)
		one("a chosen slot", opens("a", O_RDWR, IORING_FILE_INDEX_ALLOC), at);
	reads("a chosen slot", 3, FLAG_FIXED, AT_POSITION, 10, 0);
	writes("a chosen slot", 3, FLAG_FIXED, AT_POSITION);
	one("no slot is left", opens("a", O_RDWR, IORING_FILE_INDEX_ALLOC), -ENFILE);
	closes("a chosen slot", 0, 5 + 1, 0);
	one("no name", opens("none", O_RDWR, IORING_FILE_INDEX_ALLOC), -ENOENT);
	one("a new name", opens("new", O_RDWR | O_CREAT, IORING_FILE_INDEX_ALLOC), 5);
	writes("a new file", 5, FLAG_FIXED, 0);
	closes("a new file", 0, 5 + 1, 0);
	opens("new", O_RDONLY, IORING_FILE_INDEX_ALLOC)->flags = FLAG_LINK;
	add(&ring, OP_READ, 5, memory, 2, 0)->flags = FLAG_FIXED | FLAG_LINK;
	add(&ring, OP_CLOSE, 0, NULL, 0, 0)->file_index = 5 + 1;
	submit(&ring, 3);
	expect("an open in a chain", take(&ring), 5);
	expect("its read", take(&ring), 2);
	expect("its close", take(&ring), 0);
	refuses("a slot that is closed", OP_FSYNC, 5, FLAG_FIXED, -EBADF);
}

static void taken(void)
{
	int ends[2], lowest = dup(0);

	if (lowest < 0 || close(lowest) || pipe(ends))
		fail("pipe");
	new_file("a", O_RDONLY); /* (the next number) */
	expect("the lowest number", ends[0], lowest);
	one("an open behind a pipe", opens("a", O_RDONLY, 0), ends[1] + 2);
	closes("an end of a pipe", ends[0], 0, 0);
	one("an open in its place", opens("a", O_RDONLY, 0), ends[0]);
	closes("a close", ends[0], 0, 0);
	closes("a ring cannot be closed so", ring.descriptor, 0, -EBADF);
	if (dup2(ends[1], HIGH) < 0)
		fail("dup2");
	closes("another number of a pipe", HIGH, 0, 0);
	closes("the same again", HIGH, 0, -EBADF);
}

static void root(void)
{
	struct statx told;
	int number = open(".", O_RDONLY | O_DIRECTORY);

	if (number < 0)
		fail("the root");
	refuses("a sync", OP_FSYNC, number, 0, 0);
	refuses("a read of a directory", OP_READ, number, 0, -EISDIR);
	struct io_uring_sqe *sqe = add(&ring, OP_STATX, number, "", STATX_SIZE, 0);
	sqe->addr2 = (uint64_t)(uintptr_t)&told;
	sqe->statx_flags = AT_EMPTY_PATH;
	one("what it is", sqe, 0);
	closes("a close", number, 0, 0);
}

static void nameless(void)
{
	int number = new_file("a", O_RDWR), direct = new_file("b", O_RDWR);

	has_slots(&ring);
	updates(1, direct);
	reads("a slot", 1, FLAG_FIXED, 0, 1, 0);
	reads("a number", number, 0, 0, 1, 0);
	unlink("a");
	unlink("b");
	if (dup2(number, HIGH) < 0 || dup2(direct, HIGH + 1) < 0)
		fail("dup2");
	reads("another number", HIGH, 0, AT_POSITION, 5, 0);
	reads("a number of what a slot has", HIGH + 1, 0, AT_POSITION, 5, 0);
	updates(2, number);
	reads("a slot of a number", 2, FLAG_FIXED, AT_POSITION, 5, 5);
	if (pwrite(direct, "x", 1, 9) != 1 || pwrite(number, "y", 1, 8) != 1)
		fail("pwrite");
	reads("what a call wrote", 1, FLAG_FIXED, 9, 1, 'x');
	reads("what a call wrote", 2, FLAG_FIXED, 8, 1, 'y');
}

/* Slots of this ring, and of another one, that entries fill whose opcodes are not served. */
static void passed(void)
{
	struct open_how how = { .flags = O_RDWR };
	struct ring other;
	int number = new_file("a", O_RDWR), list[2] = { number, number };

	open_ring(&other, ENTRIES, 0);
	has_slots(&ring);
	has_slots(&other);
	for (int at = 0; at < 2; at++) {
		struct io_uring_sqe *sqe =
			add(&ring, OPENAT2, AT_FDCWD, "a", sizeof how, (uint64_t)(uintptr_t)&how);
		sqe->file_index = at ? (unsigned)IORING_FILE_INDEX_ALLOC : 3;
		int slot = run_one(&ring);
		if (slot < 0)
			expect("an open by its how", slot, 0);
		reads("its slot", at ? slot : 2, FLAG_FIXED, AT_POSITION, 5, 0);
	}
	struct io_uring_sqe *sent = add(&ring, MSG_RING, other.descriptor, NULL, 0, 0);
	sent->addr = SENDS_DESCRIPTOR;
	sent->addr3 = 2;
	sent->file_index = 7;
	one("a slot that is sent", sent, 0);
	add(&other, OP_READ, 6, memory, 5, AT_POSITION)->flags = FLAG_FIXED;
	submit(&other, 2);
	take(&other);
	expect("what was sent", take(&other), 5);
	expect("what was sent", memory[0], 5);
	reads("its first slot", 2, FLAG_FIXED, AT_POSITION, 5, 10);
	add(&ring, FD_INSTALL, 2, NULL, 0, 0)->flags = FLAG_FIXED;
	int installed = run_one(&ring);
	if (installed < 0)
		expect("a number for a slot", installed, 0);
	reads("a number for a slot", installed, 0, AT_POSITION, 5, 15);
	moves(installed, 40);
	reads("a slot with a number", 2, FLAG_FIXED, AT_POSITION, 5, 40);
	one("chosen slots", add(&ring, FILES_UPDATE, -1, list, 2, IORING_FILE_INDEX_ALLOC), 2);
	reads("a chosen slot", list[1], FLAG_FIXED, AT_POSITION, 5, 0);
	reads("the same file", list[0], FLAG_FIXED, AT_POSITION, 5, 5);
}

static void left(void)
{
	int number = new_file("a", O_RDONLY), locked = new_file("b", O_RDONLY);

	has_slots(&ring);
	updates(0, number);
	if (dup2(number, HIGH) < 0)
		fail("dup2");
	reads("a slot", 0, FLAG_FIXED, AT_POSITION, 5, 0);
	reads("a number", number, 0, AT_POSITION, 5, 5);
	reads("another number", HIGH, 0, AT_POSITION, 5, 10);
	close(number);
	if (flock(locked, LOCK_EX))
		fail("flock");
	moves(HIGH, 90);
	reads("a slot whose number is closed", 0, FLAG_FIXED, AT_POSITION, 5, 90);
	reads("another number", HIGH, 0, AT_POSITION, 5, 95);
	reads("the locked file", locked, 0, AT_POSITION, 5, 0);
}

/* Numbers that others get */

static int lowest_number(void)
{
	int lowest = dup(0);

	if (lowest < 0 || close(lowest))
		fail("dup");
	return lowest;
}

/* Waits until something that opens a pipe holds the lowest number; it has no file yet. */
static void wait_until_held(int number)
{
	while (lowest_number() == number)
		usleep(1000);
}

/* Opens a pipe for reading, and closes it. */
static void *read_pipe(void *unused)
{
	int number = open("pipe", O_RDONLY);

	(void)unused;
	if (number < 0 || close(number))
		fail("pipe");
	return NULL;
}

/* Opens by entries while something else holds a number: it is not free, and it has no file. */
static void opens_beside(int held)
{
	for (int at = 0; at < 3; at++) {
		one("an open", opens("new", O_RDWR | O_CREAT, 0), held + 1);
		writes("its file", held + 1, 0, 0);
		one("another one", opens("a", O_RDWR | O_TRUNC, 0), held + 2);
		writes("its file", held + 2, 0, AT_POSITION);
		closes("the first", held + 1, 0, 0);
		one("an open in its place", opens("new", O_RDONLY, 0), held + 1);
		reads("its file", held + 1, 0, AT_POSITION, 4, 't');
		closes("a close", held + 1, 0, 0);
		closes("a close", held + 2, 0, 0);
	}
}

/* The same once nothing holds one. */
static void opens_again(int number)
{
	one("an open later", opens("a", O_RDONLY, 0), number);
	reads("its file", number, 0, 0, 4, 't');
	one("an open of none", opens("none", O_RDONLY, 0), -ENOENT);
	one("the next", opens("a", O_RDONLY, 0), number + 1);
	closes("a close", number, 0, 0);
	reads("the other", number + 1, 0, AT_POSITION, 4, 't');
}

static void held(void)
{
	pthread_t thread;

	close(new_file("a", O_RDONLY));
	int number = lowest_number();
	if (mkfifo("pipe", 0644))
		fail("pipe");
	pthread_create(&thread, NULL, read_pipe, NULL);
	wait_until_held(number);
	opens_beside(number);
	close(open("pipe", O_WRONLY));
	pthread_join(thread, NULL);
	opens_again(number);
}

static void beside(void)
{
	struct ring other;

	open_ring(&other, ENTRIES, 0);
	close(new_file("a", O_RDONLY));
	int number = lowest_number();
	if (mkfifo("pipe", 0644))
		fail("pipe");
	struct io_uring_sqe *sqe = add(&other, OP_OPENAT, AT_FDCWD, "pipe", 0, 0);
	sqe->flags = FLAG_ASYNC;
	submit(&other, 0);
	wait_until_held(number);
	opens_beside(number);
	close(open("pipe", O_WRONLY));
	expect("the pipe", take(&other), number);
	add(&other, OP_CLOSE, number, NULL, 0, 0);
	expect("its close", run_one(&other), 0);
	opens_again(number);
}

/* Files that are opened, written and closed all at once, a few times: numbers as they come. */
static void at_once(void)
{
	static const char *const names[] = { "a", "b", "c", "d", "e", "f", "g", "h" };
	enum { FILES = sizeof names / sizeof *names };

	for (int round = 0; round < 20; round++) {
		int numbers[FILES], flags = O_RDWR | O_CREAT | (round & 1 ? O_TRUNC : 0);
		for (int at = 0; at < FILES; at++)
			opens(names[at], flags, 0)->flags = round & 2 ? FLAG_ASYNC : 0;
		submit(&ring, FILES);
		for (int at = 0; at < FILES; at++)
			numbers[at] = take(&ring);
		for (int at = 0; at < FILES; at++)
			add(&ring, OP_WRITE, numbers[at], names[at], 1, (uint64_t)round);
		submit(&ring, FILES);
		for (int at = 0; at < FILES; at++)
			expect("a write", take(&ring), 1);
		int number = 0;
		for (int at = 0; at < FILES; at++)
			add(&ring, OP_CLOSE, numbers[at], NULL, 0, 0)->flags = FLAG_ASYNC;
		opens("a", O_RDONLY, 0);
		submit(&ring, FILES + 1);
		for (int at = 0; at <= FILES; at++)
			number += take(&ring); /* (a close gives 0) */
		closes("the last", number, 0, 0);
	}
}

/* Makes files, and takes their names away. */
static volatile bool is_over;
static void *make_files(void *unused)
{
	char name[16];

	(void)unused;
	for (unsigned at = 0; !is_over; at++) {
		snprintf(name, sizeof name, "made%u", at);
		int made = open(name, O_CREAT | O_RDWR, 0644);
		if (made < 0 || unlink(name) || close(made))
			fail(name);
	}
	return NULL;
}

static void making(void)
{
	pthread_t thread;

	new_file("a", O_RDWR);
	if (pthread_create(&thread, NULL, make_files, NULL))
		fail("a thread");
	for (int round = 0; round < 300; round++) {
		opens("a", O_RDWR, 0);
		int number = run_one(&ring);
		writes("a file", number, 0, 0);
		closes("a close", number, 0, 0);
	}
	is_over = true;
	pthread_join(thread, NULL);
}

/* The next number below a limit of those that a seed gives. */
static uint64_t drawn;
static unsigned draw(unsigned limit)
{
	drawn = drawn * 6364136223846793005u + 1442695040888963407u;
	return (unsigned)(drawn >> 33) % limit;
}

static const char *draw_name(void)
{
	static const char *const names[] = { "a", "b", "c", "d" };

	return names[draw(4)];
}

/* A number of those that calls and entries use here, or another one. */
static int draw_number(void)
{
	return (int)draw(10) + 4;
}

/* Entries */

static void any_move(void)
{
	bool is_slot = draw(2), reads = draw(3);
	uint64_t offset = draw(3) ? AT_POSITION : draw(300);
	int on = is_slot ? (int)draw(SLOTS) : draw_number();
	struct io_uring_sqe *sqe =
		add(&ring, reads ? OP_READ : OP_WRITE, on, memory, 1 + draw(40), offset);

	sqe->flags = is_slot ? FLAG_FIXED : 0;
}

static void any_open(void)
{
	static const int flags[] = { O_RDONLY, O_RDWR, O_WRONLY | O_APPEND, O_RDWR | O_CREAT };
	unsigned index = draw(3)   ? 0
			 : draw(2) ? draw(SLOTS) + 1
				   : (unsigned)IORING_FILE_INDEX_ALLOC;

	if (draw(6))
		opens(draw_name(), flags[draw(4)], index);
	else
		opens("/etc/passwd", O_RDONLY, index);
}

static void any_close(void)
{
	unsigned index = draw(2) ? draw(SLOTS) + 1 : 0;

	add(&ring, OP_CLOSE, index ? 0 : draw_number(), NULL, 0, 0)->file_index = index;
}

/* An entry that no replay decides, which fills slots or numbers. */
static void any_given(void)
{
	static struct open_how how;
	static int list[2];
	unsigned slot = draw(SLOTS);
	bool is_chosen = draw(2);
	struct io_uring_sqe *sqe;

	how.flags = draw(2) ? O_RDWR : O_RDONLY;
	list[0] = draw_number();
	list[1] = draw_number();
	switch (draw(3)) {
	case 0:
		sqe = add(&ring, OPENAT2, AT_FDCWD, draw_name(), sizeof how,
			  (uint64_t)(uintptr_t)&how);
		sqe->file_index = is_chosen ? (unsigned)IORING_FILE_INDEX_ALLOC : slot + 1;
		break;
	case 1:
		add(&ring, FILES_UPDATE, -1, list, 1 + draw(2),
		    is_chosen ? (unsigned)IORING_FILE_INDEX_ALLOC : slot);
		break;
	default:
		add(&ring, FD_INSTALL, (int)slot, NULL, 0, 0)->flags = FLAG_FIXED;
		break;
	}
}

static void any_entry(void)
{
	unsigned which = draw(18);

	if (which < 10)
		any_move();
	else if (which < 14)
		any_open();
	else if (which < 16)
		any_close();
	else
		any_given();
}

/* Calls */

/* A number of its own for what a call opened, in place of what is there. */
static void renumber(int made)
{
	int number = draw_number();

	if (made >= 0 && made != number) {
		dup2(made, number);
		close(made);
	}
}

static void any_number_call(void)
{
	int ends[2], one = draw_number(), other = draw_number();

	switch (draw(5)) {
	case 0:
		if (!pipe(ends)) {
			close(ends[0]);
			renumber(ends[1]);
		}
		break;
	case 1:
		renumber(open(".", O_RDONLY | O_DIRECTORY));
		break;
	case 2:
		renumber(open(draw_name(), draw(2) ? O_RDWR | O_CREAT : O_RDONLY, 0644));
		break;
	case 3:
		if (fcntl(one, F_GETFD) >= 0 && one != other)
			dup2(one, other);
		break;
	case 4:
		close(one);
		break;
	}
}

static void any_slot_call(void)
{
	struct io_uring_rsrc_update update = { .offset = draw(SLOTS) };
	int number = draw(4) ? draw_number() : -1;

	update.data = (uint64_t)(uintptr_t)&number;
	syscall(SYS_io_uring_register, ring.descriptor, IORING_REGISTER_FILES_UPDATE, &update, 1);
}

/* All slots anew, with other files. */
static void any_list(void)
{
	int list[SLOTS];

	for (int at = 0; at < SLOTS; at++)
		list[at] = draw(3) ? -1 : draw_number();
	syscall(SYS_io_uring_register, ring.descriptor, IORING_UNREGISTER_FILES, NULL, 0);
	if (syscall(SYS_io_uring_register, ring.descriptor, IORING_REGISTER_FILES, list, SLOTS))
		has_slots(&ring);
}

static void any_call(void)
{
	struct stat status;
	int number = draw_number();
	bool is_file = !fstat(number, &status) && S_ISREG(status.st_mode);

	switch (draw(9)) {
	case 0:
		any_slot_call();
		break;
	case 5:
		if (!draw(4))
			any_list();
		break;
	case 6:
		if (is_file && !flock(number, LOCK_EX | LOCK_NB))
			flock(number, LOCK_UN);
		break;
	case 1:
		lseek(number, draw(300), SEEK_SET);
		break;
	case 2:
		if (is_file && read(number, memory + 1024, draw(30)) < 0)
			memory[0]++;
		break;
	case 3:
		if (is_file && write(number, memory, draw(30)) < 0)
			memory[0]++;
		break;
	case 4:
		if (draw(2) ? unlink(draw_name()) : rename(draw_name(), draw_name()))
			memory[0]++;
		break;
	default:
		any_number_call();
		break;
	}
}

/* One entry at a time, or of odd seeds a few in a chain, and calls between. */
static void any(void)
{
	bool is_chained = drawn % 2;

	signal(SIGPIPE, SIG_IGN);
	for (char name[] = "a"; *name <= 'd'; ++*name)
		close(new_file(name, O_RDONLY));
	has_slots(&ring);
	for (int round = 0; round < 60; round++) {
		unsigned calls = draw(4), entries = is_chained ? 1 + draw(3) : 1;
		while (calls--)
			any_call();
		for (unsigned at = 0; at < entries; at++) {
			any_entry();
			unsigned last = (*ring.sq_tail + ring.added - 1) & *ring.sq_mask;
			if (at + 1 < entries)
				ring.sqes[last].flags |= draw(2) ? FLAG_LINK : FLAG_HARD;
		}
		submit(&ring, entries);
		for (unsigned at = 0; at < entries; at++)
			take(&ring);
	}
}

static const struct mode modes[] = {
	{ "shared", shared }, { "moved", moved }, { "updated", updated }, { "chosen", chosen },
	{ "taken", taken },   { "root", root },	  { "left", left },	  { "nameless", nameless },
	{ "passed", passed }, { "held", held },	  { "beside", beside },	  { "at_once", at_once },
	{ "making", making }, { "any", any },
};

int main(int count, char **words)
{
	alarm(30);
	drawn = count > 2 ? strtoull(words[2], NULL, 10) : 0;
	open_ring(&ring, ENTRIES, 0);
	add(&ring, OP_NOP, 0, NULL, 0, 0);
	expect("the first entry", run_one(&ring), 0);
	return count > 1 && run_mode(modes, sizeof modes / sizeof *modes, words[1]) ? 0 : 2;
}
