/* Programs that change files by ordinary calls between the entries of a ring: ordinary MODE, in an
 * empty directory. Each is to be told, or marked. Ends with 1 where a call fails, and with 77 where
 * the kernel or the file system lacks what a mode needs.
 *
 * paths: paths with dots, and slashes at their ends. appends: writes to the end by flags of a call
 * and of what is open. by_process: files by the names that /proc gives them. by_handle: a file by
 * its handle. made: files and names that other calls make. ranges: ranges that go or come. clears,
 * clones: ioctl(2). submits: io_submit(2). own_names: another mount namespace. reads: one read
 * alone. */
#include "raw.h"

#include <linux/aio_abi.h>
#include <linux/falloc.h>
#include <linux/fs.h>
#include <sched.h>
#include <sys/ioctl.h>
#include <sys/mount.h>
#include <sys/stat.h>
#include <sys/uio.h>

enum { BYTES = 40, SLOT = 2, BLOCK = 4096, HANDLE_BYTES = 128 };
static const char text[] = "0123456789abcdefghijklmnopqrstuvwxyz";
static struct ring ring;
static char bytes[BYTES];
static int file; /* "a", with the text */

/* Ends the program where a call fails. */
static void must(const char *what, long result)
{
	if (result < 0)
		fail(what);
}

/* A read of what is there through the ring. */
static void reads(int from, uint64_t offset, int wanted)
{
	add(&ring, OP_READ, from, bytes, BYTES, offset);
	expect("a read", run_one(&ring), wanted);
}

static void writes(int to, uint8_t flags, uint64_t offset)
{
	struct io_uring_sqe *sqe = add(&ring, OP_WRITE, to, "ring", 4, offset);

	sqe->flags = flags;
	expect("a write", run_one(&ring), 4);
}

/* Opens by a call, and writes and reads it through the ring. */
static int uses(const char *path, int flags)
{
	int opened = open(path, flags, 0644);
	struct stat status;

	must(path, opened);
	writes(opened, 0, 0);
	must("fstat", fstat(opened, &status));
	reads(opened, 0, (int)status.st_size);
	return opened;
}

static void paths(void)
{
	must("mkdir", mkdir("d/", 0755) | mkdir("e", 0755) | symlink("e", "link"));
	must("chdir", chdir("d"));
	must("mkdir", mkdir("../d/../m//", 0755) | mkdir("../link/in/", 0755));
	close(uses("../m/x", O_RDWR | O_CREAT));
	must("rename", rename("../m/", "../n/") | rename("../n/x", "..//y"));
	close(uses("../d/../y", O_RDWR));
	must("link", link("../y", "../link/../l"));
	close(uses("../l", O_RDWR));
	must("unlink", unlink("../y") | truncate("../d/../l", 4));
	must("rename", rename("../d", "../n/d/"));
	close(uses("in", O_RDWR | O_CREAT));
	must("rmdir", rmdir("../../e/in/") | unlink("./../../n/d/in") | rmdir("../d"));
	reads(file, 0, 36);
}

/* A write to the end, or not, by a flag of the call. */
static void writes_with(int to, off_t offset, int flags, off_t end)
{
	struct iovec vector = { (void *)(uintptr_t) "call", 4 };

	if (pwritev2(to, &vector, 1, offset, flags) != 4)
		lack("pwritev2");
	reads(file, (uint64_t)end - 4, 4);
}

static void appends(void)
{
	enum { NO_APPEND = 0x20 };
	int other = dup(file), slots[] = { -1, -1, file };

	if (syscall(SYS_io_uring_register, ring.descriptor, IORING_REGISTER_FILES, slots, 3))
		fail("io_uring_register");
	writes_with(file, 0, RWF_APPEND, 40);
	writes_with(file, -1, RWF_APPEND, 44);
	writes(SLOT, FLAG_FIXED, 2);
	must("fcntl", fcntl(other, F_SETFL, O_APPEND));
	writes(file, 0, 0);
	reads(file, 44, 4);
	writes(SLOT, FLAG_FIXED, 0);
	reads(file, 48, 4);
	writes(other, 0, AT_POSITION);
	reads(file, 52, 4);
	if (write(other, "call", 4) != 4 || pwrite(file, "call", 4, 0) != 4)
		fail("write");
	reads(file, 56, 8);
	must("fcntl", fcntl(file, F_SETFL, O_NONBLOCK));
	writes(file, 0, 4);
	writes(SLOT, FLAG_FIXED, 8);
	if (pwrite(other, "CALL", 4, 12) != 4)
		fail("pwrite");
	writes(other, 0, AT_POSITION);
	reads(file, 0, 40);
	must("fcntl", fcntl(file, F_SETFL, O_APPEND));
	struct iovec vector = { (void *)(uintptr_t) "none", 4 };
	if (pwritev2(file, &vector, 1, 16, NO_APPEND) != 4)
		lack("pwritev2");
	must("fcntl", fcntl(file, F_SETFL, 0));
	reads(file, 0, 40);
}

/* A path of a number in /proc. */
static const char *by_number(const char *directory, int number)
{
	static char path[64];

	snprintf(path, sizeof path, "%s/%d", directory, number);
	return path;
}

static void by_process(void)
{
	int nameless = uses("b", O_RDWR | O_CREAT), opened;

	opened = open(by_number("/proc/self/fd", file), O_RDWR | O_TRUNC);
	must("open", opened);
	reads(file, 0, 0);
	writes(opened, 0, 6);
	reads(file, 0, 10);
	must("truncate", truncate(by_number("/dev/fd", opened), 7));
	reads(file, 0, 7);
	must("unlink", unlink("b"));
	must("truncate", truncate(by_number("/proc/thread-self/fd", nameless), 2));
	reads(nameless, 0, 2);
	must("open", open(by_number("/proc/self/fd", nameless), O_RDWR | O_TRUNC));
	reads(nameless, 0, 0);
	must("symlink", symlink("c", "dangling"));
	close(uses("dangling", O_RDWR | O_CREAT));
}

static void by_handle(void)
{
	struct {
		struct file_handle handle;
		char rest[HANDLE_BYTES];
	} known = { .handle = { .handle_bytes = HANDLE_BYTES } };
	int mount, here = open(".", O_RDONLY | O_DIRECTORY), opened;

	if (name_to_handle_at(AT_FDCWD, "a", &known.handle, &mount, 0))
		lack("name_to_handle_at");
	opened = open_by_handle_at(here, &known.handle, O_RDWR | O_TRUNC);
	if (opened < 0)
		lack("open_by_handle_at");
	reads(file, 0, 0);
	writes(opened, 0, 3);
	reads(file, 0, 7);
}

static void made(void)
{
	must("mknod", mknod("m", S_IFREG | 0644, 0) | mknod("n", 0644, 0));
	close(uses("m", O_RDWR));
	must("linkat",
	     linkat(AT_FDCWD, by_number("/proc/self/fd", file), AT_FDCWD, "l", AT_SYMLINK_FOLLOW));
	close(uses("l", O_RDWR));
	reads(file, 0, 36);
	if (renameat2(AT_FDCWD, "n", AT_FDCWD, "w", RENAME_WHITEOUT))
		lack("a whiteout");
	close(uses("w", O_RDWR));
}

/* A file whose name is given later than its bytes. */
static void named_late(void)
{
	int nameless = open(".", O_TMPFILE | O_RDWR, 0600);

	if (nameless < 0)
		lack("O_TMPFILE");
	if (write(nameless, text, 10) != 10)
		fail("write");
	must("linkat", linkat(AT_FDCWD, by_number("/proc/self/fd", nameless), AT_FDCWD, "t",
			      AT_SYMLINK_FOLLOW));
	close(uses("t", O_RDWR));
}

static void ranges(void)
{
	must("fallocate", fallocate(file, 0, 0, 4L * BLOCK));
	reads(file, 0, BYTES);
	must("fallocate", fallocate(file, FALLOC_FL_ZERO_RANGE | FALLOC_FL_KEEP_SIZE, 4, 8));
	reads(file, 0, BYTES);
	if (fallocate(file, FALLOC_FL_COLLAPSE_RANGE, 0, BLOCK))
		lack("a range that goes");
	reads(file, 0, BYTES);
	if (fallocate(file, FALLOC_FL_INSERT_RANGE, BLOCK, BLOCK))
		lack("a range that comes");
	reads(file, 4L * BLOCK - BYTES, BYTES);
}

static void clears(void)
{
	struct {
		int16_t type, whence;
		int64_t start, length;
		int32_t system, process, rest[4];
	} range = { .start = 4, .length = 8 };

	if (ioctl(file, _IOW('X', 57, char[48]), &range))
		lack("a range that is cleared");
	reads(file, 0, 36);
}

static void clones(void)
{
	int to = uses("b", O_RDWR | O_CREAT);

	if (ioctl(to, FICLONE, file))
		lack("FICLONE");
	reads(to, 0, 36);
}

static void submits(void)
{
	aio_context_t context = 0;
	struct iocb block = { .aio_lio_opcode = IOCB_CMD_PWRITE, .aio_fildes = (unsigned)file };
	struct iocb *list[] = { &block };
	struct io_event event;

	block.aio_buf = (uintptr_t) "io_submit";
	block.aio_nbytes = 9;
	block.aio_offset = 5;
	if (syscall(SYS_io_setup, 1, &context))
		lack("io_setup");
	if (syscall(SYS_io_submit, context, 1, list) != 1 ||
	    syscall(SYS_io_getevents, context, 1, 1, &event, NULL) != 1)
		fail("io_submit");
	reads(file, 0, 36);
}

/* Names that the recorder does not see: those of a file system that only this process has are not
 * in the tree, others may be. */
static void own_names(void)
{
	must("mkdir", mkdir("on", 0755));
	if (unshare(CLONE_NEWNS) || mount("none", "/", NULL, MS_REC | MS_PRIVATE, NULL) ||
	    mount("none", "on", "tmpfs", 0, NULL))
		lack("another mount namespace");
	must("mkdir", mkdir("on/not_in_the_tree", 0755));
	reads(file, 0, 36);
	must("mkdir", mkdir("in_the_tree", 0755));
	reads(file, 0, 36);
}

/* One read, which main has made. */
static void begins(void)
{
	must("unlink", unlink("a"));
}

static const struct mode modes[] = {
	{ "reads", begins },	      { "paths", paths },	  { "appends", appends },
	{ "by_process", by_process }, { "by_handle", by_handle }, { "made", made },
	{ "named_late", named_late }, { "ranges", ranges },	  { "clears", clears },
	{ "clones", clones },	      { "submits", submits },	  { "own_names", own_names },
};

int main(int count, char **words)
{
	alarm(30);
	open_ring(&ring, 8, 0);
	file = open("a", O_RDWR | O_CREAT, 0644);
	if (file < 0 || write(file, text, 36) != 36)
		fail("a");
	reads(file, 0, 36);
	return count > 1 && run_mode(modes, sizeof modes / sizeof *modes, words[1]) ? 0 : 2;
}
