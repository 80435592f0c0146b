/* Between the player and the C library, a system that gives less: cc -shared -fPIC -o system.so system.c -ldl; LD_PRELOAD=./system.so PROGRAM ..
 *
 * SYSTEM_STUCK_AT=N: the Nth call of io_uring_enter(2) that submits says so and does not, so that its entries never end.
 * SYSTEM_BUSY=N: the first N calls of io_uring_enter(2) that submit fail with EAGAIN.
 * SYSTEM_RINGS=ERROR: io_uring_setup(2) fails with the error.
 * SYSTEM_LACKING=N: the kernel says that it does not serve the opcode N (IORING_REGISTER_PROBE).
 * SYSTEM_THREADS=1: the kernel refuses entries with IOSQE_ASYNC (EINVAL).
 * SYSTEM_ROOT=ERROR: chroot(2) and unshare(2) fail with the error.
 * SYSTEM_OPENS=ERROR: openat(2) of the path `denied` fails with the error. */
#define _GNU_SOURCE
#include <dlfcn.h>
#include <errno.h>
#include <fcntl.h>
#include <linux/io_uring.h>
#include <sched.h>
#include <stdarg.h>
#include <stdlib.h>
#include <string.h>
#include <sys/mman.h>
#include <sys/syscall.h>
#include <unistd.h>

static long setting(const char *name)
{
    const char *text = getenv(name);

    return text ? atol(text) : 0;
}

static int fail(long error)
{
    errno = (int)error;
    return -1;
}

static void *real_mmap(void *address, size_t size, int protection, int flags, int file, off_t offset)
{
    static void *(*real)(void *, size_t, int, int, int, off_t);

    if (!real)
        real = (void *(*)(void *, size_t, int, int, int, off_t))dlsym(RTLD_NEXT, "mmap");
    return real(address, size, protection, flags, file, offset);
}

int chroot(const char *path)
{
    int (*real)(const char *) = (int (*)(const char *))dlsym(RTLD_NEXT, "chroot");

    return setting("SYSTEM_ROOT") ? fail(setting("SYSTEM_ROOT")) : real(path);
}

int unshare(int flags)
{
    int (*real)(int) = (int (*)(int))dlsym(RTLD_NEXT, "unshare");

    return setting("SYSTEM_ROOT") ? fail(setting("SYSTEM_ROOT")) : real(flags);
}

int openat(int directory, const char *path, int flags, ...)
{
    int (*real)(int, const char *, int, ...) = (int (*)(int, const char *, int, ...))dlsym(RTLD_NEXT, "openat");
    va_list list;

    va_start(list, flags);
    mode_t mode = flags & O_CREAT ? va_arg(list, mode_t) : 0;
    va_end(list);
    return setting("SYSTEM_OPENS") && !strcmp(path, "denied") ? fail(setting("SYSTEM_OPENS")) : real(directory, path, flags, mode);
}

/* The entries of the ring that was mapped last. */
static struct io_uring_sqe *entries;
static size_t entry_count;

void *mmap(void *address, size_t size, int protection, int flags, int file, off_t offset)
{
    void *mapped = real_mmap(address, size, protection, flags, file, offset);

    if (mapped != MAP_FAILED && offset == (off_t)IORING_OFF_SQES && flags & MAP_SHARED) {
        entries = mapped;
        entry_count = size / sizeof *entries;
    }
    return mapped;
}

/* No kernel has the opcode, so that it refuses them. */
static void refuse_threads(void)
{
    for (size_t at = 0; at < entry_count; at++) {
        if (entries[at].flags & IOSQE_ASYNC)
            entries[at] = (struct io_uring_sqe){ .opcode = 255, .user_data = entries[at].user_data };
    }
}

long syscall(long number, ...)
{
    static long (*real)(long, ...);
    static long submissions, busy;
    long words[6], result;
    va_list list;

    va_start(list, number);
    for (int at = 0; at < 6; at++)
        words[at] = va_arg(list, long);
    va_end(list);
    if (!real)
        real = (long (*)(long, ...))dlsym(RTLD_NEXT, "syscall");
    if (number == SYS_io_uring_enter && setting("SYSTEM_THREADS"))
        refuse_threads();
    if (number == SYS_io_uring_setup && setting("SYSTEM_RINGS"))
        return fail(setting("SYSTEM_RINGS"));
    if (number == SYS_io_uring_enter && (unsigned)words[1] && busy++ < setting("SYSTEM_BUSY"))
        return fail(EAGAIN);
    if (number == SYS_io_uring_enter && (unsigned)words[1] && ++submissions == setting("SYSTEM_STUCK_AT"))
        return words[1];
    result = real(number, words[0], words[1], words[2], words[3], words[4], words[5]);
    if (number == SYS_io_uring_register && words[1] == IORING_REGISTER_PROBE && setting("SYSTEM_LACKING"))
        ((struct io_uring_probe *)words[2])->ops[setting("SYSTEM_LACKING")].flags = 0;
    return result;
}
