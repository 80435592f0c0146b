/* Devices that fail: cc -O2 -shared -fPIC -o device.so device.c; LD_PRELOAD=./device.so PROGRAM ..
 *
 * DEVICE_ON=F: only calls on descriptor F count and are changed (0 standard input, 1 standard output, 2 standard error).
 * DEVICE_AT=N and DEVICE_HOW: the Nth call fails (`fail`, EIO), is interrupted (`interrupt`), would block (`block`), moves
 * one byte (`short`) or none (`zero`).
 * DEVICE_BYTE=1: each call moves one byte at most.
 * DEVICE_COUNT=FILE: a file of 8 bytes, which gets the number of calls, as they happen. */
#define _GNU_SOURCE
#include <errno.h>
#include <fcntl.h>
#include <stdlib.h>
#include <string.h>
#include <sys/mman.h>
#include <sys/syscall.h>
#include <unistd.h>

static long own, *calls = &own, at;
static int on = -1, is_byte;
static const char *how = "";

__attribute__((constructor)) static void start(void)
{
    const char *text = getenv("DEVICE_COUNT");
    int file = text ? open(text, O_RDWR | O_CLOEXEC) : -1;
    if (file >= 0) {
        void *shared = mmap(NULL, sizeof own, PROT_READ | PROT_WRITE, MAP_SHARED, file, 0);
        if (shared != MAP_FAILED)
            calls = shared;
        close(file);
    }
    if ((text = getenv("DEVICE_AT")))
        at = atol(text);
    if ((text = getenv("DEVICE_ON")))
        on = atoi(text);
    if ((text = getenv("DEVICE_HOW")))
        how = text;
    is_byte = getenv("DEVICE_BYTE") != NULL;
}

/* Whether the call is answered with *answer; if not, it is made, of *size bytes. */
static int is_answered(int file, size_t *size, ssize_t *answer)
{
    if (file != on)
        return 0;
    if (is_byte && *size > 1)
        *size = 1;
    if (__atomic_add_fetch(calls, 1, __ATOMIC_RELAXED) != at)
        return 0;
    if (!strcmp(how, "short")) {
        *size = *size ? 1 : 0;
        return 0;
    }
    *answer = strcmp(how, "zero") ? -1 : 0;
    if (*answer)
        errno = !strcmp(how, "interrupt") ? EINTR : !strcmp(how, "block") ? EAGAIN : EIO;
    return 1;
}

ssize_t read(int file, void *to, size_t size)
{
    ssize_t answer;
    return is_answered(file, &size, &answer) ? answer : syscall(SYS_read, file, to, size);
}

ssize_t write(int file, const void *from, size_t size)
{
    ssize_t answer;
    return is_answered(file, &size, &answer) ? answer : syscall(SYS_write, file, from, size);
}

ssize_t __write(int file, const void *from, size_t size)
{
    return write(file, from, size);
}
