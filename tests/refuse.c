/* Refuses memory and threads to a program: cc -O2 -shared -fPIC -o refuse.so refuse.c; LD_PRELOAD=./refuse.so PROGRAM ..
 *
 * REFUSE_AT=N: the Nth growth (a call of malloc, calloc or realloc, but for a realloc that fits the block) fails; with
 * REFUSE_FROM=1 each from the Nth on.
 * REFUSE_THREAD=N: the Nth call of pthread_create fails.
 * REFUSE_COUNT=FILE: a file of 32 bytes, which gets the numbers of growths, of refusals, of threads asked for, and of
 * growths before standard input was first read, as they happen, since a program may end without a word to its libraries. */
#define _GNU_SOURCE
#include <dlfcn.h>
#include <errno.h>
#include <fcntl.h>
#include <malloc.h>
#include <pthread.h>
#include <stdlib.h>
#include <sys/mman.h>
#include <sys/syscall.h>
#include <unistd.h>

extern void *__libc_malloc(size_t);
extern void *__libc_realloc(void *, size_t);
extern void *__libc_calloc(size_t, size_t);

struct counts {
    long growths, refusals, threads, before_read;
};

static struct counts own, *counts = &own;
static long at, thread_at;
static int is_from, is_ready;

static long number(const char *name)
{
    const char *text = getenv(name);
    return text ? atol(text) : 0;
}

__attribute__((constructor)) static void start(void)
{
    const char *name = getenv("REFUSE_COUNT");
    int file = name ? open(name, O_RDWR | O_CLOEXEC) : -1;
    if (file >= 0) {
        void *shared = mmap(NULL, sizeof own, PROT_READ | PROT_WRITE, MAP_SHARED, file, 0);
        if (shared != MAP_FAILED)
            counts = shared;
        close(file);
    }
    at = number("REFUSE_AT");
    is_from = number("REFUSE_FROM") != 0;
    thread_at = number("REFUSE_THREAD");
    is_ready = 1;
}

static int is_refused(void)
{
    if (!is_ready)
        return 0;
    long growth = __atomic_add_fetch(&counts->growths, 1, __ATOMIC_RELAXED);
    if (at == 0 || (is_from ? growth < at : growth != at))
        return 0;
    __atomic_add_fetch(&counts->refusals, 1, __ATOMIC_RELAXED);
    errno = ENOMEM;
    return 1;
}

void *malloc(size_t size)
{
    return is_refused() ? NULL : __libc_malloc(size);
}

void *calloc(size_t count, size_t size)
{
    return is_refused() ? NULL : __libc_calloc(count, size);
}

void *realloc(void *old, size_t size)
{
    int fits = old && size <= malloc_usable_size(old);
    return !fits && is_refused() ? NULL : __libc_realloc(old, size);
}

ssize_t read(int file, void *to, size_t size)
{
    if (file == 0 && counts->before_read == 0)
        counts->before_read = counts->growths;
    return syscall(SYS_read, file, to, size);
}

int pthread_create(pthread_t *thread, const pthread_attr_t *attributes, void *(*run)(void *), void *given)
{
    static int (*create)(pthread_t *, const pthread_attr_t *, void *(*)(void *), void *);
    if (!create)
        *(void **)&create = dlsym(RTLD_NEXT, "pthread_create");
    if (__atomic_add_fetch(&counts->threads, 1, __ATOMIC_RELAXED) == thread_at)
        return EAGAIN;
    return create(thread, attributes, run, given);
}
