/* Counts how often a program asks for memory and for threads, and refuses some of the requests. It is
 * loaded before the C library; refuse.py builds it and gives it its settings. */

#define _GNU_SOURCE
#include <dlfcn.h>
#include <errno.h>
#include <fcntl.h>
#include <pthread.h>
#include <stdatomic.h>
#include <stdlib.h>
#include <string.h>
#include <sys/mman.h>

void *__libc_malloc(size_t);
void *__libc_calloc(size_t, size_t);
void *__libc_realloc(void *, size_t);

/* In a file that whoever runs the program reads: how often it asked. */
static struct counts { atomic_ulong threads, memory; } *counts;
static unsigned long first, last;
static int refuses_threads;
static int (*start)(pthread_t *, const pthread_attr_t *, void *(*)(void *), void *);

__attribute__((constructor)) static void begin(void)
{
    start = dlsym(RTLD_NEXT, "pthread_create");
    int file = open(getenv("REFUSE_COUNTS"), O_RDWR);
    void *place = mmap(0, sizeof *counts, PROT_READ | PROT_WRITE, MAP_SHARED, file, 0);
    if (!start || place == MAP_FAILED)
        _Exit(125);
    refuses_threads = !strcmp(getenv("REFUSE_WHAT"), "threads");
    first = strtoul(getenv("REFUSE_FIRST"), 0, 10);
    last = strtoul(getenv("REFUSE_LAST"), 0, 10);
    counts = place;
}

static int is_refused(unsigned long number)
{
    return first <= number && number <= last;
}

static int is_memory_refused(void)
{
    return counts && is_refused(atomic_fetch_add(&counts->memory, 1) + 1) && !refuses_threads;
}

static void *refused(void)
{
    errno = ENOMEM;
    return 0;
}

void *malloc(size_t size)
{
    return is_memory_refused() ? refused() : __libc_malloc(size);
}

void *calloc(size_t number, size_t size)
{
    return is_memory_refused() ? refused() : __libc_calloc(number, size);
}

void *realloc(void *old, size_t size)
{
    return is_memory_refused() ? refused() : __libc_realloc(old, size);
}

int pthread_create(pthread_t *thread, const pthread_attr_t *kind, void *(*run)(void *), void *with)
{
    if (counts && is_refused(atomic_fetch_add(&counts->threads, 1) + 1) && refuses_threads)
        return EAGAIN;
    return start(thread, kind, run, with);
}
