// Refuses requests of a program for memory. Of those since the start of its `main`, numbered from 1 on, it refuses number
// FIRST and all behind it up to number LAST, and keeps their count in the first eight bytes of the file REQUESTS; all three
// stand in its environment. A new thread is a request, too, since its stack is memory. Loaded by LD_PRELOAD.
#define _GNU_SOURCE
#include <dlfcn.h>
#include <errno.h>
#include <fcntl.h>
#include <pthread.h>
#include <stdatomic.h>
#include <stdlib.h>
#include <sys/mman.h>
#include <unistd.h>

// The function of the library that is behind this one.
#define BEHIND(name)                                         \
    static __typeof__(&name) behind;                         \
    if (!behind)                                             \
        behind = (__typeof__(&name))dlsym(RTLD_NEXT, #name)

typedef int Main(int, char **, char **);

static Main *program;
static unsigned long first, last;
static atomic_ulong *requests;

static int is_refused(void)
{
    if (!requests)
        return 0;
    unsigned long number = atomic_fetch_add(requests, 1) + 1;
    return first <= number && number <= last;
}

static void *none(void)
{
    errno = ENOMEM;
    return NULL;
}

void *malloc(size_t size)
{
    BEHIND(malloc);
    return is_refused() ? none() : behind(size);
}

void *calloc(size_t count, size_t size)
{
    BEHIND(calloc);
    return is_refused() ? none() : behind(count, size);
}

void *realloc(void *block, size_t size)
{
    BEHIND(realloc);
    return is_refused() ? none() : behind(block, size);
}

void *aligned_alloc(size_t alignment, size_t size)
{
    BEHIND(aligned_alloc);
    return is_refused() ? none() : behind(alignment, size);
}

int posix_memalign(void **block, size_t alignment, size_t size)
{
    BEHIND(posix_memalign);
    return is_refused() ? ENOMEM : behind(block, alignment, size);
}

int pthread_create(pthread_t *thread, const pthread_attr_t *attributes, void *(*start)(void *), void *argument)
{
    BEHIND(pthread_create);
    return is_refused() ? EAGAIN : behind(thread, attributes, start, argument);
}

// Begins to count, and starts the program.
static int begin(int count, char **words, char **environment)
{
    int file = open(getenv("REQUESTS"), O_RDWR);
    void *page = mmap(NULL, sizeof *requests, PROT_READ | PROT_WRITE, MAP_SHARED, file, 0);
    if (page == MAP_FAILED)
        abort();
    close(file);
    first = strtoul(getenv("FIRST"), NULL, 10);
    last = strtoul(getenv("LAST"), NULL, 10);
    requests = page;
    return program(count, words, environment);
}

int __libc_start_main(Main *main, int count, char **words, void (*init)(void), void (*fini)(void), void (*leave)(void), void *stack)
{
    BEHIND(__libc_start_main);
    program = main;
    return behind(begin, count, words, init, fini, leave, stack);
}
