// A library for LD_PRELOAD that refuses a program some of its requests for memory.
//
// Requests are calls of malloc, calloc and realloc, and of pthread_create, which wants a stack. They are counted from 1, once the
// program is loaded. REFUSE_FIRST is the number of the first that is refused, and REFUSE_LAST that of the last; with neither, none is.
// REFUSE_ASKED names a file whose first 8 bytes hold, at each moment and however the program ends, how many requests it has made.
#define _GNU_SOURCE
#include <dlfcn.h>
#include <errno.h>
#include <fcntl.h>
#include <pthread.h>
#include <stdlib.h>
#include <sys/mman.h>
#include <unistd.h>

// The C library's own names of its calls: looking these up would want memory.
extern void *__libc_malloc(size_t size);
extern void *__libc_calloc(size_t count, size_t size);
extern void *__libc_realloc(void *block, size_t size);

typedef int thread_start(pthread_t *, const pthread_attr_t *, void *(*)(void *), void *);

static thread_start *start_thread;
static long first, last;
static long unshared;
static long *asked; // null while the program is being loaded

static long number(const char *name)
{
    const char *digits = getenv(name);
    return digits ? atol(digits) : 0;
}

// The count, in the file where there is one.
static long *shared_count(void)
{
    const char *path = getenv("REFUSE_ASKED");
    int file = path ? open(path, O_RDWR | O_CREAT | O_TRUNC | O_CLOEXEC, 0600) : -1;
    if (file < 0 || ftruncate(file, sizeof unshared) != 0)
        return &unshared;
    void *place = mmap(NULL, sizeof unshared, PROT_READ | PROT_WRITE, MAP_SHARED, file, 0);
    close(file);
    return place == MAP_FAILED ? &unshared : place;
}

__attribute__((constructor)) static void begin(void)
{
    start_thread = (thread_start *)dlsym(RTLD_NEXT, "pthread_create");
    first = number("REFUSE_FIRST");
    last = number("REFUSE_LAST");
    asked = shared_count();
}

// Counts a request. Whether it is refused.
static int is_refused(void)
{
    if (!asked)
        return 0;
    long n = __atomic_add_fetch(asked, 1, __ATOMIC_SEQ_CST);
    return first <= n && n <= last;
}

void *malloc(size_t size)
{
    if (!is_refused())
        return __libc_malloc(size);
    errno = ENOMEM;
    return NULL;
}

void *calloc(size_t count, size_t size)
{
    if (!is_refused())
        return __libc_calloc(count, size);
    errno = ENOMEM;
    return NULL;
}

void *realloc(void *block, size_t size)
{
    if (!is_refused())
        return __libc_realloc(block, size);
    errno = ENOMEM;
    return NULL;
}

int pthread_create(pthread_t *thread, const pthread_attr_t *how, void *(*run)(void *), void *with)
{
    return is_refused() ? EAGAIN : start_thread(thread, how, run, with);
}
