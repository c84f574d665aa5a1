/* Counts the allocations and the threads of a program before which it is loaded, and refuses some, as checks/refuse_allocations says by the
 * environment: REFUSED is the number of an allocation, REFUSED_THREAD that of a thread, and from REFUSED_THREADS_FROM on each is refused.
 * MADE is a file for both counts. */
#define _GNU_SOURCE
#include <dlfcn.h>
#include <errno.h>
#include <pthread.h>
#include <stdatomic.h>
#include <stdio.h>
#include <stdlib.h>

static atomic_long made;
static atomic_long started;

static int is_refused(void)
{
    const char *refused = getenv("REFUSED");
    return atomic_fetch_add(&made, 1) + 1 == (refused ? atol(refused) : 0);
}

void *malloc(size_t size)
{
    void *(*real)(size_t) = dlsym(RTLD_NEXT, "malloc");
    return is_refused() ? (errno = ENOMEM, (void *)0) : real(size);
}

void *realloc(void *at, size_t size)
{
    void *(*real)(void *, size_t) = dlsym(RTLD_NEXT, "realloc");
    return is_refused() ? (errno = ENOMEM, (void *)0) : real(at, size);
}

int pthread_create(pthread_t *thread, const pthread_attr_t *attributes, void *(*body)(void *), void *argument)
{
    int (*real)(pthread_t *, const pthread_attr_t *, void *(*)(void *), void *) = dlsym(RTLD_NEXT, "pthread_create");
    const char *one = getenv("REFUSED_THREAD"), *from = getenv("REFUSED_THREADS_FROM");
    long number = atomic_fetch_add(&started, 1) + 1;
    if ((one && number == atol(one)) || (from && number >= atol(from)))
        return EAGAIN;
    return real(thread, attributes, body, argument);
}

/* The program has threads, so it ends by this call. */
void _exit(int status)
{
    void (*real)(int) = dlsym(RTLD_NEXT, "_exit");
    const char *path = getenv("MADE");
    long count = made, threads = started;
    FILE *file = path ? fopen(path, "w") : 0;
    if (file) {
        fprintf(file, "%ld %ld", count, threads);
        fclose(file);
    }
    real(status);
    __builtin_unreachable();
}
