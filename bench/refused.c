/* Stands before the system's allocator, and refuses one call: the one whose number REFUSED has. At the end it writes to the file that CALLS names how many there were. */
#define _GNU_SOURCE
#include <dlfcn.h>
#include <stdio.h>
#include <stdlib.h>
#include <sys/syscall.h>
#include <unistd.h>

static void *(*real_malloc)(size_t);
static void *(*real_realloc)(void *, size_t);
static void *(*real_aligned)(size_t, size_t);
static _Atomic unsigned long calls;
static unsigned long refused;

__attribute__((constructor)) static void start(void)
{
    const char *number = getenv("REFUSED");
    real_malloc = (void *(*)(size_t))dlsym(RTLD_NEXT, "malloc");
    real_realloc = (void *(*)(void *, size_t))dlsym(RTLD_NEXT, "realloc");
    real_aligned = (void *(*)(size_t, size_t))dlsym(RTLD_NEXT, "aligned_alloc");
    calls = 0;
    refused = number == NULL ? 0 : strtoul(number, NULL, 10);
}

__attribute__((destructor)) static void stop(void)
{
    const char *name = getenv("CALLS");
    unsigned long count = calls;
    FILE *file = name == NULL ? NULL : fopen(name, "w");
    if (file == NULL)
        return;
    fprintf(file, "%lu\n", count);
    fclose(file);
}

/* (a program with threads ends so, and then no destructor runs) */
void _exit(int status)
{
    stop();
    syscall(SYS_exit_group, status);
    __builtin_unreachable();
}

static int is_refused(void)
{
    return ++calls == refused;
}

void *malloc(size_t size)
{
    if (real_malloc == NULL)
        start();
    return is_refused() ? NULL : real_malloc(size);
}

void *realloc(void *kept, size_t size)
{
    if (real_realloc == NULL)
        start();
    return is_refused() ? NULL : real_realloc(kept, size);
}

void *aligned_alloc(size_t alignment, size_t size)
{
    if (real_aligned == NULL)
        start();
    return is_refused() ? NULL : real_aligned(alignment, size);
}
