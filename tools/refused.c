/* Loaded into a program, it refuses the allocation with the number REFUSED, counted from 1. In the file REFUSED_COUNT, of two numbers
   of 8 bytes, stands how many there were, and whether one was refused. */
#include <errno.h>
#include <fcntl.h>
#include <stdatomic.h>
#include <stddef.h>
#include <stdlib.h>
#include <sys/mman.h>
#include <unistd.h>

extern void *__libc_malloc(size_t);
extern void *__libc_realloc(void *, size_t);

struct counts {
    atomic_ulong made;
    atomic_ulong refused;
};

static struct counts before_main;
static struct counts *counts = &before_main;
static unsigned long wanted;

static int is_refused(void)
{
    if (atomic_fetch_add(&counts->made, 1) + 1 != wanted)
        return 0;
    atomic_fetch_add(&counts->refused, 1);
    errno = ENOMEM;
    return 1;
}

void *malloc(size_t size)
{
    return is_refused() ? NULL : __libc_malloc(size);
}

void *realloc(void *held, size_t size)
{
    return is_refused() ? NULL : __libc_realloc(held, size);
}

/* Counts from here on, so that what the system takes to load the program is not counted. */
__attribute__((constructor)) static void begin(void)
{
    const char *number = getenv("REFUSED"), *path = getenv("REFUSED_COUNT");
    int file = path ? open(path, O_RDWR) : -1;
    void *shared = file < 0 ? MAP_FAILED : mmap(NULL, sizeof *counts, PROT_READ | PROT_WRITE, MAP_SHARED, file, 0);
    if (!number || shared == MAP_FAILED)
        _exit(70);
    close(file);
    wanted = strtoul(number, NULL, 10);
    counts = shared;
}
