/*
 * Counts how often a program gives its processor up (POSIX's sched_yield), and how many threads it
 * starts, if it is started with this library in LD_PRELOAD. The two numbers stand in the file that
 * COUNTS names, in eight bytes each.
 */
#define _GNU_SOURCE
#include <dlfcn.h>
#include <fcntl.h>
#include <pthread.h>
#include <sched.h>
#include <stdatomic.h>
#include <stdlib.h>
#include <sys/mman.h>
#include <sys/syscall.h>
#include <unistd.h>

typedef int create(pthread_t *, const pthread_attr_t *, void *(*)(void *), void *);

struct counts {
    _Atomic long yields, threads;
};

static struct counts alone, *counts = &alone;

/* The file is mapped, so that the numbers are there however the program ends. */
__attribute__((constructor)) static void begin(void) {
    const char *name = getenv("COUNTS");
    int file = name ? open(name, O_RDWR | O_CREAT | O_TRUNC, 0600) : -1;
    if (file < 0 || ftruncate(file, sizeof alone) != 0)
        return;
    void *room = mmap(NULL, sizeof alone, PROT_READ | PROT_WRITE, MAP_SHARED, file, 0);
    close(file);
    if (room != MAP_FAILED)
        counts = room;
}

int sched_yield(void) {
    atomic_fetch_add(&counts->yields, 1);
    return (int)syscall(SYS_sched_yield);
}

int pthread_create(pthread_t *made, const pthread_attr_t *how, void *(*run)(void *), void *given) {
    create *next = (create *)dlsym(RTLD_NEXT, "pthread_create");
    atomic_fetch_add(&counts->threads, 1);
    return next(made, how, run, given);
}
