/*
 * Devices and memory of a program that is started with this library in LD_PRELOAD, as numbers in
 * its environment say. Where one is left out, nothing is limited.
 *
 *     READ_MOST, WRITE_MOST   bytes that a read of standard input, a write of standard output moves
 *     READS, WRITES           how many of these calls go through; all others fail
 *     ERROR_WRITES            how many writes of standard error go through
 *     BY_ZERO                 if it is there, a write that fails takes no byte and says so
 *     GROWTHS                 how many growths of memory are granted before one is refused
 *     ALL                     if it is there, so are all behind that one
 *
 * The file that TOLD names gets two numbers of eight bytes: how many growths were asked for, and
 * how many blocks are not given back.
 */
#define _GNU_SOURCE
#include <errno.h>
#include <fcntl.h>
#include <stdatomic.h>
#include <stdlib.h>
#include <sys/mman.h>
#include <sys/syscall.h>
#include <unistd.h>

extern void *__libc_malloc(size_t size);
extern void *__libc_realloc(void *at, size_t size);
extern void __libc_free(void *at);

struct told {
    _Atomic long asked, live;
};

static struct told alone, *told = &alone;
static long read_most, reads, write_most, writes, error_writes, growths;
static int by_zero, all, begun;

static long number(const char *name) {
    const char *text = getenv(name);
    return text ? atol(text) : -1;
}

/* The file is mapped, so that the numbers are there however the program ends. */
static void map_told(const char *name) {
    int file = name ? open(name, O_RDWR | O_CREAT | O_TRUNC, 0600) : -1;
    if (file < 0 || ftruncate(file, sizeof alone) != 0)
        return;
    void *room = mmap(NULL, sizeof alone, PROT_READ | PROT_WRITE, MAP_SHARED, file, 0);
    close(file);
    if (room != MAP_FAILED)
        told = room;
}

__attribute__((constructor)) static void begin(void) {
    read_most = number("READ_MOST"), reads = number("READS");
    write_most = number("WRITE_MOST"), writes = number("WRITES");
    error_writes = number("ERROR_WRITES"), growths = number("GROWTHS");
    by_zero = getenv("BY_ZERO") != NULL, all = getenv("ALL") != NULL;
    map_told(getenv("TOLD"));
    begun = 1;
}

/* ---- devices ---- */

/* Whether one more call goes through, of so many; -1: all. */
static int goes_through(long *count) {
    int goes = *count != 0;
    *count -= *count > 0;
    return goes;
}

static size_t at_most(size_t size, long most) {
    return most >= 0 && (size_t)most < size ? (size_t)most : size;
}

ssize_t read(int file, void *room, size_t size) {
    if (file == STDIN_FILENO) {
        if (!goes_through(&reads)) {
            errno = EIO;
            return -1;
        }
        size = at_most(size, read_most);
    }
    return syscall(SYS_read, file, room, size);
}

static ssize_t fails(void) {
    errno = EIO;
    return by_zero ? 0 : -1;
}

ssize_t write(int file, const void *bytes, size_t size) {
    if (file == STDOUT_FILENO) {
        if (!goes_through(&writes))
            return fails();
        size = at_most(size, write_most);
    }
    if (file == STDERR_FILENO && !goes_through(&error_writes))
        return fails();
    return syscall(SYS_write, file, bytes, size);
}

/* ---- memory ---- */

static int is_refused(void) {
    long before = begun ? atomic_fetch_add(&told->asked, 1) : -1;
    return growths >= 0 && (before == growths || (all && before > growths));
}

void *malloc(size_t size) {
    if (is_refused())
        return NULL;
    void *at = __libc_malloc(size);
    if (begun && at)
        atomic_fetch_add(&told->live, 1);
    return at;
}

void *realloc(void *old, size_t size) {
    if (is_refused())
        return NULL;
    void *at = __libc_realloc(old, size);
    if (begun && at && !old)
        atomic_fetch_add(&told->live, 1);
    return at;
}

void free(void *at) {
    if (begun && at)
        atomic_fetch_sub(&told->live, 1);
    __libc_free(at);
}
