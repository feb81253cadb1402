/*
 * A malloc that counts, and that refuses its n-th call, or what would have too many bytes held at a
 * time. It stands before glibc's own. Threads may be in it at the same time.
 */
#ifndef HEAP_H
#define HEAP_H

#include <errno.h>
#include <malloc.h>
#include <stdint.h>
#include <stdlib.h>

extern void *__libc_malloc(size_t size);
extern void *__libc_memalign(size_t unit, size_t size);
extern void *__libc_realloc(void *at, size_t size);
extern void __libc_free(void *at);

static int counting = 0;
static _Atomic long asked = 0;  /* how many calls asked for memory while counting */
static _Atomic long live = 0;   /* how many blocks were taken and not given back while counting */
static _Atomic size_t held = 0; /* how many bytes they have */
static _Atomic size_t peak = 0; /* how many they had at most, if by one thread */
static _Atomic long left = -1;  /* how many calls more are granted; -1: all */
static size_t room_for = SIZE_MAX; /* how many bytes may be held; SIZE_MAX: any number */

static int refuses(size_t size) {
    asked += counting;
    if (counting && (held > room_for || size > room_for - held))
        return 1;
    return counting && left >= 0 && left-- == 0;
}

static void take(void *at) {
    held += malloc_usable_size(at);
    peak = held > peak ? held : peak;
}

void *malloc(size_t size) {
    if (refuses(size))
        return NULL;
    void *at = __libc_malloc(size);
    if (counting && at) {
        live++;
        take(at);
    }
    return at;
}

int posix_memalign(void **at, size_t unit, size_t size) {
    *at = refuses(size) ? NULL : __libc_memalign(unit, size);
    if (counting && *at) {
        live++;
        take(*at);
    }
    return *at ? 0 : ENOMEM;
}

void *realloc(void *old, size_t size) {
    if (refuses(size))
        return NULL;
    size_t before = old ? malloc_usable_size(old) : 0;
    void *at = __libc_realloc(old, size);
    if (counting && at) {
        live += !old;
        held -= before;
        take(at);
    }
    return at;
}

void free(void *at) {
    if (counting && at) {
        live--;
        held -= malloc_usable_size(at);
    }
    __libc_free(at);
}

/* Counts calls, and refuses the one after this many; -1: none. */
static inline void count_from(long calls) {
    left = calls;
    counting = 1;
}

static inline void count_on(void) {
    left = -1;
}

/* From here on no more than this number of bytes may be held in addition. */
static inline void grant(size_t bytes) {
    room_for = held + bytes;
}

static inline void grant_all(void) {
    room_for = SIZE_MAX;
}

#endif
