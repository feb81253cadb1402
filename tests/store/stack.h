/* How much of the stack a call takes, by a thread whose stack is filled with a pattern first. */
#ifndef STACK_H
#define STACK_H

#include <pthread.h>
#include <stdint.h>
#include <string.h>
#include <sys/mman.h>

#define STACK (1 << 20)
#define PATTERN 0xA5

/* What a thread takes that makes no call. */
static inline void *no_call(void *unused) {
    return unused;
}

/* How many bytes of its stack a thread writes that runs this with a key; all of them if it cannot
 * run. */
static inline size_t stack_of_key(void *(*run)(void *), void *key) {
    pthread_attr_t how;
    pthread_t thread;
    uint8_t *stack = mmap(NULL, STACK, PROT_READ | PROT_WRITE, MAP_PRIVATE | MAP_ANONYMOUS, -1, 0);
    if (stack == MAP_FAILED)
        return STACK;
    memset(stack, PATTERN, STACK);
    if (pthread_attr_init(&how) != 0 || pthread_attr_setstack(&how, stack, STACK) != 0
        || pthread_create(&thread, &how, run, key) != 0 || pthread_join(thread, NULL) != 0)
        return STACK;
    size_t spared = 0;
    while (spared < STACK && stack[spared] == PATTERN)
        spared++;
    pthread_attr_destroy(&how);
    munmap(stack, STACK);
    return STACK - spared;
}

static inline size_t stack_of(void *(*run)(void *)) {
    return stack_of_key(run, NULL);
}

#endif
