/*
 * The memory of the proved calls is malloc's, but that large blocks lie where reads of them are
 * fast: from a cache line on, and those of 2 MB and more in huge pages, for which the kernel is
 * asked. What it does not grant costs speed alone.
 */
#define _DEFAULT_SOURCE
#include <stdint.h>
#include <stdlib.h>
#include <string.h>
#include <sys/mman.h>

/*
 * Before each block stands its size, so that a large one begins 16 bytes after a cache line. The
 * words of a table's rows then begin at a line: the spare words of
 * crates/mst_words/src/layout.rt are counted for that.
 */
#define BEFORE 16

#define CACHE_LINE 64
#define LARGE 4096
#define HUGE_PAGE ((size_t)2 << 20)

/* What the proved calls name in place of malloc, realloc and free. */
void *heap_take(size_t size);
void *heap_change(void *block, size_t size);
void heap_give_back(void *block);

static size_t size_of(const char *block) {
    size_t size;
    memcpy(&size, block - BEFORE, sizeof size);
    return size;
}

static void *set_out(char *start, size_t size) {
    if (!start)
        return NULL;
    memcpy(start, &size, sizeof size);
    return start + BEFORE;
}

static char *in_huge_pages(size_t size) {
    void *start;
    if (posix_memalign(&start, HUGE_PAGE, size) != 0)
        return NULL;
    (void)madvise(start, size - size % HUGE_PAGE, MADV_HUGEPAGE);
    return start;
}

static char *from_a_line(size_t size) {
    void *start;
    return posix_memalign(&start, CACHE_LINE, size) == 0 ? start : NULL;
}

void *heap_take(size_t size) {
    if (size < LARGE)
        return set_out(malloc(size + BEFORE), size);
    char *start = size < HUGE_PAGE ? from_a_line(size + BEFORE) : in_huge_pages(size + BEFORE);
    return set_out(start, size);
}

void *heap_change(void *block, size_t size) {
    if (size < HUGE_PAGE) /* a list that grows: where it begins matters little */
        return set_out(realloc((char *)block - BEFORE, size + BEFORE), size);
    size_t before = size_of(block);
    void *moved = heap_take(size);
    if (moved) {
        memcpy(moved, block, before < size ? before : size);
        heap_give_back(block);
    }
    return moved;
}

void heap_give_back(void *block) {
    free((char *)block - BEFORE);
}
