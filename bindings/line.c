/* Who has waited long for the turn of a store, for all of its passes to see. */
#include "line.h"
#include <stdlib.h>

/*
 * After so many microseconds without a sign of it, a pass loses its place: its thread has died, was
 * stopped, or gets no processor. If it goes on to wait, it stands where it stood.
 */
#define GONE 50000

/* The bytes of a cache line. */
#define CACHE_LINE 64

_Static_assert(sizeof(struct line) == CACHE_LINE, "places begin at a cache line");
_Static_assert(sizeof(struct place) == CACHE_LINE, "so does each next one");

/* Room for a line that begins at a cache line, and the next one free of what others write. */
static struct line *line_alloc(size_t count) {
    char *block = malloc(sizeof(struct line) + count * sizeof(struct place) + CACHE_LINE - 1);
    if (block == NULL)
        return NULL;
    struct line *line = (void *)(block + (CACHE_LINE - (uintptr_t)block % CACHE_LINE) % CACHE_LINE);
    line->block = block;
    return line;
}

int line_open(mst_pass *passes, size_t count) {
    struct line *line = line_alloc(count);
    if (line == NULL)
        return 0;
    atomic_init(&line->standing, 0);
    atomic_init(&line->passes, (unsigned)count);
    line->count = count;
    for (size_t i = 0; i < count; i++) {
        line->places[i].line = line;
        atomic_init(&line->places[i].since, 0);
        atomic_init(&line->places[i].seen, 0);
        passes[i].place = &line->places[i];
    }
    return 1;
}

void line_close(mst_pass *pass) {
    struct place *place = pass->place;
    pass->place = NULL;
    if (place == NULL)
        return;
    line_leave(place);
    if (atomic_fetch_sub_explicit(&place->line->passes, 1, memory_order_acq_rel) == 1)
        free(place->line->block);
}

void line_stand(struct place *place, uint64_t since, uint64_t now) {
    atomic_store_explicit(&place->seen, now, memory_order_relaxed);
    if (atomic_load_explicit(&place->since, memory_order_relaxed) == since)
        return;
    atomic_fetch_add_explicit(&place->line->standing, 1, memory_order_relaxed);
    if (atomic_exchange_explicit(&place->since, since, memory_order_release) != 0)
        atomic_fetch_sub_explicit(&place->line->standing, 1, memory_order_relaxed);
}

/* Of two that take the same pass out, one does. */
static void take_out(struct place *place, uint64_t since) {
    if (since != 0 && atomic_compare_exchange_strong_explicit(
            &place->since, &since, 0, memory_order_relaxed, memory_order_relaxed))
        atomic_fetch_sub_explicit(&place->line->standing, 1, memory_order_relaxed);
}

void line_leave(struct place *place) {
    take_out(place, atomic_load_explicit(&place->since, memory_order_relaxed));
}

/* Whether the pass has given no sign for too long. Its clock may be ahead of the caller's. */
static int is_gone(const struct place *place, uint64_t now) {
    uint64_t seen = atomic_load_explicit(&place->seen, memory_order_relaxed);
    return seen < now && now - seen > GONE;
}

size_t line_ahead(struct place *place, uint64_t since, uint64_t now) {
    struct line *line = place->line;
    size_t ahead = 0;
    for (size_t i = 0; i < line->count; i++) {
        struct place *other = &line->places[i];
        uint64_t its = atomic_load_explicit(&other->since, memory_order_acquire);
        if (its == 0 || its >= since)
            continue;
        if (is_gone(other, now))
            take_out(other, its);
        else
            ahead++;
    }
    return ahead;
}
