# shellcheck shell=sh disable=SC2154
# The tests and examples in C. A part of tests/store/check.

# Strict C99, as the header promises, and later; and in C11 what the library itself has in C.
header_c() {
    for source in states.c lengths.c formats.c texts.c batches.c pages.c differing.c ends.c \
        knows.c blocks.c blocks_openings.c blocks_ends.c blocks_parts.c blocks_in_threads.c \
        blocks_walk.c blocks_threads.c group.c ../../examples/*.c; do
        is_quiet "$source" c99 cc clang && is_quiet "$source" c11 cc clang || return 1
    done
    for source in "$bindings"/*.c; do
        is_quiet "$source" c11 cc clang || return 1
    done
}

example_c() {
    build_c example ../../examples/store.c && writes out/example
}

paging_c() {
    build_c paging ../../examples/paging.c && pages out/paging
}

recipe_c() {
    build_c "recipe_$1" "$cookbook/$1.c" "$bindings/out/libmst_verifier.a" &&
        writes_recipe "$1" "out/recipe_$1"
}

# Random calls, and by Python the root digests of some of the lists that they led to.
walk() {
    build_c walk walk.c "$verifier" && out/walk 100000 out/walk_lists || return 1
    if has python3; then python3 walk_roots.py out/walk_lists; fi
}

# NAME FLAG..: the test of NAME.c, of the library's own C without a store.
alone() {
    name=$1
    shift
    cc -std=c11 -D_GNU_SOURCE -Wall -Wextra -Werror -O2 -g "$@" -I../../include "$name.c" \
        -o "out/$name" && "out/$name"
}

# Whether programs run here in which AddressSanitizer looks at each access.
has_asan() {
    echo 'int main(void) { return 0; }' > out/asan.c &&
        cc -fsanitize=address,undefined out/asan.c -o out/asan 2> /dev/null &&
        out/asan 2> /dev/null
}

# Texts of any bytes, each in memory of just its length.
nodes() {
    if has_asan; then
        alone nodes -fsanitize=address,undefined -fno-sanitize-recover
    else
        alone nodes
    fi
}

# NAME FLAG..: the program out/NAME, the queue of a group without a store
build_queue() {
    name=$1
    shift
    cc -std=c11 -D_GNU_SOURCE -Wall -Wextra -Werror -O2 -g "$@" -I../../include queue.c -lpthread \
        -o "out/$name"
}

queue() {
    build_queue queue && out/queue
}

# Whether programs run here in which ThreadSanitizer looks at each access.
has_tsan() {
    echo 'int main(void) { return 0; }' > out/tsan.c &&
        cc -fsanitize=thread out/tsan.c -o out/tsan 2> /dev/null && out/tsan 2> /dev/null
}

queue_tsan() {
    build_queue watched_queue -fsanitize=thread && out/watched_queue 1000
}

in_c() {
    if ! has cc; then left_out "C: there is no cc"; return; fi
    try "the header in C99 and C11" header_c
    try "the example in C" example_c
    try "the example of paging in C" paging_c
    try "closed hands, wrong states, shapes" run_c states
    try "lengths, null pointers, rooms that are too short" run_c lengths
    try "migrations, and stores with too few rows" run_c formats
    try "texts of numbers" run_c texts
    try "batches of edits, and bytes that are none" run_c batches
    try "pages behind a key" run_c pages
    try "texts of nodes and pieces of proofs, of any bytes" nodes
    try "where two maps differ, and pieces that are spoiled" run_c differing
    try "memory that is refused where two maps differ" run_c differing_nomem
    try "calls at both ends of what they take" run_c ends
    try "free rows while versions are pinned, and versions made" run_c knows
    try "all short scripts of three passes in few rows" run_c at_rest
    try "each order of two passes that pin and one that writes" run_c orders
    try "threads that write, and threads that see batches whole" run_c races
    try "memory that is counted and refused" run_c nomem
    try "memory that is refused in ever larger heaps" run_c growths
    try "calls when the heap is full" run_c full_heap
    try "memory that is refused over a map of many nodes, and to loads" run_c nomem_maps
    try "memory that is refused over 400 and 8,000 keys, one of layer 9" run_c nomem_large
    try "memory of sharded maps that is refused" run_c blocks_nomem
    try "shards that have too few rows for a block, each in turn" run_c blocks_full
    try "blocks that are made in parts, also by four threads" run_c blocks_parts
    try "blocks that one call makes by several threads" run_c blocks_in_threads $wrap
    try "copies of sharded maps, and those that are refused" run_c copies
    try "the most memory that a call holds" run_c peaks
    try "calls while another pass migrates, and how they wait" run_c busy
    try "the line of those that have waited long" alone line
    try "the queue of threads that write blocks" queue
    if has_tsan; then
        try "the queue under ThreadSanitizer" queue_tsan
    else
        left_out "the queue under ThreadSanitizer: cc has none that runs here"
    fi
    try "calls that wait for a time, in line, and in threads that end" run_c waits
    try "reads after a thread has ended during a write" run_c dead_writer
    try "openings of sharded maps, and splits that are none" run_c blocks_openings
    try "blocks that are made and refused, and hands of the wrong kind" run_c blocks
    try "blocks and snapshots at both ends of what they take" run_c blocks_ends
    try "threads that write blocks by a group" run_c group
    try "the depth and the stack of calls over deep trees" run_c deep
    try "the stack of calls over 25,000 keys" run_c stacks
    try "the program of bench/store" speed
    try "its program of several writers" several writers put mutex spin
    try "its program of several readers" several readers held newest beside
    try "the program of bench/sharded" speed_sharded
    try "its program of threads that write blocks" speed_group
    try "the program of bench/sharded that times blocks" speed_blocks
    try "the program of bench/latency" latency
    try "the programs of bench/limits" limits
    recipes C c recipe_c
    if [ ! -f "$verifier" ]; then
        left_out "threads and an audit, random calls, random blocks: there is no $verifier (rt lib \
in crates/mst_verifier)"
        return
    fi
    try "threads and an audit" run_c threads "$verifier"
    try "threads that audit while formats change" run_c auditors "$verifier"
    try "random calls against a plain list" walk
    try "random blocks, and snapshots that keep theirs" run_c blocks_walk "$verifier"
    try "readers while a writer publishes blocks" run_c blocks_threads "$verifier"
}
