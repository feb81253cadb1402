# shellcheck shell=sh disable=SC2154
# Tests in C and C++ under memcheck and helgrind. A part of tests/store/check.

memcheck() {
    valgrind -q --leak-check=full --show-leak-kinds=all --errors-for-leak-kinds=all \
        --error-exitcode=9 "$@"
}

helgrind() {
    valgrind -q --tool=helgrind --error-exitcode=9 "$@"
}

# NAME LIBRARY WORD..: the test of NAME.c with these words, under memcheck
memcheck_c() {
    checked=$1 library=$2
    shift 2
    # shellcheck disable=SC2086
    build_c "checked_$checked" "$checked.c" $library && memcheck "out/checked_$checked" "$@"
}

memcheck_cpp() {
    build_cpp checked_cpp tests.cpp "$verifier" && memcheck out/checked_cpp
}

line_memcheck() {
    alone line && memcheck out/line
}

queue_memcheck() {
    build_queue checked_queue && memcheck out/checked_queue 200
}

queue_helgrind() {
    build_queue ordered_queue && helgrind out/ordered_queue 200
}

# With one writer: helgrind takes no atomic step for an order, so what two writers write one after
# the other, each when it has the turn, is a race to it.
helgrind_c() {
    build_c ordered_threads threads.c "$verifier" && helgrind out/ordered_threads "$@"
}

# Eight threads that share one writer by a group, without a reader.
helgrind_group() {
    build_c ordered_group group.c && helgrind out/ordered_group "$@"
}

# Four threads that prepare the parts of a block, and are joined before it is made.
helgrind_parts() {
    build_c ordered_parts blocks_parts.c && helgrind out/ordered_parts 10 joined
}

# Blocks by threads that one call starts.
helgrind_in_threads() {
    build_c ordered_in_threads blocks_in_threads.c $wrap && helgrind out/ordered_in_threads 20
}

in_valgrind() {
    if ! has valgrind; then left_out "memcheck, helgrind: there is no valgrind"; return; fi
    if ! has cc; then left_out "memcheck, helgrind: there is no cc"; return; fi
    for name in states lengths formats; do
        try "the $name under memcheck" memcheck_c "$name" ""
    done
    try "the line under memcheck" line_memcheck
    try "the queue under memcheck" queue_memcheck
    try "the queue under helgrind" queue_helgrind
    try "batches under memcheck" memcheck_c batches ""
    try "openings of sharded maps under memcheck" memcheck_c blocks_openings ""
    try "blocks under memcheck" memcheck_c blocks ""
    try "blocks in parts under memcheck" memcheck_c blocks_parts "" 10 joined
    try "blocks in parts under helgrind" helgrind_parts
    try "blocks in threads under memcheck" memcheck_c blocks_in_threads $wrap 20
    try "blocks in threads under helgrind" helgrind_in_threads
    try "copies under memcheck" memcheck_c copies ""
    try "threads with a group under memcheck" memcheck_c group "" 60
    try "threads with a group under helgrind" helgrind_group 60 0
    try "pages under memcheck" memcheck_c pages ""
    try "where two maps differ under memcheck" memcheck_c differing "" 18
    if [ ! -f "$verifier" ]; then
        left_out "threads, random blocks, C++ under memcheck: there is no $verifier"
        return
    fi
    try "random blocks under memcheck" memcheck_c blocks_walk "$verifier" 100
    try "threads at a sharded map under memcheck" memcheck_c blocks_threads "$verifier" 50
    try "threads under memcheck" memcheck_c threads "$verifier" 60
    try "a writer and a reader under helgrind" helgrind_c 60 1
    if has c++; then try "the tests in C++ under memcheck" memcheck_cpp; fi
}
