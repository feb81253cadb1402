# shellcheck shell=sh disable=SC2154
# The tests and examples in C++, Rust, Go and Python. A part of tests/store/check.

# The C header in C++ from C++98 on, which wants no long long, and the binding.
header_cpp() {
    for standard in c++11 c++14 c++17 c++20; do
        is_quiet headers.cpp $standard c++ clang++ || return 1
    done
    for compiler in c++ clang++; do
        has $compiler || continue
        $compiler -std=c++98 -Wall -Wextra -Wconversion -Wshadow -Wold-style-cast -Werror \
            -I../../include -fsyntax-only headers.cpp || return 1
    done
    for source in tests.cpp waits.cpp differing.cpp sharded.cpp sharded_group.cpp; do
        is_quiet $source c++17 c++ clang++ && is_quiet $source c++20 c++ clang++ || return 1
    done
}

tests_cpp() {
    build_cpp tests_cpp tests.cpp "$verifier" && out/tests_cpp
}

waits_cpp() {
    build_cpp waits_cpp waits.cpp && out/waits_cpp
}

differing_cpp() {
    build_cpp differing_cpp differing.cpp && out/differing_cpp
}

sharded_cpp() {
    build_cpp sharded_cpp sharded.cpp "$verifier" && out/sharded_cpp
}

sharded_group_cpp() {
    build_cpp sharded_group_cpp sharded_group.cpp && out/sharded_group_cpp
}

example_cpp() {
    build_cpp example_cpp ../../examples/store.cpp && writes out/example_cpp
}

in_cpp() {
    if ! has c++; then left_out "C++: there is no c++"; return; fi
    try "the headers in C++98 to C++20, the binding in C++17 and C++20" header_cpp
    try "the example in C++" example_cpp
    try "calls in C++ that wait for a time, and threads that are served" waits_cpp
    try "where two maps differ, in C++" differing_cpp
    try "threads that write blocks by a group in C++" sharded_group_cpp
    if [ ! -f "$verifier" ]; then left_out "the tests in C++: there is no $verifier"; return; fi
    try "the tests in C++" tests_cpp
    try "sharded maps in C++" sharded_cpp
}

in_rust() {
    if ! has cargo; then left_out "Rust: there is no cargo"; return; fi
    try "the tests and the example in Rust" ./rust
}

in_go() {
    if ! has go; then left_out "Go: there is no go (Debian: golang-go)"; return; fi
    if ! has cc; then left_out "Go: there is no cc, which cgo needs"; return; fi
    try "the tests and the example in Go, with the race detector too" go/run
}

recipe_python() {
    writes_recipe "$1" env "PYTHONPATH=$bindings/python:../../verifiers/python" \
        python3 "$cookbook/$1.py"
}

paging_python() {
    PYTHONPATH=$bindings/python pages python3 ../../examples/paging.py
}

in_python() {
    if ! has python3; then left_out "Python: there is no python3"; return; fi
    try "the tests, the example and the wheel in Python" ./python
    try "the example of paging in Python" paging_python
    recipes Python py recipe_python
    try "two replicas in Python" python3 ../../examples/replicas/catch_up.py
    if has redis-server && python3 -c 'import redis' 2> /dev/null; then
        try "three replicas fed by a log, and an audit" ../../examples/replicas/run
        try "a map over processes, format 1" ../../examples/shards/run --small
        try "a map over processes, format 2" ../../examples/shards/run --small --format 2
    else
        left_out "three replicas, a map over processes: there is no redis-server, or no module \
redis for Python (Debian: redis-server, python3-redis)"
    fi
    try "the program of bench/store in Python" speed_python
}
