# shellcheck shell=sh disable=SC2154
# Whether the programs of bench/ run, each for an instant. A part of tests/store/check.

# The calls that bench/store times, each but a few times.
speed() {
    cc -std=c11 -D_GNU_SOURCE -Wall -Wextra -Werror -O2 -I../../include ../../bench/store/speed.c \
        ../../bench/store/store.c "$store" -lpthread -o out/speed_check || return 1
    for call in get get-within next range put batch-10 batch-1000 load prove get-beside-puts \
        put-beside-gets; do
        out/speed_check store 200 "$call" 200 > out/speed_said || { echo "$call"; return 1; }
    done
}

# Its lines of engines, of std::map alone and of few keys.
speed_engines() {
    ../../bench/store/run engines --engines map --keys 100,200 --tsv out/engines.tsv || return 1
    for call in get next range put; do
        printf 'std::map\t%s\t100\nstd::map\t%s\t200\n' "$call" "$call"
    done > out/engines_wanted
    sed 1d out/engines.tsv | cut -f 1-3 | diff out/engines_wanted - &&
        ! sed 1d out/engines.tsv | cut -f 4 | grep -vx '[1-9][0-9]*'
}

# Its programs of several threads, writers or readers, for an instant each: how they go about it.
several() {
    what=$1
    shift
    cc -std=c11 -D_GNU_SOURCE -Wall -Wextra -Werror -O2 -I../../include \
        "../../bench/store/$what.c" "$store" -lpthread -o "out/${what}_check" || return 1
    for how in "$@"; do
        "out/${what}_check" "$how" 3 100 > "out/${what}_said" || { echo "$how"; return 1; }
    done
}

# The calls that bench/sharded times, each but a few times.
speed_sharded() {
    cc -std=c11 -D_GNU_SOURCE -Wall -Wextra -Werror -O2 -I../../include \
        ../../bench/sharded/speed.c ../../bench/sharded/sharded.c "$store" -lpthread \
        -o out/speed_sharded && out/speed_sharded sharded 1000 4 100
}

# Its program of threads that write blocks.
speed_group() {
    cc -std=c11 -D_GNU_SOURCE -Wall -Wextra -Werror -O2 -I../../include \
        ../../bench/sharded/group.c "$store" -lpthread -o out/speed_group &&
        out/speed_group 1000 4 800 1
}

# Its program of blocks and snapshots.
speed_blocks() {
    cc -std=c11 -D_GNU_SOURCE -Wall -Wextra -Werror -O2 -I../../include \
        ../../bench/sharded/blocks.c "$store" -lpthread -o out/speed_blocks &&
        out/speed_blocks 1000 4 1
}

# The calls that bench/latency looks at, each but a few times, alone and beside other threads.
latency() {
    cc -std=c11 -D_GNU_SOURCE -Wall -Wextra -Werror -O2 -I../../include \
        ../../bench/latency/latency.c "$store" -lpthread -o out/latency_check || return 1
    for call in nothing get next range root prove pin put remove batch-10 batch-100 batch-1000 \
        free-rows migrate; do
        out/latency_check 200 "$call" 50 0 0 > out/latency_said || { echo "$call"; return 1; }
        grep -qx '[0-9]* [0-9]* [0-9]*' out/latency_said || { echo "$call"; return 1; }
    done
    out/latency_check 200 put 50 2 2 > out/latency_said
}

# PROGRAM WORD..: a program of bench/limits, over 1,000 random keys of 16 bytes.
limits_of() {
    program=$1
    shift
    "out/limits_$program" 1 out/limits_keys 16 "$@"
}

# What they tell: 900 random keys fill 1,000 rows; a store of 1,000 rows with a pinned version of
# 800 keys is full before each key has another value, one of 4,000 is not; no batch is refused.
limits() {
    head -c 16000 /dev/urandom > out/limits_keys
    for program in calls full rows blocks; do
        cc -std=c11 -D_GNU_SOURCE -Wall -Wextra -Werror -O2 -I../../include \
            "../../bench/limits/$program.c" ../../bench/limits/map.c "$store" -lpthread \
            -o "out/limits_$program" || return 1
    done
    for call in get put prove batch-10 batch-100 batch-1000 move proofs; do
        limits_of calls 900 "$call" 5 2 > out/limits_said || { echo "$call"; return 1; }
    done
    limits_of full 1000 0 500 > out/limits_said && [ "$(cat out/limits_said)" -gt 700 ] &&
        limits_of full 1000 1 500 > out/limits_said && [ "$(cat out/limits_said)" -gt 500 ] &&
        limits_of full 1000 pinned 800 9000 | grep -qx '[0-9]*' &&
        limits_of full 4000 pinned 800 3000 | grep -qx 'no refusal in 3000' &&
        limits_of full 1000 stuck 300 100 | grep -qx '32 32 0' &&
        limits_of full 4000 memory 800 900 > out/limits_said &&
        limits_of rows 800 20 60 3 30 > out/limits_said &&
        limits_of blocks 900 4 2000 20 60 3 30 > out/limits_said
}

speed_python() {
    for call in range batch-10 load; do
        python3 ../../bench/store/speed.py store 200 "$call" 200 || return 1
    done
}

in_c_and_python() {
    if has cc && has c++ && has python3; then
        try "the lines of bench/store for std::map" speed_engines
    else
        left_out "the lines of bench/store for std::map: they need cc, c++ and python3"
    fi
}
