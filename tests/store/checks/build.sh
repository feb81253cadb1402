# shellcheck shell=sh disable=SC2154
# How programs are built, and what more than one language is to write. A part of tests/store/check.

# NAME SOURCE LIBRARY..: the program out/NAME of a source in C
build_c() {
    name=$1 source=$2
    shift 2
    cc -std=c11 -D_GNU_SOURCE -Wall -Wextra -Werror -O2 -g -I../../include "$source" "$store" "$@" \
        -lpthread -o "out/$name"
}

# The same in C++.
build_cpp() {
    name=$1 source=$2
    shift 2
    c++ -std=c++17 -Wall -Wextra -Werror -O2 -g "-I$bindings/cpp" -I../../include "$source" \
        "$store" "$@" -lpthread -o "out/$name"
}

# NAME LIBRARY..: the test of NAME.c
run_c() {
    name=$1
    shift
    build_c "$name" "$name.c" "$@" && "out/$name"
}

# SOURCE STANDARD COMPILER..: whether none of these compilers that is there has a warning
is_quiet() {
    source=$1 standard=$2
    shift 2
    more=
    case $standard in c++*) more='-Wold-style-cast -Wzero-as-null-pointer-constant' ;; esac
    for compiler in "$@"; do
        has "$compiler" || continue
        # shellcheck disable=SC2086
        "$compiler" "-std=$standard" -pedantic -Wall -Wextra -Wconversion -Wshadow $more -Werror \
            "-I$bindings/cpp" -I../../include -fsyntax-only "$source" || return 1
    done
}

# COMMAND..: whether it writes what each example of paging is to write
pages() {
    wrote=$("$@") && [ "$wrote" = "10000 digests on 40 pages" ] || { echo "$wrote"; return 1; }
}

# NAME COMMAND..: whether it writes what the recipe of this name is to write
writes_recipe() {
    printed=$cookbook/$1.out
    shift
    log=out/recipe_log_$language
    wrote=$("$@" 2> "$log") && [ "$wrote" = "$(cat "$printed")" ] && return
    echo "$wrote"
    cat "$log"
    return 1
}

# LANGUAGE SUFFIX COMMAND: the recipes of docs/COOKBOOK.md in a language
recipes() {
    language=$1
    for source in "$cookbook"/*."$2"; do
        recipe=$(basename "$source" ".$2")
        try "the recipe $recipe in $1" "$3" "$recipe"
    done
}
