# shellcheck shell=sh disable=SC2154
# The Python package, the Rust crates and the Go package, as users install them. A part of
# tests/packages.

# By the shared library that is installed, where no folder is named: as its wheel has it, and as the
# system finds it.
python_versions() {
    LD_LIBRARY_PATH=$work/prefix/usr/lib PYTHONPATH=$1 python3 -c '
import mst_store, sys
assert mst_store.__version__ == mst_store.library_version(), mst_store.library_version()
print(mst_store.__version__, mst_store.__file__)'
}

# With the package comes the verifier, which judges a proof of the store, and then a false one.
python_verifies() {
    LD_LIBRARY_PATH=$work/prefix/usr/lib PYTHONPATH=$1 python3 -c '
import mst_store, mst_verifier
(store,) = mst_store.open_store(rows=16, passes=1)
store.put(b"apple", b"30")
root, proof = store.root(), store.prove(b"apple")
assert mst_verifier.verify(1, root, b"apple", proof) == b"30"
try:
    mst_verifier.verify(1, root, b"apple", proof[:-1] + b"1")
    raise SystemExit("a false proof is accepted")
except mst_verifier.Refused as refused:
    print("30; refused:", refused)'
}

python_alone() {
    mkdir -p "$work/python" && cp -r bindings/python/mst_store "$work/python" &&
        python_versions "$work/python"
}

python_wheel() {
    making wheel > "$work/log" 2>&1 || { cat "$work/log"; return 1; }
    python3 -m zipfile -e "$work/out/wheel"/*.whl "$work/wheel" &&
        [ -f "$work/wheel/mst_store/py.typed" ] && python_versions "$work/wheel" &&
        python_verifies "$work/wheel"
}

# Whether mypy is 1.7 or later: those before do not read the `Unpack` of open_sharded's type.
reads_unpack() {
    mypy --version | python3 -c "import re, sys
sys.exit([*map(int, re.findall('[0-9]+', sys.stdin.read())[:2])] < [1, 7])"
}

typed_python() {
    (cd bindings/python && mypy --strict --cache-dir="$work/mypy" mst_store) &&
        MYPYPATH=bindings/python mypy --cache-dir="$work/mypy" examples/store.py
}

# FOLDER NAME: no warning, and the licences are those of the repository. What is made stands in a
# folder of this name.
crate() {
    cmp LICENSE-MIT "$1/LICENSE-MIT" && cmp LICENSE-APACHE "$1/LICENSE-APACHE" && cd "$1" ||
        return 1
    MST_STORE_DIR="$work/out" CARGO_TARGET_DIR="$work/$2" cargo package --offline \
        --allow-dirty > "$work/log" 2>&1 && no_warning "$work/log" ||
        { cat "$work/log"; return 1; }
    ls "$work/$2/package"/*.crate | sed 's|.*/||'
}

# LOG: whether it has no warning but that of a dry run, and the one that comes as long as ADDRESS
# names no repository. Prints the others.
no_warning() {
    said=$(grep -i warning "$1" |
        grep -v -e 'manifest has no documentation, homepage or repository' \
            -e 'aborting upload due to dry run')
    [ -z "$said" ] || { echo "$said"; return 1; }
}

# What `cargo publish --dry-run` says, with an empty index in place of the registry's.
crate_published() {
    mkdir "$work/index" && cd "$work/index" &&
        printf '{"dl": "file://%s", "api": "file://%s"}\n' "$work" "$work" > config.json &&
        git init -q && git add config.json &&
        git -c user.name=none -c user.email=none -c commit.gpgsign=false commit -qm index &&
        cd "$top/bindings/rust" || return 1
    CARGO_TARGET_DIR="$work/crate" cargo publish --dry-run --no-verify --allow-dirty \
        --index "file://$work/index" > "$work/log" 2>&1 || { cat "$work/log"; return 1; }
    no_warning "$work/log"
}

# The example with the library that pkg-config finds.
crate_installed() {
    mkdir "$work/crate/apart" && tar -xf "$work/crate/package"/*.crate -C "$work/crate/apart" &&
        cd "$work/crate/apart"/mst_store-* && with_pkg_config "$work/prefix" /usr/lib \
            env LD_LIBRARY_PATH="$work/prefix/usr/lib" CARGO_TARGET_DIR="$work/crate/apart/out" \
            cargo run --offline --quiet --example store
}

# A program outside the repository, with the package and the library that pkg-config finds.
go_installed() {
    module=$(sed -n 's/^module //p' bindings/go/go.mod)
    mkdir "$work/go" && cp examples/go/main.go "$work/go" && cd "$work/go" && cat > go.mod <<END
module program

go 1.18

require $module v0.0.0

replace $module => $top/bindings/go
END
    with_pkg_config "$work/prefix" /usr/lib env GOPROXY=off GOTOOLCHAIN=local GOFLAGS=-mod=mod \
        "GOPATH=$work/gopath" "GOCACHE=$work/gopath/cache" \
        go build -buildvcs=false -tags mst_installed -o program . &&
        LD_LIBRARY_PATH=$work/prefix/usr/lib ./program
}
