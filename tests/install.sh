#!/usr/bin/env bash
# Installs to a scratch folder, and uses from there what an integrator would: the header, the library and the pkg-config file by the C
# example, the library by the Rust example, the manual pages. Then what happens without the library, and that uninstalling leaves nothing.
#
# Usage: install.sh LIBRARY
set -euo pipefail

[[ $# == 1 ]] || { echo "usage: install.sh LIBRARY" >&2; exit 2; }
library=$(realpath "$1")
cd "$(dirname "$0")/.."
for tool in make gcc pkg-config cargo python3; do
    command -v "$tool" >/dev/null || { echo "install.sh: $tool is missing" >&2; exit 1; }
done
folder=$(mktemp -d)
trap 'rm -rf "$folder"' EXIT
prefix=$folder/prefix
passed=0
export CARGO_TERM_COLOR=never
unset KIT_PLANNER_LIB_DIR

# check LABEL COMMAND..: the command succeeds
check() {
    local label=$1
    shift
    "$@" || { echo "install.sh: $label" >&2; exit 1; }
    passed=$((passed + 1))
}

# same LABEL TEXT EXPECTED: two texts are the same
same() { check "$1" diff <(printf '%s\n' "$2") <(printf '%s\n' "$3"); }

# status COMMAND..: its exit status; what it prints is kept
status() {
    local status=0
    "$@" >"$folder/out" 2>"$folder/err" || status=$?
    echo "$status"
}

# files FOLDER: everything in it that is no folder
files() { (cd "$1" && find . ! -type d | LC_ALL=C sort); }

# package COMMAND..: cargo's command over the Rust package, built below the scratch folder with the library of the folder given by $lib
package() {
    local command=$1
    shift
    KIT_PLANNER_LIB_DIR=$lib CARGO_TARGET_DIR=$folder/cargo cargo "$command" --offline --manifest-path rust/Cargo.toml -p kit_planner "$@"
}

installed='./bin/kit
./include/kit_planner.h
./lib/libplanner_c.a
./lib/pkgconfig/kit_planner.pc
./share/man/man1/kit.1
./share/man/man3/kit_check.3
./share/man/man3/kit_join.3
./share/man/man3/kit_plan.3
./share/man/man3/kit_read.3
./share/man/man3/kit_reason.3
./share/man/man3/kit_source.3
./share/man/man5/kit-card.5'

installs() {
    check "make install" make --silent install PREFIX="$prefix"
    same "the files installed" "$(files "$prefix")" "$installed"
    check "the library installed" cmp "$library" "$prefix/lib/libplanner_c.a"
    check "the header installed" cmp include/kit_planner.h "$prefix/include/kit_planner.h"
    check "the program installed" cmp rust/target/release/kit "$prefix/bin/kit"
    same "the program can be run" "$("$prefix/bin/kit" --version)" "kit $(sed -n 's/^.define KIT_VERSION "\(.*\)"$/\1/p' include/kit_planner.h)"
    make --dry-run install PREFIX="$prefix" >"$folder/again"
    check "what is built is not built again" test -z "$(grep -E '(^|&& )(cargo|rt) ' "$folder/again")"
    check "make install for a package" make --silent install DESTDIR="$folder/stage" PREFIX=/opt/kit
    same "the files of the package" "$(files "$folder/stage/opt/kit")" "$installed"
    check "the package's prefix" grep -qx 'prefix=/opt/kit' "$folder/stage/opt/kit/lib/pkgconfig/kit_planner.pc"
    same "a relative prefix is turned down" "$(status make install PREFIX=here)" 2
    check "and told" grep -q 'PREFIX is to begin with /' "$folder/err"
}

pages() {
    check "the faults that installed.py looks for" python3 tests/installed.py --self-test
    check "pages, versions and reasons" python3 tests/installed.py "$prefix"
    if command -v groff >/dev/null; then
        for page in "$prefix"/share/man/man*/*; do
            same "$page is printed without a warning" "$(cd "$prefix/share/man" && groff -man -Tutf8 -ww -z "$page" 2>&1)" ""
        done
    fi
}

# compiled SOURCE PROGRAM: as C99 by what pkg-config says
compiled() {
    local flags
    # pkg-config escapes what is in a path, for a shell to read
    eval "flags=($(PKG_CONFIG_PATH=$prefix/lib/pkgconfig pkg-config --cflags --libs kit_planner))"
    check "$1 compiles" gcc -std=c99 -Wall -Wextra -pedantic -Werror "$1" "${flags[@]}" -o "$2"
}

# both FILES STATUS TEXT: what the examples print of these files, and their exit status
both() {
    local program full
    for program in "$folder/c-example" "$folder/cargo/release/examples/plan"; do
        same "$program $1: status" "$(status "$program" ${1:+"$folder/$1"})" "$2"
        same "$program $1: output" "$(cat "$folder/out")" "$3"
    done
}

# card NAME BYTES: a file of the bytes in hex
card() { python3 -c 'import sys; open(sys.argv[1], "wb").write(bytes.fromhex(sys.argv[2]))' "$folder/$1" "$2"; }

examples() {
    local lib=$prefix/lib
    compiled examples/plan.c "$folder/c-example"
    RUSTFLAGS='-D warnings' check "the Rust example builds" package build --quiet --release --example plan
    cp cards/sample.card "$folder/sample"
    both sample 0 "$(printf '%s\n' 'planned, steps: 2' 'step 0: line 1' 'step 1: line 0' 'line 0: used' 'line 1: used' 'line 2: left on the tray')"
    # the card with a rule, a line and a lend of docs/FORMAT.md
    card mixed '002E0101010006000202030100020000010003000006000000010100010000070000000107000300040005000301'
    both mixed 0 "$(printf '%s\n' 'planned, steps: 3' 'step 0: rule 0' 'step 1: lent 0' 'step 2: line 0' 'line 0: used')"
    # goal rest, must 2, may 2
    card rest '001B0100020002000104080100020000020000000000000100 0000'
    both rest 0 "$(printf '%s\n' 'planned, steps: 0' 'line 0: taken by rest' 'line 1: left on the tray')"
    # goal "2 either way rest", must 2
    card one-way '001D01000100030002010101000200000200000000050000000100 0001'
    both one-way 0 "$(printf '%s\n' 'planned, steps: 1' 'step 0: line 0' 'line 0: used one way only')"
    cp cards/one-of.card "$folder/one-of"
    both one-of 0 "$(printf '%s\n' 'planned, steps: 4' 'step 0: right' 'step 1: line 0' 'step 2: line 1' 'step 3: line 2' \
        'line 0: used' 'line 1: used' 'line 2: used' 'line 3: left on the tray')"
    { head -c 21 cards/sample.card; printf '\x0b'; tail -c +23 cards/sample.card; } >"$folder/broken"
    both broken 1 'refused 6 at node 2: unknown kind, name above 999, unused field not 0, part not lower, part of the wrong reading, or height above 8'
    { head -c 39 cards/sample.card; printf '\x01'; } >"$folder/stuck"
    both stuck 1 'refused 11 at card: no derivation within limits'
    { cat cards/sample.card; head -c 5000 /dev/zero; } >"$folder/long"
    both long 1 'refused 2 at card: length field differs from the bytes lent'
    : >"$folder/nothing"
    both nothing 1 'refused 1 at card: fewer than 11 bytes'
    both missing 2 ''
    both '' 2 ''
    local program full
    for program in "$folder/c-example" "$folder/cargo/release/examples/plan"; do
        full=$("$program" "$folder/sample" 2>&1 >/dev/full; echo "status $?")
        check "$program to a full disk" test -z "${full##plan: standard output: No space left on device*status 2}"
    done
}

# the program of kit_plan.3
page_example() {
    sed -n '/^\.EX/,/^\.EE/p' "$prefix/share/man/man3/kit_plan.3" | sed -e '/^\.E[XE]/d' -e 's/\\e/\\/g' >"$folder/page.c"
    compiled "$folder/page.c" "$folder/page"
    same "the example of kit_plan.3" "$("$folder/page" <cards/sample.card)" $'1\n0'
    same "the example of kit_plan.3 on choices" "$("$folder/page" <cards/menu.card)" $'0\nleft\n4\n3\n1\nleft\n2\nright'
}

without_library() {
    local lib=$folder/empty
    mkdir "$lib"
    same "no library, no build" "$(status package build)" 101
    same "one message, and cargo's own" "$(grep -c '^error' "$folder/err")" 2
    check "it names the path looked at" grep -q "^error: $lib/libplanner_c.a is missing: " "$folder/err"
    check "and the command" grep -q '^error: .*`make library`' "$folder/err"
    check "and the variable" grep -q '^error: .* KIT_PLANNER_LIB_DIR$' "$folder/err"
    check "nothing panics" test -z "$(grep -iE 'panic|backtrace' "$folder/err")"
    RUSTDOCFLAGS='-D warnings' check "documentation without the library" package doc --quiet --no-deps
    check "the crate's page" test -s "$folder/cargo/doc/kit_planner/index.html"
    cp "$library" "$lib"
    check "the library has come" package build --quiet
}

uninstalls() {
    : >"$prefix/lib/other"
    check "make uninstall" make --silent uninstall PREFIX="$prefix"
    same "what uninstalling leaves" "$(files "$prefix")" ./lib/other
    check "make uninstall for a package" make --silent uninstall DESTDIR="$folder/stage" PREFIX=/opt/kit
    same "what that leaves" "$(files "$folder/stage")" ""
}

installs
pages
examples
page_example
without_library
uninstalls
echo "install.sh: $passed checks passed"
