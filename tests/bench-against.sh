#!/usr/bin/env bash
# The planner of this tree beside that of an earlier commit: whether both answer alike on cards from fixed seeds, then the time of each by
# families of cards. The earlier library is built once, in a scratch folder, and kept as target/before/HASH.a. A commit that is written for an
# older Rattle does not build with this one: its library has to lie there already.
#
# Usage: bench-against.sh COMMIT
set -euo pipefail

[[ $# == 1 ]] || { echo "usage: bench-against.sh COMMIT" >&2; exit 2; }
for tool in rt cargo objcopy; do
    command -v "$tool" >/dev/null || { echo "bench-against.sh: $tool is missing" >&2; exit 1; }
done
cd "$(dirname "$0")/.."
hash=$(git rev-parse --short "$1^{commit}")
library=crates/planner_c/out/libplanner_c.a
before=target/before/$hash.a
pair=$PWD/target/pair
scratch=$(mktemp -d)
trap 'rm -rf "$scratch"' EXIT

# build FOLDER: its static library; what rt said is shown where that fails
build() { (cd "$1/crates/planner_c" && rt lib) >"$scratch/log" 2>&1 || { tail -n 20 "$scratch/log" >&2; exit 1; }; }

# renamed WORD LIBRARY: the library with its calls renamed by the word, so that two can be linked into one program. Every function begins
# a page, so that where the linker lays them favours neither.
renamed() {
    local call names=()
    for call in kit_plan kit_read kit_join kit_source; do names+=(--redefine-sym "$call=$1_$call"); done
    objcopy "${names[@]}" --set-section-alignment '.text.*=4096' "$2" "$pair/$1.a"
}

if [[ ! -f $before ]]; then
    mkdir "$scratch/tree"
    git archive "$hash" | tar -x -C "$scratch/tree"
    build "$scratch/tree"
    mkdir -p target/before
    cp "$scratch/tree/$library" "$before"
fi
build .
mkdir -p "$pair"
renamed before "$before"
renamed now "$library"

echo "Before: $hash. Now: $(git describe --always --dirty --abbrev=${#hash})."
echo
cd rust
export KIT_PLANNER_PAIR=$pair
cargo bench --quiet --offline --bench agree
echo
cargo bench --quiet --offline --bench families
