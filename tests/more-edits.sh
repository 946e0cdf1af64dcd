#!/usr/bin/env bash
# Tries the edits of crates/*/more-edits, as the gate tries those of crates/*/must-fail: the prover must refuse each. They are kept out of the
# gate for its time: those of the crates that take longest to prove, and second ones of a promise that an edit of the gate breaks.
#
# Usage: more-edits.sh [CRATE...]
set -euo pipefail

cd "$(dirname "$0")/.."
scratch=$(mktemp -d)
trap 'rm -rf "$scratch"' EXIT
# rt finds by itself what the checks of this tree kept
tar -c --exclude='crates/*/out' crates crates.txt | tar -x -C "$scratch"
cd "$scratch"
rm -rf crates/*/must-fail
for folder in crates/*/more-edits; do
    crate=$(basename "$(dirname "$folder")")
    if [[ $# == 0 || " $* " == *" $crate "* ]]; then mv "$folder" "crates/$crate/must-fail"; fi
done
rt must-fail "$@"
