#!/usr/bin/env bash
# Runs the built program `plan` on inputs that a stored stdin cannot show.
#
# Usage: plan.sh PROGRAM
set -euo pipefail

program=$1
tests=$(dirname "$0")
sample=$tests/../cards/sample.card
passed=0

# check LABEL EXPECTED COMMAND..: the command's output is the text expected, to the byte
check() {
    local label=$1 expected=$2
    shift 2
    if ! cmp <("$@") <(printf %b "$expected"); then
        echo "plan.sh: $label: expected" >&2
        printf %b "$expected" >&2
        exit 1
    fi
    passed=$((passed + 1))
}

whole() { "$program" <"$sample"; }

choices() { "$program" <"$tests/../cards/menu.card"; }

empty() { "$program" </dev/null; }

# 5,000 bytes more, so that only the first 4,096 of all are read
long() { { cat "$sample"; head -c 5000 /dev/zero; } | "$program"; }

# 5,016 bytes whose length field says 4,096: a program that read on would say 2
cut_short() { { printf '\x10\x00\x01\x00\x00\x00\x01\x00\x00\x04\x08'; head -c 5005 /dev/zero; } | "$program"; }

# each byte by a write of its own, with a pause, so that a read finds only a part
slow() {
    local size i
    size=$(wc -c <"$sample")
    for ((i = 0; i < size; i++)); do
        dd if="$sample" bs=1 skip="$i" count=1 status=none
        sleep 0.01
    done | "$program"
}

# largest GOAL RULES LINES: a card with s = 255; times(n) is the "both" of n times the name a
largest() {
    (cd "$tests" && python3 -c "
import sys
from cards import card
def times(n):
    return 'a' if n == 1 else ('both', times(n // 2), times(n // 2))
sys.stdout.buffer.write(card($1, $2, $3, d=16, s=255))") | "$program"
}

# marks FROM TO MARK: what is printed of lines with the same mark
marks() { for ((i = $1; i < $2; i++)); do printf 'line %d %d\\n' "$i" "$3"; done; }

plan='plan 2\nstep 1\nstep 0\nline 0 1\nline 1 1\nline 2 0\n'
check "the sample card" "$plan" whole
check "a card with choices" 'plan 8\nstep 0\nstep 254\nstep 4\nstep 3\nstep 1\nstep 254\nstep 2\nstep 255\nline 0 1\nline 1 1\nline 2 1\nline 3 1\n' choices
check "no input" 'refused 1\n' empty
check "the sample card and 5,000 zero bytes" 'refused 2\n' long
check "the sample card, a byte at a time" "$plan" slow
check "5,016 bytes, length field 4,096" 'refused 5\n' cut_short

covered="plan 0\n$(marks 0 64 2)"
each="plan 64\n$(for ((i = 0; i < 64; i++)); do printf 'step %d\\n' "$i"; done)$(marks 0 64 1)"
longest="plan 255\n$(for ((i = 0; i < 127; i++)); do printf 'step 0\\nstep 1\\n'; done)step 65\n$(marks 0 63 0)$(marks 63 64 1)"
check "rest, 64 must lines" "$covered" largest "('rest',)" "[]" "[('a', 1)] * 64"
check "64 wanted, 64 must lines" "$each" largest "times(64)" "[]" "[('a', 1)] * 64"
# two steps for each of 127 needs and one for the last: a sheet of 5 + 255 + 64 bytes
check "255 steps, 64 lines" "$longest" largest "times(128)" "[('gives', 'b', 'a'), 'b']" "[('c', 0)] * 63 + [('a', 1)]"

echo "plan.sh: $passed checks passed"
