#!/usr/bin/env bash
# Compiles tests/calls.c and tests/lent.c with the header as C99 and as C++11, no warning allowed, and runs them: the first over the static
# library, the second over functions of its own.
#
# Usage: calls.sh LIBRARY
set -euo pipefail

library=$1
tests=$(dirname "$0")
for compiler in gcc g++; do
    command -v "$compiler" >/dev/null || { echo "calls.sh: $compiler is missing" >&2; exit 1; }
done
folder=$(mktemp -d)
trap 'rm -rf "$folder"' EXIT

options=(-O2 -pedantic -Wall -Wextra -Wconversion -Wshadow -Werror -I "$tests/../include")
c99=(gcc -std=c99 "${options[@]}")
cxx11=(g++ -x c++ -std=c++11 -Wold-style-cast "${options[@]}")
"${c99[@]}" "$tests/calls.c" "$library" -o "$folder/c99"
"${cxx11[@]}" "$tests/calls.c" -x none "$library" -o "$folder/c++11"
"${c99[@]}" "$tests/lent.c" -o "$folder/lent-c99"
"${cxx11[@]}" "$tests/lent.c" -o "$folder/lent-c++11"
for program in c99 c++11 lent-c99 lent-c++11; do "$folder/$program"; done
