#!/usr/bin/env bash
# The C interface: builds the archive, the tests and the examples, runs them, and compares what they print with the stored answers.
set -eu
cd "$(dirname "$0")/../.."

fail() {
    echo "C tests: $1"
    exit 1
}

for tool in gcc g++ nm; do
    command -v "$tool" >/dev/null || fail "$tool is missing"
done
[ "$(uname -m)" = x86_64 ] || fail "the archive links into x86-64 programs only"

bash tests/archive.sh || fail "no archive"
archive=target/staticlib/libfounded.a
out=target/c
mkdir -p "$out"
examples=(check_plan same_plan step_search nested_plan fill_week)
strict=(-O1 -Wall -Wextra -pedantic -Wconversion -Werror -Iinclude)

# No call keeps anything: the archive has no data that can be written. It needs memset and memcpy, and nothing else.
! nm "$archive" | grep -E ' [bBcCdDsS] ' || fail "the archive has data that can be written"
[ "$(nm -u "$archive" | awk '$1 == "U" { print $2 }' | sort | xargs)" = "memcpy memset" ] || fail "the archive needs more than memcpy and memset"

gcc -std=c99 "${strict[@]}" tests/c/calls.c "$archive" -pthread -o "$out/calls" || fail "calls.c does not compile"
for example in "${examples[@]}"; do
    gcc -std=c99 "${strict[@]}" "examples/$example.c" "$archive" -o "$out/$example" || fail "$example.c does not compile"
done
g++ -std=c++11 "${strict[@]}" tests/c/header.cc "$archive" -o "$out/header" || fail "header.cc does not compile"

for name in calls "${examples[@]}" header; do
    "$out/$name" >"$out/$name.out" || fail "$name ended with status $?"
    diff "tests/c/$name.expected" "$out/$name.out" || fail "$name prints something else"
done
echo "C tests: passed"
