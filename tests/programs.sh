#!/usr/bin/env bash
# Lays the programs whose names are given, or all four, into target/bin. The gate sets LEFT_BY_RT_CI: then as `rt ci` has just proved and built them in
# this checkout, else proved and built for it.
set -eu
cd "$(dirname "$0")/.."
[ $# -gt 0 ] || set -- print_verdict normalize flatten bounds
mkdir -p target/bin
for program in "$@"; do
    built="crates/$program/out/$program"
    if [ -z "${LEFT_BY_RT_CI:-}" ] || [ ! -e "$built" ]; then
        rm -f "$built"
        (cd "crates/$program" && rt run <stdin >/dev/null) >&2
    fi
    cp "$built" target/bin/
done
