#!/bin/sh
# usage: tests/many_times.sh COUNT CRATE
#
# Tries the tests of a crate so many times, before any proof: for tests of threads, whose schedule is another
# each time. The first run that fails is printed, and ends it with status 1. Nothing else calls this.
set -u
cd "$(dirname -- "$(readlink -f -- "$0")")/../crates/$2" || exit 1

output=$(mktemp) || exit 1
trap 'rm -f "$output"' EXIT
trap 'exit 1' HUP INT TERM

run=0
while [ "$run" -lt "$1" ]; do
    run=$((run + 1))
    if ! rt try --test >"$output" 2>&1; then
        cat "$output"
        echo "run $run of $1 failed"
        exit 1
    fi
done
echo "$run runs passed"
