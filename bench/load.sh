#!/bin/sh
# usage: bench/load.sh [PROGRAM]
#
# Measures how fast the built program takes network texts in, beside a C program that does nothing
# but part the same text into words and hash them in one pass, in the same run; and the most memory
# that it holds with 256 records of the largest network. The input is one session of 256 LOADs of
# the largest text, 8,192 links among 1,024 routers with names of 32 bytes: eight different texts,
# in turn. It is made on the fly in a temporary folder (about 180 MB), and all output goes to
# /dev/null. Both programs have one thread. It takes less than a minute.
#
# Needs a C compiler and the C library's headers beside what the program needs: the Debian packages
# gcc and libc6-dev (others: coreutils, gawk or mawk). The memory is the peak resident set that
# Linux reports of an ended child (ru_maxrss).
set -u
LC_ALL=C
export LC_ALL
cd "$(dirname -- "$(readlink -f -- "$0")")/.." || exit 1

program=${1:-crates/planner_main/out/planner_main}
rounds=7

# shellcheck source=bench/measuring.sh
. bench/measuring.sh
compile split_and_hash || exit 1

awk -v loads=8 -f bench/largest_texts.awk >"$room/eight"
for _ in $(seq 32); do
    cat "$room/eight"
done >"$room/largest"
rm "$room/eight"

# So that no figure is of texts that were refused.
last=$("$program" plan <"$room/largest" | tail -n 1)
[ "$last" = '@256 LOADED routers 1024 links 8192' ] || {
    printf 'the last reply is %s\n' "$last" >&2
    exit 1
}

printf '256 LOADs of the largest text, medians of %s runs, ours and the yardstick in turn\n' \
    "$rounds"
compare 'LOAD of 8,192 links with names of 32 bytes' largest \
    'one pass that parts and hashes, in C' "$room/split_and_hash"
