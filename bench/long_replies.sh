#!/bin/sh
# usage: bench/long_replies.sh [PROGRAM]
#
# Measures how long the built program takes for replies of many lines: NET of a network of the largest
# size, and TREE, and PATH between the two ends, of a chain of 1,024 routers. Beside it, in turn, runs a
# program in C that writes the same lines from tables of their words, which it read from such a reply
# before. The output goes to /dev/null, and both have one thread.
#
# The figures are of the replies alone: the difference between runs with many of them and without any,
# from medians. All inputs are made on the fly in a temporary folder. It takes less than a minute.
#
# Needs a C compiler and the C library's headers beside what the program needs: the Debian packages
# gcc and libc6-dev (others: coreutils, gawk or mawk).
set -u
LC_ALL=C
export LC_ALL
cd "$(dirname -- "$(readlink -f -- "$0")")/.." || exit 1

program=${1:-crates/planner_main/out/planner_main}
rounds=5
count=1000

# Each request, and the network that it is made of, by the name that bench/tree_networks.awk gives it.
requests='random_1024_8192 NET
chain TREE
chain PATH r0 r1023'

# shellcheck source=bench/measuring.sh
. bench/measuring.sh
compile table_writer || exit 1

# write_session COUNT WORD..: so many requests of the network in the room.
write_session() {
    echo LOAD
    cat "$room/network"
    times=$1
    shift
    for _ in $(seq "$times"); do
        echo "$*"
    done
    echo BYE
}

# make_inputs NETWORK WORD..: sessions with many requests and without any, and the reply to one.
make_inputs() {
    awk -v kind="$1" -f bench/tree_networks.awk >"$room/network" || exit 1
    shift
    write_session 0 "$@" >"$room/none"
    write_session "$count" "$@" >"$room/many"
    write_session 1 "$@" | "$program" plan | sed '1d;$d' >"$room/reply"
    grep -q "^@1 $1 " "$room/reply" || {
        printf 'a reply to %s begins with %s\n' "$1" "$(head -n 1 "$room/reply")" >&2
        exit 1
    }
    "$room/table_writer" "$room/reply" 1 | cmp - "$room/reply" || exit 1
}

take_turns() {
    for _ in $(seq "$rounds"); do
        measured none.ours "$program" plan <"$room/none"
        measured many.ours "$program" plan <"$room/many"
        measured none.theirs "$room/table_writer" "$room/reply" 0
        measured many.theirs "$room/table_writer" "$room/reply" "$count"
    done
    need_done none.ours none.theirs many.ours many.theirs
}

printf '%s replies each, medians of %s runs, ours and the yardstick in turn; the ratios are of the times\n' \
    "$count" "$rounds"
printf 'that they take, by the wall and of processors\n\n'
line='%-17s %-12s %7s | %10s %6s | %10s %6s | %6s %10s\n'
# shellcheck disable=SC2059
printf "$line$line" '' '' bytes ours '' 'in C' '' 'ours/C' '' \
    network request 'a reply' replies/s MB/s replies/s MB/s wall processors
printf '%s\n' "$requests" | while read -r network request; do
    # shellcheck disable=SC2086
    make_inputs "$network" $request
    take_turns
    awk -v network="$network" -v request="$request" -v count="$count" -v bytes="$(wc -c <"$room/reply")" \
        -v ours="$(seconds_of ours 1)" -v theirs="$(seconds_of theirs 1)" \
        -v our_work="$(seconds_of ours 4)" -v their_work="$(seconds_of theirs 4)" 'BEGIN {
            printf "%-17s %-12s %7d | %10.0f %6.0f | %10.0f %6.0f | %6.2f %10.2f\n",
                network, request, bytes, count / ours, bytes * count / ours / 1e6,
                count / theirs, bytes * count / theirs / 1e6, ours / theirs, our_work / their_work
        }'
    rm "$room"/*.ours "$room"/*.theirs
done
