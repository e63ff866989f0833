#!/bin/sh
# usage: bench/replies.sh [PROGRAM [WORD..]]
#
# Measures how many replies the built program writes in a second, for each of these request words, or
# for all of CUT, PATH and WEAKEST: on a small backbone of seven routers, on a grid of 1,024 routers,
# and on a network of the largest size, where the side of a cut may name hundreds of routers. The
# requests are for routers that are drawn. Beside it, in turn, runs a program in C that reads the same
# requests and writes the same replies, which the built program wrote before. Both make one write a
# reply, and have one thread. The output goes to /dev/null, or through a pipe to `cat`.
#
# The figures are of the requests alone: the difference between sessions with them and without any,
# from medians. All inputs and replies are made on the fly in a temporary folder (about 200 MB). It
# takes some minutes.
#
# Needs a C compiler and the C library's headers beside what the program needs: the Debian packages
# gcc and libc6-dev (others: coreutils, gawk or mawk).
set -u
LC_ALL=C
export LC_ALL
cd "$(dirname -- "$(readlink -f -- "$0")")/.." || exit 1

program=${1:-crates/planner_main/out/planner_main}
[ "$#" -gt 0 ] && shift
words='CUT PATH WEAKEST'
[ "$#" -gt 0 ] && words=$*
rounds=5

# Each network, by the name that bench/tree_networks.awk gives it, its number of requests, and the first router of
# them where that isn't drawn.
networks='towns 500000
grid 60000
random_1024_8192 40000
narrow_chain 300000 r0'

# shellcheck source=bench/measuring.sh
. bench/measuring.sh
compile reply_writer || exit 1

# record INPUT: writes the replies to a session beside it. Fails where one is a refusal.
record() {
    "$program" plan <"$room/$1" >"$room/$1.replies" || {
        printf 'the program ended with status %s\n' "$?" >&2
        exit 1
    }
    if refusal=$(grep -m 1 '^@[0-9]* NO ' "$room/$1.replies"); then
        printf 'a request was refused: %s\n' "$refusal" >&2
        exit 1
    fi
}

# run_to OUTPUT NAME WORD..: measures a command whose output goes to /dev/null or through a pipe.
run_to() {
    output=$1 name=$2
    shift 2
    case $output in
    null) measured "$name" "$@" ;;
    pipe) "$room/measure" "$@" 3>>"$room/$name" | cat >/dev/null ;;
    esac
}

# take_turns OUTPUT: the program and the yardstick in turn, on the session with requests (`many`) and
# on that without any (`none`).
take_turns() {
    for _ in $(seq "$rounds"); do
        for input in none many; do
            run_to "$1" "$input.ours" "$program" plan <"$room/$input"
            run_to "$1" "$input.theirs" "$room/reply_writer" "$room/$input.replies" <"$room/$input"
        done
    done
    need_done none.ours none.theirs many.ours many.theirs
}

# print_row NETWORK WORD OUTPUT COUNT
print_row() {
    awk -v network="$1" -v word="$2" -v output="$3" -v count="$4" \
        -v many="$(wc -c <"$room/many.replies")" -v none="$(wc -c <"$room/none.replies")" \
        -v ours="$(seconds_of ours 1)" -v theirs="$(seconds_of theirs 1)" \
        -v our_work="$(seconds_of ours 4)" -v their_work="$(seconds_of theirs 4)" 'BEGIN {
            bytes = many - none
            printf "%-17s %-8s %-4s %7.0f | %10.0f %6.0f | %10.0f %6.0f | %6.2f %10.2f\n",
                network, word, output, bytes / count, count / ours, bytes / ours / 1e6,
                count / theirs, bytes / theirs / 1e6, ours / theirs, our_work / their_work
        }'
    rm "$room/many.ours" "$room/many.theirs" "$room/none.ours" "$room/none.theirs"
}

# time_word NETWORK WORD COUNT [FIRST]
time_word() {
    awk -v word="$2" -v count="$3" -v first="${4-}" -f bench/requests.awk "$room/network" >"$room/many"
    record many
    for output in null pipe; do
        take_turns "$output"
        print_row "$1" "$2" "$output" "$3"
    done
}

printf 'medians of %s runs, ours and the yardstick in turn; the ratios are of the times that they take,\n' \
    "$rounds"
printf 'by the wall and of processors\n\n'
line='%-17s %-8s %-4s %7s | %10s %6s | %10s %6s | %6s %10s\n'
# shellcheck disable=SC2059
printf "$line$line" '' '' '' bytes ours '' 'in C' '' 'ours/C' '' \
    network request to a\ reply replies/s MB/s replies/s MB/s wall processors
printf '%s\n' "$networks" | while read -r network count first; do
    awk -v kind="$network" -f bench/tree_networks.awk >"$room/network" || exit 1
    awk -v count=0 -f bench/requests.awk "$room/network" >"$room/none"
    record none
    for word in $words; do
        if [ -z "$first" ] || [ "$word" = CUT ]; then
            time_word "$network" "$word" "$count" "$first"
        fi
    done
done
