#!/bin/sh
# usage: [BEFORE=PROGRAM] bench/trees.sh [PROGRAM [NETWORK..]]
#
# Measures the whole job on networks of many kinds, text in and tree out: a session that loads a
# network and asks for its tree, by the built program, by Gusfield's method (1990) in C++ over the same
# kernel, and by what others wrote and users have at hand: LEMON's `GomoryHu`, igraph's
# `igraph_gomory_hu_tree` and networkx' `gomory_hu_tree`, where they are installed. All have one thread.
# Beside them, in the same run, the program is measured with several workers, and where BEFORE names
# another build of it, that one too, without options. The widths of the trees must be the same, or the
# script fails. At the end it measures the memory that the program holds for one record of the largest
# network.
#
# The figure of a way is what one such round adds to the time for which processors run a process: the
# difference between processes of many rounds and of one, by their numbers of rounds. The ways take
# turns, and each figure is from the medians. What takes long in its first round is measured by that
# round alone, less what a session without a round takes; what takes very long is stopped and left out.
# Beside this stands the wall time of a whole process of one round. For the workers the figure is what
# one round adds to the wall time, which says as much as the machine has processors that are free: their
# number stands above the table. What is in C++ is compiled by g++ and by clang++, whichever are there,
# and the faster counts. The networks are made on the fly in a temporary folder, and all output goes to
# /dev/null. It takes minutes, and with networkx, which is stopped on most networks, half an hour.
#
# Needs compilers for C and C++ beside what the program needs: the Debian packages gcc, g++ and
# libc6-dev (others: coreutils, gawk or mawk; clang; liblemon-dev, libigraph-dev and python3-networkx
# for the peers).
set -u
LC_ALL=C
export LC_ALL
cd "$(dirname -- "$(readlink -f -- "$0")")/.." || exit 1

program=${1:-crates/planner_main/out/planner_main}
[ "$#" -gt 0 ] && shift
before=${BEFORE-}
# The numbers of workers beside one.
workers='2 4 16'
# How many runs a median is of.
rounds=5
# A process of many rounds takes about so many seconds.
spell=0.3
# One round that takes more seconds than this is measured once.
long=1
# After so many seconds a way is stopped.
limit=120

# Those with a star are made hard for one of the methods.
networks='random_400_1600 random_1024_2048 random_1024_8192 unit_1024_4096 power_1024_8 dense_128
backbone rmf_8_16 grid star chain chords clusters* necklace*'
[ "$#" -gt 0 ] && networks=$*

# shellcheck source=bench/measuring.sh
. bench/measuring.sh

[ -z "$before" ] || [ -x "$before" ] || {
    printf '%s is no program\n' "$before" >&2
    exit 1
}

compilers=$(for compiler in g++ clang++; do
    command -v "$compiler" >/dev/null && echo "$compiler"
done)
[ -n "$compilers" ] || {
    echo 'neither g++ nor clang++ is installed' >&2
    exit 1
}

# compile_plus TOOL [WORD..]: a C++ program of this folder, by each compiler, with these words behind it.
compile_plus() {
    tool=$1
    shift
    for compiler in $compilers; do
        "$compiler" -std=c++17 -O3 -Wall -Wextra -o "$room/$tool.$compiler" "bench/$tool.cpp" "$@" || exit 1
    done
}

# has_header NAME: whether the compilers find a header.
has_header() {
    for compiler in $compilers; do
        printf '#include <%s>\n' "$1" | "$compiler" -E -x c++ - >/dev/null 2>&1 || return 1
    done
}

# find_networkx: prints a Python that has networkx.
find_networkx() {
    for python in python3 /usr/bin/python3; do
        "$python" -c 'import networkx' 2>/dev/null && echo "$python" && return
    done
    return 1
}

# leave_out NAME PACKAGE: tells that a peer is missing.
leave_out() {
    printf "%s is left out: it isn't installed (apt-get install %s)\n" "$1" "$2"
}

compile_plus gusfield_tree
ways='ours gusfield'
if has_header lemon/gomory_hu.h; then
    compile_plus lemon_tree
    ways="$ways lemon"
else
    leave_out LEMON liblemon-dev
fi
if has_header igraph/igraph.h; then
    compile_plus igraph_tree -ligraph
    ways="$ways igraph"
else
    leave_out igraph libigraph-dev
fi
if python=$(find_networkx); then
    ways="$ways networkx"
else
    leave_out networkx python3-networkx
fi

# The runs of the program by which workers are compared.
team=ours
for count in $workers; do
    team="$team ours.$count"
done
[ -z "$before" ] || team="$team before"

# runs_of WAY: its runs, of which the fastest counts: of a way in C++ one by each compiler, but of igraph
# one alone, since its method is in its library.
runs_of() {
    case $1 in
    ours | networkx) echo "$1" ;;
    igraph) echo "$1.$(echo "$compilers" | head -n 1)" ;;
    *) for compiler in $compilers; do echo "$1.$compiler"; done ;;
    esac
}

# write_session ROUNDS: a session that so many times loads the network and asks for its tree.
write_session() {
    awk -v rounds="$1" '{ text = text $0 "\n" }
        END {
            for (round = 0; round < rounds; round++) {
                printf "LOAD\n%sTREE\n", text
            }
            print "BYE"
        }' "$room/network" >"$room/session.$1"
}

# do_run RUN ROUNDS [WORD..]: a run of so many rounds, whose command stands behind these words.
do_run() {
    what=$1 session=$room/session.$2
    shift 2
    case $what in
    ours) "$@" "$program" plan ;;
    ours.*) "$@" "$program" plan "--workers=${what#ours.}" ;;
    before) "$@" "$before" plan ;;
    networkx) "$@" "$python" bench/networkx_tree.py ;;
    *) "$@" "$room/${what%%.*}_tree.${what#*.}" ;;
    esac <"$session"
}

# field_of RUN ROUNDS FIELD: a field of the last measurement.
field_of() {
    tail -n 1 "$room/$1.$2" | cut -d ' ' -f "$3"
}

# measure_run RUN ROUNDS: measures a run of so many rounds.
measure_run() {
    do_run "$1" "$2" measured "$1.$2"
    [ "$(field_of "$1" "$2" 3)" -eq 0 ] || {
        printf '%s failed\n' "$1" >&2
        exit 1
    }
}

# widths_in FILE: the sum of the widths of the tree that was written there, and a checksum of the
# widths in order.
widths_in() {
    awk 'NF == 3 && $1 !~ /^@/ { print $3 }' "$1" | sort -n >"$room/widths"
    awk '{ sum += $1 } END { printf "%.0f ", sum }' "$room/widths"
    cksum <"$room/widths"
}

# try_first RUN NETWORK: measures the first round of a run, and notes its widths. Where it takes too
# long, it isn't among the runs of this network.
try_first() {
    do_run "$1" 1 "$room/measure" timeout "$limit" 3>"$room/$1.1" >"$room/tree"
    case $(field_of "$1" 1 3) in
    0) printf '%s %s\n' "$(widths_in "$room/tree")" "$1" >>"$room/sums" ;;
    124) printf '%s is left out on %s: not done in %s seconds\n' "$1" "$2" "$limit" ;;
    *)
        printf '%s failed on %s\n' "$1" "$2" >&2
        exit 1
        ;;
    esac
}

# expect_one_sum NETWORK: fails where the runs differ in the widths.
expect_one_sum() {
    [ "$(cut -d ' ' -f 1-3 "$room/sums" | sort -u | wc -l)" -eq 1 ] || {
        printf 'the widths differ on %s (sum, checksum and number of them, way):\n' "$1" >&2
        cat "$room/sums" >&2
        exit 1
    }
}

# rounds_for RUN: how many rounds are measured together, after its first: 1 where that took long.
rounds_for() {
    awk -v first="$(field_of "$1" 1 4)" -v spell="$spell" -v long="$long" 'BEGIN {
        if (first > long) {
            print 1
        } else {
            count = int(spell / (first + 0.001)) + 1
            print (count < 3 ? 3 : count > 200 ? 200 : count)
        }
    }'
}

# milliseconds_of RUN ROUNDS FIELD: what one round takes, of processor time (4) or by the wall (1).
milliseconds_of() {
    if [ "$2" -eq 1 ]; then
        awk -v one="$(field_of "$1" 1 "$3")" -v none="$(field_of "$1" 0 "$3")" \
            'BEGIN { printf "%.4f\n", (one - none) * 1000 }'
    else
        awk -v many="$(median_of "$1.$2" "$3")" -v one="$(median_of "$1.1" "$3")" -v rounds="$2" \
            'BEGIN { printf "%.4f\n", (many - one) / (rounds - 1) * 1000 }'
    fi
}

# wall_of RUN ROUNDS: the milliseconds of a whole process of one round.
wall_of() {
    if [ "$2" -eq 1 ]; then
        field_of "$1" 1 1
    else
        median_of "$1.1" 1
    fi | awk '{ printf "%.4f\n", $1 * 1000 }'
}

# count_of RUN: how many rounds of it are measured together; nothing where it is left out.
count_of() {
    awk -v run="$1" '$1 == run { print $2 }' "$room/counts"
}

# figures_of WAY: the milliseconds of a round, and of a whole process, of its fastest run, or dashes.
figures_of() {
    for run in $(runs_of "$1"); do
        count_of "$run" | while read -r count; do
            printf '%s %s\n' "$(milliseconds_of "$run" "$count" 4)" "$(wall_of "$run" "$count")"
        done
    done | sort -n | awk 'NR == 1 { print; found = 1 } END { if (!found) print "- -" }'
}

# round_of RUN: the milliseconds of a round by the wall, or a dash.
round_of() {
    count=$(count_of "$1")
    if [ -n "$count" ]; then
        milliseconds_of "$1" "$count" 1
    else
        echo -
    fi
}

# choose_counts NETWORK: tries each run, and writes those that are not left out to the file `counts`,
# each with its number of rounds.
choose_counts() {
    : >"$room/sums"
    for run in $runs; do
        try_first "$run" "$1"
    done
    expect_one_sum "$1"
    cut -d ' ' -f 4 "$room/sums" | while read -r run; do
        printf '%s %s\n' "$run" "$(rounds_for "$run")"
    done >"$room/counts"
    cut -d ' ' -f 2 "$room/counts" | sort -u | while read -r count; do
        write_session "$count"
    done
}

# take_turns: measures the runs that have many rounds, in turn.
take_turns() {
    for turn in $(seq "$rounds"); do
        while read -r run count; do
            [ "$count" -eq 1 ] && continue
            [ "$turn" -eq 1 ] && rm "$room/$run.1"
            measure_run "$run" 1 </dev/null || exit 1
            measure_run "$run" "$count" </dev/null || exit 1
        done <"$room/counts"
    done
}

# time_network NETWORK: appends the name and the figures of each way, and of each number of workers.
time_network() {
    awk -v kind="${1%\*}" -f bench/tree_networks.awk >"$room/network" || exit 1
    write_session 1
    choose_counts "$1"
    take_turns
    {
        printf '%s' "$1"
        for way in $ways; do
            printf ' %s' "$(figures_of "$way")"
        done
        echo
    } >>"$room/times"
    {
        printf '%s' "$1"
        for run in $team; do
            printf ' %s' "$(round_of "$run")"
        done
        echo
    } >>"$room/walls"
    rm "$room"/session.[1-9]*
    while read -r run count; do
        rm -f "$room/$run.1" "$room/$run.$count"
    done <"$room/counts"
}

runs=$(for way in $ways; do runs_of "$way"; done)
runs="$runs ${team#ours }"
: >"$room/network"
write_session 0
for run in $runs; do
    measure_run "$run" 0
done
# (a name of a network may have a star, which is no pattern here)
set -f
for network in $networks; do
    set +f
    time_network "$network" || exit 1
done

printf '\nmilliseconds of a round (processor time, medians of %s runs in turn) | ratios | milliseconds of a\n' \
    "$rounds"
printf 'whole process of one round (wall time); * made hard for one of the methods\n\n'
awk -v ways="$ways" -f bench/tree_table.awk "$room/times"

printf '\nmilliseconds of a round by the wall (medians of %s runs in turn), by the number of workers, on %s\n' \
    "$rounds" "$(nproc)"
printf 'processors, and how many times as long one worker takes\n\n'
awk -v team="$team" -f bench/workers_table.awk "$room/walls"

{
    awk -v loads=1 -f bench/largest_texts.awk
    printf 'TREE\nBYE\n'
} >"$room/largest"
measured largest.ours "$program" plan <"$room/largest"
printf '\npeak memory for one record of the largest network: %.1f MB\n' \
    "$(peak_of largest.ours | awk '{ print $1 / 1e3 }')"
