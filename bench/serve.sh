#!/bin/sh
# usage: bench/serve.sh [PROGRAM]
#
# Measures how `serve` of the built program answers over sockets of the loopback.
#
# - Replies in a second, with 1, 4 and 8 desks and as many clients, each of which sends the same short CUTs
#   of a small backbone: one at a time, and with up to a hundred under way. Beside it, in turn, runs a
#   server in C that answers with replies that the built program wrote before, with one thread a client.
#   Both make one write a reply.
# - How long a client waits for the reply to a CUT, one at a time, while nobody loads, and while another
#   client at another desk loads 200 networks.
# - The most memory that is held with 256 records of the largest network, by 8 desks of one worker.
#
# REQUESTS in the environment is the number of CUTs of each client, 40000 where it isn't set. All inputs are
# made on the fly in a temporary folder. It takes some minutes. Clients and servers share the processors, so
# with few of these the figures are of both.
#
# Needs a C compiler and the C library's headers beside what the program needs: the Debian packages
# gcc and libc6-dev (others: coreutils, gawk or mawk).
set -u
LC_ALL=C
export LC_ALL
cd "$(dirname -- "$(readlink -f -- "$0")")/.." || exit 1

program=${1:-crates/planner_main/out/planner_main}
requests=${REQUESTS:-40000}
rounds=5

# shellcheck source=bench/measuring.sh
. bench/measuring.sh
compile reply_server && compile serve_load || exit 1

# make_session NAME COUNT: a session that loads the network in the file `network`, and asks for so many cuts of
# it, with the replies to it.
make_session() {
    awk -v word=CUT -v count="$2" -f bench/requests.awk "$room/network" >"$room/$1"
    "$program" plan <"$room/$1" >"$room/$1.replies" || exit 1
}

# load NAME CLIENTS WINDOW LOADS SESSION SERVER WORD..: runs a server with clients, and appends its figures to the
# file NAME.
load() {
    name=$1 clients=$2 window=$3 loads=$4 session=$5
    shift 5
    "$room/serve_load" "$clients" "$window" "$loads" "$room/$session" "$room/$session.replies" "$@" \
        3>>"$room/$name" || exit 1
}

# words_of DESKS: the words of the program that serves one client at each of so many desks.
words_of() {
    printf '%s serve --desks=%s --sessions=1 --workers=1 --port=' "$program" "$1"
}

# time_clients CLIENTS WINDOW
time_clients() {
    for _ in $(seq "$rounds"); do
        # shellcheck disable=SC2046
        load ours "$1" "$2" 0 short $(words_of "$1")
        load theirs "$1" "$2" 0 short "$room/reply_server" "$1" "$room/short.replies" --port=
    done
    need_done ours theirs
    awk -v clients="$1" -v window="$2" -v count="$(($1 * requests))" -v ours="$(median_of ours)" \
        -v theirs="$(median_of theirs)" -v our_work="$(median_of ours 4)" -v their_work="$(median_of theirs 4)" \
        'BEGIN {
            printf "%7d %9d | %10.0f | %10.0f | %6.2f %10.2f\n", clients, window, count / ours, count / theirs,
                theirs / ours, their_work / our_work
        }' >&4
    rm "$room/ours" "$room/theirs"
}

# time_waits TITLE DESKS LOADS
time_waits() {
    for _ in $(seq "$rounds"); do
        # shellcheck disable=SC2046
        load waits 1 1 "$3" middling $(words_of "$2")
    done
    need_done waits
    printf '%-40s %8s %8s\n' "$1" "$(median_of waits 5)" "$(median_of waits 6)" >&4
    rm "$room/waits"
}

exec 4>&1 >"$room/served"

awk -v kind=towns -f bench/tree_networks.awk >"$room/network"
make_session short "$requests"
awk -v kind=random_400_1600 -f bench/tree_networks.awk >"$room/network"
make_session middling "$requests"
awk -v loads=1 -f bench/largest_texts.awk | sed 1d >"$room/network"
make_session largest 10

{
    printf 'medians of %s runs, ours and the server in C in turn; the ratios are of replies in a second, and of\n' \
        "$rounds"
    printf 'replies in a second of the processor time that the server takes (aim of the first: 0.8)\n\n'
    printf '%7s %9s | %10s | %10s | %6s %10s\n' clients under\ way ours/s C/s ours/C processors
} >&4
for window in 1 100; do
    for clients in 1 4 8; do
        time_clients "$clients" "$window"
    done
done

printf '\nmicroseconds until the reply to a CUT, half of them and 99 in 100\n\n' >&4
time_waits 'nobody loads' 1 0
time_waits 'another client loads 200 networks' 2 200

# (seven clients load once each, and the eighth one all the others)
# shellcheck disable=SC2046
load memory 7 1 249 largest $(words_of 8)
need_done memory
awk -v peak="$(peak_of memory)" 'BEGIN {
    printf "\npeak memory of 256 records of the largest network, 8 desks: %.1f MB (aim: 170)\n", peak / 1000
}' >&4
