# Sessions whose peer isn't ready, or fails, at chosen calls, by the program `late_sessions`; read by tests/run.
# shellcheck shell=sh disable=SC2154

late=crates/late_sessions/out/late_sessions
[ -x "$late" ] || refuse_to_run "$late is not built: rt ci builds it"

# run_late INPUT PIECE LATE STEP FAILING ROOM: such a session. It leaves the files stdout and stderr in the room.
run_late() {
    input=$1
    shift
    timeout -k 5 "$seconds" "$late" "$@" <"$input" >"$room/stdout" 2>"$room/stderr"
}

# try_late NAME INPUT OUTPUT PIECE LATE STEP: one whose peer isn't ready at the call LATE and at every STEP calls
# behind it. It writes the whole output.
try_late() {
    run_late "$2" "$4" "$5" "$6" 0 33554432
    judge "$1, $4 bytes a call, late at call $5 and every $6 behind" "$?" 0 "$3"
}

# try_late_case FOLDER OUTPUT: a case whose peer moves 1, 7 or 4,096 bytes a call, and isn't ready at every second,
# third or fifth.
try_late_case() {
    try_late "$(basename "$1")" "$1/stdin" "$2" 1 2 2
    try_late "$(basename "$1")" "$1/stdin" "$2" 7 1 3
    try_late "$(basename "$1")" "$1/stdin" "$2" 4096 3 5
}

# try_failing NAME INPUT OUTPUT PIECE CALL: one whose peer fails at a call. It ends by that fault, and what it wrote
# is a front of the whole output; or it had ended before.
try_failing() {
    run_late "$2" "$4" 0 0 "$5" 33554432
    status=$?
    if ! head -c "$(wc -c <"$room/stdout")" "$3" | cmp -s - "$room/stdout"; then
        note_failure "$1, failing at call $5" 'what it wrote is no front of the replies'
    elif [ "$status" -eq 2 ] || [ "$status" -eq 3 ] || { [ "$status" -eq 0 ] && cmp -s "$3" "$room/stdout"; }; then
        passed=$((passed + 1))
    else
        note_failure "$1, failing at call $5" "the status is $status"
    fi
}

# try_each_call CASE PIECE CALLS: a case whose peer isn't ready, or fails, at one call, for each of so many calls.
try_each_call() {
    folder=tests/cases/$1
    call=1
    while [ "$call" -le "$3" ]; do
        try_late "$1" "$folder/stdin" "$folder/stdout" "$2" "$call" 0
        try_failing "$1" "$folder/stdin" "$folder/stdout" "$2" "$call"
        call=$((call + 1))
    done
}

# Peers that are late and fail at each of their calls in turn, and one that has room for a part of a reply.
try_late_peers() {
    try_each_call first_path 7 30
    try_each_call each_request_on_six_routers 64 30
    try_each_call three_routers_in_a_row_as_a_certificate 16 40
    head -c 40 tests/cases/first_path/stdout >"$room/front"
    run_late tests/cases/first_path/stdin 4096 0 0 0 40
    judge 'first_path, with room for 40 bytes' "$?" 3 "$room/front"
}
