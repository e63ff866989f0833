# Sessions with several workers, which may commit the routers of a tree in any order; read by tests/run.
# shellcheck shell=sh disable=SC2154

# order_shows OUTPUT: whether something that was written may depend on the order of the commits. The tree
# of one or of two routers is the same in each.
order_shows() {
    awk '!/^@/ { next }
        $2 == "LOADED" { routers[$1] = $4 }
        $2 ~ /^(CUT|PATH|TREE|RUN|WEAKEST|WITNESS|CERTIFICATE)$/ && routers[$1] > 2 { shows = 1 }
        END { exit !shows }' "$1"
}

# try_with_workers FOLDER OUTPUT: a case with 2 and with 16 workers. Where the order can't show, it writes
# what one worker writes. Else it is noted for `try_noted_cases`.
try_with_workers() {
    if order_shows "$2"; then
        printf '%s\n' "$1" >>"$room/noted"
        return
    fi
    for workers in 2 16; do
        try "$(basename "$1"), with $workers workers" 0 "$2" "$1/stdin" plan "--workers=$workers"
    done
}

# try_make_with_workers NAME OUTPUT WORD..: a network that these words make. Whatever the number of workers, the
# same is told of it.
try_make_with_workers() {
    made_name=$1 made_output=$2
    shift 2
    case "$*" in
    *--workers=*) return ;;
    esac
    for workers in 1 2 8 16; do
        try "$made_name, with $workers workers" 0 "$made_output" "$room/nothing" "$@" "--workers=$workers"
    done
}

# run_session INPUT WORKERS: leaves what was written beside the input.
run_session() {
    written=${1%.stdin}.$2.stdout
    timeout -k 5 "$seconds" "$program" plan "--workers=$2" <"$1" >"$written" 2>"$room/stderr"
    status=$?
    if [ "$status" -ne 0 ] || [ -s "$room/stderr" ]; then
        note_failure "$(basename "$1" .stdin), with $2 workers" \
            "the status is $status, and should be 0; standard error: $(head -c 200 "$room/stderr")"
        rm "$written"
    fi
}

# try_sessions WORKERS..: the sessions in the room, each with these numbers of workers. What was written
# is checked against the order that it tells.
try_sessions() {
    for input in "$room/sessions"/*.stdin; do
        for workers; do
            run_session "$input" "$workers"
        done
    done
    python3 tests/check_replies.py judge "$room/sessions" >"$room/verdicts" 2>"$room/complaints" ||
        note_failure check_replies.py "$(tail -n 1 "$room/complaints")"
    while IFS='	' read -r verdict name workers why; do
        if [ "$verdict" = right ]; then
            passed=$((passed + 1))
        else
            note_failure "$name, with $workers workers" "$why"
        fi
    done <"$room/verdicts"
    rm -r "$room/sessions"
}

# The cases in which the order shows, with a RUN behind each network so that they tell it.
try_noted_cases() {
    [ -s "$room/noted" ] || return 0
    mkdir "$room/sessions"
    xargs python3 tests/check_replies.py ask "$room/sessions" <"$room/noted"
    try_sessions 2 16
}

try_drawn_sessions() {
    mkdir "$room/sessions"
    python3 tests/check_replies.py draw "$room/sessions" 200
    try_sessions 16
}
