# What the benchmarks share; read by them at the top of the repository, with `program` and `rounds`
# set. Makes the folder `room`, and takes it away at the end.
# shellcheck shell=sh disable=SC2154

[ -x "$program" ] || {
    printf '%s is not built: ./planner builds it\n' "$program" >&2
    exit 1
}
room=$(mktemp -d) || exit 1
trap 'rm -rf "$room"' EXIT
trap 'exit 1' HUP INT TERM

# compile TOOL: a C program of this folder.
compile() {
    "${CC:-cc}" -std=c11 -O2 -Wall -Wextra -o "$room/$1" "bench/$1.c"
}

# measured NAME WORD..: runs the command, and appends its seconds, kB, status and seconds of processor
# time to the file NAME.
measured() {
    name=$1
    shift
    "$room/measure" "$@" 3>>"$room/$name" >/dev/null
}

# median_of NAME [FIELD]: the median of a field in the file NAME: 1 for seconds, as where none is
# named, and 4 for those of processor time.
median_of() {
    cut -d ' ' -f "${2:-1}" "$room/$1" | sort -n | sed -n "$(((rounds + 1) / 2))p"
}

# seconds_of WHO FIELD: how much longer the input `many` took than `none`: by wall time (1) or processor
# time (4).
seconds_of() {
    awk -v many="$(median_of "many.$1" "$2")" -v none="$(median_of "none.$1" "$2")" \
        'BEGIN { printf "%.6f\n", many - none }'
}

# peak_of NAME: the most memory in the file NAME, in kB.
peak_of() {
    cut -d ' ' -f 2 "$room/$1" | sort -n | tail -n 1
}

# statuses_of NAME: the exit statuses in the file NAME, each once.
statuses_of() {
    cut -d ' ' -f 3 "$room/$1" | sort -u | tr '\n' ' '
}

# need_done NAME..: ends the benchmark where a run in one of these files didn't end with status 0.
need_done() {
    for name in "$@"; do
        [ "$(statuses_of "$name")" = '0 ' ] || {
            printf 'a run failed: the statuses of %s are %s\n' "$name" "$(statuses_of "$name")" >&2
            exit 1
        }
    done
}

# compare TITLE NAME YARDSTICK WORD..: the program and the yardstick in turn on the input NAME.
compare() {
    title=$1 input=$2 yardstick=$3
    shift 3
    for _ in $(seq "$rounds"); do
        measured "$input.ours" "$program" plan <"$room/$input"
        measured "$input.theirs" "$@" <"$room/$input"
    done
    awk -v title="$title" -v yardstick="$yardstick" -v bytes="$(wc -c <"$room/$input")" \
        -v ours="$(median_of "$input.ours" 1)" -v theirs="$(median_of "$input.theirs" 1)" \
        -v our_work="$(median_of "$input.ours" 4)" -v their_work="$(median_of "$input.theirs" 4)" \
        -v peak="$(peak_of "$input.ours")" -v statuses="$(statuses_of "$input.ours")" 'BEGIN {
            printf "%s: %.0f MB/s (%.3f s), status %s\n", title, bytes / ours / 1e6, ours, statuses
            printf "    %s: %.0f MB/s (%.3f s); ours takes %.2f times as long\n",
                yardstick, bytes / theirs / 1e6, theirs, ours / theirs
            if (our_work > 0 && their_work > 0)
                printf "    by processor time: %.0f and %.0f MB/s; ours takes %.2f times as long\n",
                    bytes / our_work / 1e6, bytes / their_work / 1e6, our_work / their_work
            printf "    peak memory: %.1f MB\n", peak / 1e3
        }'
    rm "$room/$input"
}

compile measure || exit 1
