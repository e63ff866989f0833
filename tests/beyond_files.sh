# Cases that files cannot show; read by tests/run.
# shellcheck shell=sh disable=SC2154

try a_folder_as_standard_input_is_a_read_fault 2 "$room/nothing" tests plan
try a_folder_as_a_certificate_is_a_read_fault 2 "$room/nothing" tests check

for command in plan check; do
    timeout -k 5 "$seconds" "$program" "$command" >"$room/stdout" 2>"$room/stderr" <&-
    judge "a_closed_input_is_a_read_fault_of_$command" "$?" 2 "$room/nothing"
done

# faulty_output NAME STATUS: of a run whose output cannot be looked at.
faulty_output() {
    : >"$room/stdout"
    judge "$1" "$2" 3 "$room/nothing"
}

timeout -k 5 "$seconds" "$program" plan <"$first/stdin" >/dev/full 2>"$room/stderr"
faulty_output a_full_device_is_a_write_fault "$?"

timeout -k 5 "$seconds" "$program" plan <"$first/stdin" 2>"$room/stderr" >&-
faulty_output a_closed_output_is_a_write_fault "$?"

accepted=tests/cases/check_accepts_three_routers_in_a_row
timeout -k 5 "$seconds" "$program" check <"$accepted/stdin" >/dev/full 2>"$room/stderr"
faulty_output a_full_device_is_a_write_fault_of_a_check "$?"

timeout -k 5 "$seconds" "$program" check <"$accepted/stdin" 2>"$room/stderr" >&-
faulty_output a_closed_output_is_a_write_fault_of_a_check "$?"

# (`make` reads nothing, so its input may be closed or a folder)
seven=tests/cases/make_seven
timeout -k 5 "$seconds" "$program" make --seed=7 --routers=3 --links=3 >"$room/stdout" 2>"$room/stderr" <&-
judge make_reads_no_closed_input "$?" 0 "$seven/stdout"
try make_reads_no_folder_as_standard_input 0 "$seven/stdout" tests make --seed=7 --routers=3 --links=3

timeout -k 5 "$seconds" "$program" make --seed=7 --routers=3 --links=3 \
    <"$room/nothing" >/dev/full 2>"$room/stderr"
faulty_output a_full_device_is_a_write_fault_of_make "$?"

timeout -k 5 "$seconds" "$program" make --seed=7 --routers=3 --links=3 \
    <"$room/nothing" 2>"$room/stderr" >&-
faulty_output a_closed_output_is_a_write_fault_of_make "$?"

# (far more replies than a pipe holds)
yes X | head -n 100000 >"$room/stdin"
{
    timeout -k 5 "$seconds" "$program" plan <"$room/stdin" 2>"$room/stderr"
    printf '%s' "$?" >"$room/status"
} | true
faulty_output a_reader_that_goes_away_is_a_write_fault "$(cat "$room/status")"

try a_word_with_a_line_feed 1 "$room/nothing" "$first/stdin" "plan
"

try the_first_example 0 "$first/stdout" examples/first.txt plan
try the_backbone_example 0 examples/backbone.replies examples/backbone.txt plan

# (the verdict comes when it is known: the input stays open)
mkfifo "$room/open"
timeout -k 5 "$seconds" "$program" check <"$room/open" >"$room/stdout" 2>"$room/stderr" &
exec 3>"$room/open"
cat "$accepted/stdin" >&3
wait "$!"
judge a_check_ends_at_the_last_line_of_the_certificate "$?" 0 "$accepted/stdout"
exec 3>&-

# Each request is sent when the reply to the one before has come.
converse() {
    mkfifo "$room/to" "$room/from"
    timeout -k 5 "$seconds" "$program" plan <"$room/to" >"$room/from" 2>"$room/stderr" &
    exec 3>"$room/to" 4<"$room/from"
    trap '' PIPE
    for request in 'LOAD
link a b 5
END' 'CUT b a' 'X' 'BYE'; do
        printf '%s\n' "$request" >&3 2>"$room/broken"
        IFS= read -r reply <&4
        printf '%s\n' "$reply"
    done >"$room/stdout"
    trap - PIPE
    # (its input is still open: after BYE the program reads no more, and ends)
    wait "$!"
    status=$?
    exec 3>&- 4<&-
    return "$status"
}
printf '%s\n' '@1 LOADED routers 2 links 1' '@1 CUT 5 side b' '@1 NO 1' '@1 BYE' >"$room/wanted"
converse
judge a_reply_comes_before_the_next_request_is_sent "$?" 0 "$room/wanted"

# within KILOBYTES WORD..: a command in so much memory. (What a shell says of one that is killed stays in stderr.)
within() {
    # shellcheck disable=SC2016
    timeout -k 5 "$seconds" sh -c 'ulimit -v "$1"; shift; "$@"; exit "$?"' sh "$@" \
        <"$room/nothing" >"$room/stdout" 2>"$room/stderr"
}

# (what a session does with is too little for eight desks, so no door is asked and no line is written)
kilobytes=2000
while ! within "$kilobytes" "$program" plan && [ "$kilobytes" -lt 200000 ]; do
    kilobytes=$((kilobytes + 500))
done
within "$kilobytes" "$program" serve --port=4000 --desks=8 --sessions=1
judge what_is_enough_for_a_session_is_too_little_for_eight_desks "$?" 4 "$room/nothing"
