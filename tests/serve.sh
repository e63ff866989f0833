# Sessions over real sockets through `serve`, and the examples that ask such a server; read by tests/run.
# shellcheck shell=sh disable=SC2154

for trials in serve_clients serve_misfits serve_examples; do
    timeout -k 5 900 python3 "tests/$trials.py" "$program" >"$room/verdicts" 2>"$room/complaints" ||
        note_failure "$trials.py" "status $?: $(tail -n 1 "$room/complaints")"
    take_verdicts
done
