# The script `planner`, tried in a tree of its own with a made-up program and a made-up `rt`; read
# by tests/run.
# shellcheck shell=sh disable=SC2154

tree=$room/tree
crate_of_tree=$tree/crates/planner_main
mkdir -p "$tree/with_rt" "$tree/without_rt" "$tree/elsewhere" "$crate_of_tree/src"
cp planner "$tree/planner"
ln -s ../planner "$tree/elsewhere/linked"
: >"$tree/crates.txt"
: >"$crate_of_tree/src/main.rt"

cat >"$tree/program" <<'END'
#!/bin/sh
printf '<%s>' "$@"
cat
exit 7
END

# A build that proves; it takes no words but `run`, and no input.
cat >"$tree/proves" <<'END'
#!/bin/sh
[ "$*" = run ] && [ -z "$(cat)" ] && echo built && cp ../../program out/planner_main &&
    : >out/planner_main.stamp
exit 1
END
# A build that fails before it reaches the program, and leaves all as it was.
printf '#!/bin/sh\necho refused\nexit 1\n' >"$tree/refuses"
chmod +x "$tree/program" "$tree/proves" "$tree/refuses"
for tool in dirname readlink find mkdir rm cat cp; do
    ln -s "$(command -v "$tool")" "$tree/without_rt/$tool"
done

# call SCRIPT WORD..: the script with `rt` as it stands in the tree.
call() {
    script=$1
    shift
    (cd "$tree/elsewhere" && PATH=$tree/with_rt:$tree/without_rt exec /bin/sh "$script" "$@") \
        <"$room/input" >"$room/stdout" 2>"$room/stderr"
    status=$?
}

# expect NAME STATUS OUTPUT COMPLAINT: of the last call; the complaint is one line that begins so.
expect() {
    complaint=$(cat "$room/stderr")
    if [ "$status" -ne "$2" ]; then
        note_failure "$1" "the status is $status, and should be $2"
    elif [ "$(cat "$room/stdout")" != "$3" ]; then
        note_failure "$1" "it wrote $(cat "$room/stdout")"
    elif [ "${complaint#"$4"}" = "$complaint" ] && [ "$complaint" != "$4" ]; then
        note_failure "$1" "it wrote to standard error: $complaint"
    else
        passed=$((passed + 1))
    fi
}

# Makes what stands of the build older than all sources.
age_the_build() {
    touch -t 200001010000 "$crate_of_tree/out/planner_main" "$crate_of_tree/out/planner_main."*
}

printf 'input' >"$room/input"
building='planner: building and proving, this takes some minutes; log: '
no_rt='planner: no proved program stands here, and no rt to build it'

call "$tree/planner" plan
expect the_script_needs_rt_where_nothing_is_built 70 '' "$no_rt"

ln -s ../proves "$tree/with_rt/rt"
call "$tree/planner" plan
expect the_script_builds_a_missing_program 7 '<plan>input' "$building$crate_of_tree/out/build.log"
[ "$(cat "$crate_of_tree/out/build.log")" = built ] ||
    note_failure the_script_keeps_a_log "out/build.log lacks what the build wrote"

call linked 'two words' '' '*'
expect the_script_runs_a_proved_program_through_a_link 7 '<two words><><*>input' ''

age_the_build
call linked plan
expect the_script_builds_again_where_a_source_is_newer 7 '<plan>input' "$building"

touch -t 200001010000 "$crate_of_tree/src/main.rt" "$crate_of_tree/src" "$tree/crates.txt"
age_the_build
call linked plan
expect the_script_builds_nothing_where_no_source_is_newer 7 '<plan>input' ''

rm "$crate_of_tree/src/main.rt"
call linked plan
expect the_script_builds_again_where_a_source_is_gone 7 '<plan>input' "$building"

ln -sf ../refuses "$tree/with_rt/rt"
: >"$crate_of_tree/src/main.rt"
age_the_build
call linked plan
expect the_script_runs_no_stale_program 70 '' "$building"
call linked plan
expect the_script_runs_no_stale_program_later_either 70 '' "$building"

rm "$tree/with_rt/rt"
call linked plan
expect the_script_runs_no_stale_program_without_rt 70 '' "$no_rt"

: >"$crate_of_tree/out/planner_main.passed"
call linked plan
expect the_script_runs_what_the_gate_proved 7 '<plan>input' ''
