# The examples of the documents, run as they stand there; read by tests/run.
# shellcheck shell=sh disable=SC2154
#
# An example is an indented block. One that begins with `>` is a session: `>` marks what the client
# sends, and `<` what it receives. One that begins with `$` is commands, each marked so, with what
# they write.

# take_examples PAGE: makes the files LINE.session or LINE.commands, and LINE.wanted, for each
# example, where LINE is that of its first line.
take_examples() {
    awk -v folder="$room/taken" '
        !/^    / {
            inside = 0
            next
        }
        !inside {
            inside = 1
            mark = substr($0, 5, 1)
            kind = mark == ">" ? "session" : mark == "$" ? "commands" : ""
            begun = folder "/" NR "."
            if (kind) printf "" >(begun "wanted")
        }
        kind && substr($0, 5, 1) == mark { print substr($0, 7) >(begun kind) }
        kind == "session" && /^    </ { print substr($0, 7) >(begun "wanted") }
        kind == "commands" && !/^    [$]/ { print substr($0, 5) >(begun "wanted") }
    ' "$1"
}

# try_examples PAGE
try_examples() {
    mkdir "$room/taken"
    take_examples "$1"
    for wanted in "$room/taken"/*.wanted; do
        example=${wanted%.wanted}
        title="$1, the example at line ${example##*/}"
        if [ -e "$example.session" ]; then
            try "$title" 0 "$wanted" "$example.session" plan
        else
            # (the pages serve at port 4000, which may be taken here)
            sed -i "s/\\<4000\\>/$port/g" "$example.commands"
            (cd "$room/beside" && exec timeout -k 5 "$seconds" sh "$example.commands") \
                >"$room/stdout" 2>"$room/stderr"
            judge "$title" "$?" 0 "$wanted"
        fi
    done
    rm -r "$room/taken"
}

# (the commands stand for those that a reader gives at the top of the repository)
mkdir "$room/beside"
ln -s "$(readlink -f -- "$program")" "$room/beside/planner"
ln -s "$PWD/examples" "$room/beside/examples"
port=$(python3 tests/serving.py)
try_examples docs/PROTOCOL.md
try_examples README.md
