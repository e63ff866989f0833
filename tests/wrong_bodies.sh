#!/bin/sh
# usage: tests/wrong_bodies.sh [PATCH..]
#
# Applies these patches, or each of tests/wrong_bodies, to a copy of the crates. Each is a body that meets
# every contract and is wrong all the same, since none tells of threads that work at once, or that a look
# finds what is there: no two workers are at the gate at once, desks work one after another or have one worker
# each, or a seat never takes over what it wasn't told. It is proved, and a test fails: the first line of the
# patch names its crate and the test. That takes minutes, so neither tests/run nor .ci/run calls it.
#
# The last line is `N passed, M failed`, and the status is 0 where M is 0.
set -u
cd "$(dirname -- "$(readlink -f -- "$0")")/.." || exit 1

passed=0
failed=0

room=$(mktemp -d) || exit 1
trap 'rm -rf "$room"' EXIT
trap 'exit 1' HUP INT TERM

# judge PATCH: what became of one wrong body.
judge() {
    read -r crate named <"$1" || return 1
    copy=$room/$(basename -- "$1" .patch)
    mkdir "$copy"
    cp -r HANDLES crates.txt crates "$copy"
    patch -s -p1 -d "$copy" <"$1" || return 1
    cd "$copy/crates/$crate" || return 1
    rt check >"$copy/check" 2>&1
    proved=$?
    rt try --test >"$copy/try" 2>&1
    cd - >"$room/where" || return 1
    if [ "$proved" -ne 0 ]; then
        echo "FAILED $1: it isn't proved"
        return 1
    fi
    if ! grep "^test $named" "$copy/try" | grep -qv 'ok$'; then
        echo "FAILED $1: $named passes"
        return 1
    fi
    rm -rf "$copy"
}

[ "$#" -gt 0 ] || set -- tests/wrong_bodies/*.patch
for patch; do
    if judge "$patch"; then
        passed=$((passed + 1))
    else
        failed=$((failed + 1))
    fi
done
echo "$passed passed, $failed failed"
[ "$failed" -eq 0 ]
