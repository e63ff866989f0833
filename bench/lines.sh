#!/bin/sh
# usage: bench/lines.sh [PROGRAM]
#
# Measures how fast the built program passes lines over and answers them, each beside a yardstick in
# the same run, and the most memory that it holds. All inputs are made on the fly in a temporary
# folder (about 100 MB), and all output goes to /dev/null. It takes some minutes.
#
# Needs a C compiler and the C library's headers beside what the program needs: the Debian packages
# gcc and libc6-dev (others: coreutils, findutils, gawk or mawk).
set -u
LC_ALL=C
export LC_ALL
cd "$(dirname -- "$(readlink -f -- "$0")")/.." || exit 1

program=${1:-crates/planner_main/out/planner_main}
rounds=5
megabytes=100

# shellcheck source=bench/measuring.sh
. bench/measuring.sh
compile line_writer || exit 1

# measure_peak TITLE NAME WANTED: the program on the standard input, for its memory alone.
measure_peak() {
    measured "$2" "$program" plan
    awk -v title="$1" -v wanted="$3" '{
        printf "%s: peak memory %.1f MB (%.1f s, status %s; %s is right)\n",
            title, $2 / 1e3, $1, $3, wanted
    }' "$room/$2"
}

printf '%s MB each, output to /dev/null, medians of %s runs, ours and the yardstick in turn\n' \
    "$megabytes" "$rounds"

yes '# a remark of just forty bytes, as it is' | head -c "$((megabytes * 1000000))" >"$room/remarks"
compare 'remark lines of 40 bytes' remarks 'wc -l' wc -l

yes 'CUT oslo bergen' | head -c "$((megabytes * 1000000))" >"$room/refused"
compare 'requests of 15 bytes that are refused' refused 'one write a line in C' "$room/line_writer"

head -c 1000000000 /dev/zero | tr '\0' X | measure_peak 'a line of 1 GB without a line feed' long_line 0

{
    echo LOAD
    yes 'link a b 5'
} 2>/dev/null | head -c 1200000000 | measure_peak 'a text without an end' endless 5

awk -v loads=257 -f bench/networks.awk >"$room/networks"
measure_peak '257 networks of the largest size' networks.peak 0 <"$room/networks"
