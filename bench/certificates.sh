#!/bin/sh
# usage: bench/certificates.sh [PROGRAM]
#
# Measures what a certificate costs, for the largest star (1,023 leaves with 8,192 links of capacity 1)
# and for a network of the largest size with links that are drawn: what CERTIFICATE takes, with its output
# going to /dev/null, and what `check` takes of it from a file. Beside it, in turn, runs a program in C:
# it writes the same lines from tables, which it read from the certificate before, and checks the same
# bytes. It computes no flows; the program computes one for each edge of the tree while it writes.
#
# The figures of writing are of the certificate alone: the difference between sessions with CERTIFICATE
# and without it, and between C programs that write it and that only read their tables, from medians.
# Inputs and certificates are made in a temporary folder (about 200 MB). It takes a minute.
#
# Needs a C compiler and the C library's headers beside what the program needs: the Debian packages
# gcc and libc6-dev (others: coreutils, gawk or mawk).
set -u
LC_ALL=C
export LC_ALL
cd "$(dirname -- "$(readlink -f -- "$0")")/.." || exit 1

program=${1:-crates/planner_main/out/planner_main}
rounds=5

# So often the yardstick writes a certificate, since its time is small beside that of reading its tables.
copies=3

# shellcheck source=bench/measuring.sh
. bench/measuring.sh
compile certificate_tool || exit 1

fail() {
    printf '%s\n' "$1" >&2
    exit 1
}

# write_network KIND: its text, without LOAD and with END.
write_network() {
    case $1 in
    largest_star)
        awk 'BEGIN {
            for (k = 0; k < 8192; k++) print "link h r" k % 1023 + 1 " 1"
            print "END"
        }'
        ;;
    *) awk -v kind="$1" -f bench/tree_networks.awk ;;
    esac
}

# make_sessions KIND: a session that asks for the certificate (`many`), one that doesn't (`none`), and the
# certificate with its first line (`told`), which has the lines that it should have.
make_sessions() {
    write_network "$1" >"$room/network" || exit 1
    for count in 0 1; do
        awk -v word=CERTIFICATE -v count="$count" -f bench/requests.awk "$room/network" >"$room/$count"
    done
    mv "$room/0" "$room/none"
    mv "$room/1" "$room/many"
    "$program" plan <"$room/many" | sed -n '2,$p' | sed '$d' >"$room/told"
    head -n 1 "$room/told" | grep -q '^@1 CERTIFICATE 8390659$' ||
        fail "the first line is $(head -n 1 "$room/told"), and 1,024 routers with 8,192 links have 8,390,659 lines"
    [ "$(wc -l <"$room/told")" -eq 8390660 ] || fail 'the certificate has another number of lines'
    "$program" check <"$room/told" >"$room/said"
    grep -q '^accepted routers 1024 links 8192$' "$room/said" || fail "check says $(cat "$room/said")"
    "$room/certificate_tool" check <"$room/told" | cmp - "$room/said" || fail 'the yardstick says another thing'
    { head -n 1 "$room/told" && "$room/certificate_tool" write "$room/told" 1; } | cmp - "$room/told" ||
        fail 'the yardstick writes other bytes'
}

# take_turns: the program and the yardstick in turn, with the certificate, without it, and at its check.
take_turns() {
    for _ in $(seq "$rounds"); do
        for input in none many; do
            measured "$input.ours" "$program" plan <"$room/$input"
        done
        measured none.theirs "$room/certificate_tool" write "$room/told" 0
        measured many.theirs "$room/certificate_tool" write "$room/told" "$copies"
        measured check.ours "$program" check <"$room/told"
        measured check.theirs "$room/certificate_tool" check <"$room/told"
    done
    need_done none.ours many.ours none.theirs many.theirs check.ours check.theirs
}

# figures_of WHAT FIELD: what it took ours and theirs, by wall time (1) or processor time (4): of a check,
# or of writing.
figures_of() {
    case $1 in
    check) printf '%s %s\n' "$(median_of check.ours "$2")" "$(median_of check.theirs "$2")" ;;
    write)
        printf '%s %s %s %s\n' "$(median_of many.ours "$2")" "$(median_of none.ours "$2")" \
            "$(median_of many.theirs "$2")" "$(median_of none.theirs "$2")" |
            awk -v copies="$copies" '{ print $1 - $2, ($3 - $4) / copies }'
        ;;
    esac
}

# print_row NETWORK WHAT PEAKS: of a check or of writing; PEAKS are the most memory of both, in kB.
print_row() {
    {
        figures_of "$2" 1
        figures_of "$2" 4
    } | tr '\n' ' ' | awk -v network="$1" -v what="$2" -v bytes="$(wc -c <"$room/told")" -v peaks="$3" '{
            split(peaks, peak, " ")
            printf "%-17s %-6s %6.1f | %7.3f %6.0f %7.1f | %7.3f %6.0f %7.1f | %6.2f %10.2f\n",
                network, what, bytes / 1e6, $1, bytes / $1 / 1e6, peak[1] / 1e3,
                $2, bytes / $2 / 1e6, peak[2] / 1e3, $1 / $2, $3 / $4
        }'
}

printf 'medians of %s runs, ours and the yardstick in turn; the ratios are of the times that they take,\n' \
    "$rounds"
printf 'by the wall and of processors; peaks of memory are of whole runs, that of a session without\n'
printf 'CERTIFICATE stands behind its row\n\n'
line='%-17s %-6s %6s | %7s %6s %7s | %7s %6s %7s | %6s %10s\n'
# shellcheck disable=SC2059
printf "$line$line" '' '' '' ours '' '' 'in C' '' '' 'ours/C' '' \
    network what MB s MB/s peak\ MB s MB/s peak\ MB wall processors
for network in largest_star random_1024_8192; do
    make_sessions "$network"
    take_turns
    print_row "$network" write "$(peak_of many.ours) $(peak_of many.theirs)"
    printf '    a session with its LOAD alone takes %s s and %s kB\n' "$(median_of none.ours)" "$(peak_of none.ours)"
    print_row "$network" check "$(peak_of check.ours) $(peak_of check.theirs)"
    rm "$room"/*.ours "$room"/*.theirs
done
