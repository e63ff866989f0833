# Cases whose inputs are too large to be stored, made on the fly; read by tests/run.
# shellcheck shell=sh disable=SC2154

# a_long_line BYTE: a million of these bytes.
a_long_line() {
    head -c 1000000 /dev/zero | tr '\0' "$1"
}

# The first path, with a line of a million bytes before its end and another as the last line.
{
    sed '/^BYE$/d' "$first/stdin"
    a_long_line X
    printf '\nCUT a b\n'
    a_long_line '#'
} >"$room/stdin"
{
    sed '/BYE$/d' "$first/stdout"
    printf '%s\n' '@1 NO 2' '@1 CUT 5 side a' '@1 NO 2'
} >"$room/wanted"
try lines_of_a_million_bytes 0 "$room/wanted" "$room/stdin" plan

# Behind the long line the text goes on to its END, and so does a text that is one long line.
{
    printf 'LOAD\nrouter a\n'
    a_long_line X
    printf '\nrouter b\nEND\nNET\nLOAD\n'
    a_long_line ' '
} >"$room/stdin"
printf '%s\n' '@0 NO 13 line 2' '@0 NO 6' '@0 NO 13 line 1' >"$room/wanted"
try lines_of_a_million_bytes_within_texts 0 "$room/wanted" "$room/stdin" plan

# Texts of 8,192 links among 1,024 routers with one line more. Only the number of the routers and
# that of the links are at their limits, so a line that needs neither is right.
{
    for line in 'link r0 new 1000000000001' 'link r0 new 5' 'link r0 r1 5' 'link r5 r5 0' \
        'router new' 'router r7'; do
        echo LOAD
        awk 'BEGIN { for (i = 0; i < 8192; i++) print "link r" i % 1024 " r" (i + 1) % 1024 " 1" }'
        printf '%s\nEND\n' "$line"
    done
    echo 'CUT r512 r0'
} >"$room/stdin"
printf '%s\n' '@0 NO 15 line 8193' '@0 NO 16 line 8193' '@0 NO 17 line 8193' '@0 NO 17 line 8193' \
    '@0 NO 16 line 8193' '@1 LOADED routers 1024 links 8192' '@1 CUT 16 side r512' >"$room/wanted"
try both_limits_at_once 0 "$room/wanted" "$room/stdin" plan
try_in_pieces both_limits_at_once 0 "$room/wanted" "$room/stdin" plan

# The largest text, with names of 32 bytes and the greatest capacities; what NET tells of it is
# loaded again.
awk 'BEGIN {
    for (i = 0; i < 8192; i++) {
        a = i * 7 % 1024
        b = (i * 7 + int(i / 1024) + 1) % 1024
        printf "link router-%04d.%020d router-%04d.%020d 1000000000000\n", a, a, b, b
    }
    print "END"
}' >"$room/links"
{
    awk '$1 == "link" { print $2; print $3 }' "$room/links" |
        awk '!seen[$0]++ { print "router " $0 }'
    cat "$room/links"
} >"$room/told"
{
    echo LOAD
    cat "$room/links"
    printf 'NET\nLOAD\n'
    cat "$room/told"
    echo NET
} >"$room/stdin"
for version in 1 2; do
    printf '@%s LOADED routers 1024 links 8192\n@%s NET 9217\n' "$version" "$version"
    cat "$room/told"
done >"$room/wanted"
try the_largest_network_is_told_back 0 "$room/wanted" "$room/stdin" plan
try_in_pieces the_largest_network_is_told_back 0 "$room/wanted" "$room/stdin" plan
try_late the_largest_network_is_told_back "$room/stdin" "$room/wanted" 1 2 2

# A chain of the most routers, with names of 32 bytes and eight links of the greatest capacity
# between each two neighbours, but seven between the first two: its tree, and the run that made it,
# are the chain itself, and the weakest edge has all routers but the first below it.
awk 'BEGIN {
    for (i = 1; i < 1024; i++)
        printf "router-%04d.%020d router-%04d.%020d %d%s\n", i, i, i - 1, i - 1,
            i == 1 ? 7 : 8, "000000000000"
}' >"$room/chain"
below=$(awk '{ printf " %s", $1 }' "$room/chain")
top=$(awk 'NR == 1 { print $2 }' "$room/chain")
foot=$(awk 'END { print $1 }' "$room/chain")
{
    echo LOAD
    awk '{ for (i = NR == 1 ? 7 : 8; i > 0; i--) print "link " $2 " " $1 " 1000000000000" }' \
        "$room/chain"
    printf '%s\n' END TREE RUN "PATH $top $foot" "PATH $foot $top" WEAKEST "CUT $foot $top" \
        "CUT $top $foot"
} >"$room/stdin"
{
    echo '@1 LOADED routers 1024 links 8183'
    for word in TREE RUN PATH; do
        echo "@1 $word 1023"
        cat "$room/chain"
    done
    echo '@1 PATH 1023'
    sort -r "$room/chain"
    printf '%s\n' "@1 WEAKEST 7000000000000 side$below" "@1 CUT 7000000000000 side$below" \
        "@1 CUT 7000000000000 side $top"
} >"$room/wanted"
try the_longest_chain_is_its_own_tree_and_path 0 "$room/wanted" "$room/stdin" plan
try_in_pieces the_longest_chain_is_its_own_tree_and_path 0 "$room/wanted" "$room/stdin" plan

# A chain of the most routers whose link in the middle is the narrowest: the edge above r501 is the least of each
# path across it, and the weakest of all, with all routers from r501 on below it.
{
    echo LOAD
    awk 'BEGIN { for (i = 0; i < 1023; i++) print "link r" i " r" i + 1 " " (i == 500 ? 3 : 1000 + i) }'
    printf '%s\n' END WEAKEST 'CUT r0 r1023' 'CUT r1023 r0' 'CUT r500 r501' 'CUT r501 r1023' 'CUT r3 r7' \
        'PATH r0 r1023'
} >"$room/stdin"
{
    echo '@1 LOADED routers 1024 links 1023'
    awk '
        function names(from, to) {
            told = ""
            for (i = from; i <= to; i++) {
                told = told " r" i
            }
            return told
        }
        BEGIN {
            print "@1 WEAKEST 3 side" names(501, 1023)
            print "@1 CUT 3 side" names(0, 500)
            print "@1 CUT 3 side" names(501, 1023)
            print "@1 CUT 3 side" names(0, 500)
            print "@1 CUT 1501 side" names(0, 501)
            print "@1 CUT 1003 side" names(0, 3)
            print "@1 PATH 1023"
            for (i = 0; i < 1023; i++) {
                print "r" i + 1 " r" i " " (i == 500 ? 3 : 1000 + i)
            }
        }'
} >"$room/wanted"
try a_chain_that_is_narrowest_in_the_middle 0 "$room/wanted" "$room/stdin" plan
try_in_pieces a_chain_that_is_narrowest_in_the_middle 0 "$room/wanted" "$room/stdin" plan

# The widest edge that there may be.
{
    printf '%s\n' LOAD
    awk 'BEGIN { for (i = 0; i < 8192; i++) print "link a b 1000000000000" }'
    printf '%s\n' END TREE RUN 'PATH b a' WEAKEST 'CUT a b'
} >"$room/stdin"
{
    echo '@1 LOADED routers 2 links 8192'
    for word in TREE RUN PATH; do
        printf '%s\n' "@1 $word 1" 'b a 8192000000000000'
    done
    printf '%s\n' '@1 WEAKEST 8192000000000000 side b' '@1 CUT 8192000000000000 side a'
} >"$room/wanted"
try the_widest_edge_of_a_tree 0 "$room/wanted" "$room/stdin" plan

# Networks of forty sizes, from one router without a link to 1,024 with 8,192, in texts of up to 30,000
# lines, of which most are remarks and empty. The routers stand in a row, and the links join neighbours,
# one pair after the other. So r0 is cut off by its links to r1, and on its side are those routers that
# no link reaches, in whatever order the routers are committed.
awk -v inputs="$room/stdin" -v replies="$room/wanted" '
    # The lines of the text that say something, one after another.
    function say(i) {
        if (i < routers) {
            return "router r" i
        }
        i = (i - routers) % (routers > 1 ? routers - 1 : 1)
        return "link r" i " r" (routers > 1 ? i + 1 : 0) " 1"
    }

    function write_text() {
        print "LOAD" >inputs
        said = 0
        for (line = 1; line <= lines; line++) {
            if (said * lines < line * (routers + links)) {
                print say(said++) >inputs
            } else {
                print (line % 2 ? "" : "# " line) >inputs
            }
        }
        print "END" >inputs
    }

    function write_cut() {
        print "CUT r0 r1" >inputs
        if (routers == 1) {
            print "@" version " NO 4" >replies
            return
        }
        value = int((links + routers - 2) / (routers - 1))
        printf "@%d CUT %d side r0", version, value >replies
        for (i = 2; i < routers; i++) {
            if (i > links) {
                printf " r%d", i >replies
            }
        }
        print "" >replies
    }

    BEGIN {
        for (size = 0; size < 40; size++) {
            version = size + 1
            routers = 1 + int(size * 1023 / 39)
            links = size < 39 ? int(size * 7 % 39 * 8192 / 39) : 8192
            lines = 750 * version
            if (lines < routers + links) {
                lines = routers + links
            }
            write_text()
            print "@" version " LOADED routers " routers " links " links >replies
            write_cut()
        }
    }'
try networks_of_forty_sizes_in_texts_of_up_to_30000_lines 0 "$room/wanted" "$room/stdin" plan
try networks_of_forty_sizes_with_16_workers 0 "$room/wanted" "$room/stdin" plan --workers=16
