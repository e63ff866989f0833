# Prints the second table of bench/trees.sh. A line of the input has a network, and for each run of the
# program, the first with one worker, the milliseconds of a round by the wall, or a dash.
# usage: awk -v team="ours ours.2 .. before" -f workers_table.awk
function number(value, width) {
    if (value == "-") {
        return sprintf(" %*s", width, value)
    }
    return sprintf(" %*s", width, sprintf(value < 1 ? "%.3f" : value < 100 ? "%.2f" : "%.0f", value))
}

# How many times as long one worker takes as another run; of a build before, how many times as long
# that one takes as one worker.
function ratio(i, one, other) {
    if (one == "-" || other == "-" || one <= 0 || other <= 0) {
        return "-"
    }
    return run[i] == "before" ? other / one : one / other
}

BEGIN {
    count = split(team, run, " ")
    for (i = 1; i <= count; i++) {
        title = run[i] == "ours" ? "1" : run[i]
        sub(/^ours[.]/, "", title)
        times = times sprintf(" %8s", title)
        if (i > 1) {
            name[i] = run[i] == "before" ? "before/1" : "1/" title
            ratios = ratios sprintf(" %8s", name[i])
        }
    }
    printf "%-17s%s |%s\n", "", times, ratios
}

{
    times = ""
    ratios = ""
    for (i = 1; i <= count; i++) {
        times = times number($(i + 1), 8)
        if (i == 1) {
            continue
        }
        value = ratio(i, $2, $(i + 1))
        ratios = ratios number(value, 8)
        if (value != "-") {
            logs[i] += log(value)
            noted[i]++
        }
    }
    printf "%-17s%s |%s\n", $1, times, ratios
}

END {
    line = sprintf("%-17s%*s |", "geometric means", 9 * count, "")
    for (i = 2; i <= count; i++) {
        line = line number(noted[i] ? exp(logs[i] / noted[i]) : "-", 8)
    }
    print line
}
