# Prints the table of bench/trees.sh. A line of the input has a network, and for each way the
# milliseconds of a round and those of a whole process of one round, or dashes.
# usage: awk -v ways="ours gusfield .." -f tree_table.awk
function cell(text, width) {
    return sprintf(" %*s", width, text)
}

function number(value, width) {
    if (value == "-") {
        return cell(value, width)
    }
    return cell(sprintf(value < 1 ? "%.3f" : value < 100 ? "%.2f" : "%.0f", value), width)
}

# The column of the ratio of a way: the first to the second way, and each further one to the first.
function ratio_title(i) {
    return i == 2 ? title[1] "/" title[2] : title[i] "/" title[1]
}

function ratio(i, ours, other) {
    if (ours == "-" || other == "-") {
        return "-"
    }
    return i == 2 ? ours / other : other / ours
}

function note(set, i, value) {
    logs[set, i] += log(value)
    noted[set, i]++
}

function mean(set, i) {
    return noted[set, i] ? exp(logs[set, i] / noted[set, i]) : "-"
}

function print_means(words, set) {
    line = sprintf("%-17s%*s |", words, 9 * count, "")
    for (i = 2; i <= count; i++) {
        line = line number(mean(set, i), length(ratio_title(i)))
    }
    print line " |"
}

BEGIN {
    count = split(ways, way, " ")
    split("ours ours gusfield C++ lemon LEMON igraph igraph networkx networkx", pair, " ")
    for (i = 1; i <= 9; i += 2) {
        name[pair[i]] = pair[i + 1]
    }
    for (i = 1; i <= count; i++) {
        title[i] = name[way[i]]
        times = times cell(title[i], 8)
        if (i > 1) {
            ratios = ratios cell(ratio_title(i), 0)
        }
    }
    printf "%-17s%s |%s |%s\n", "", times, ratios, times
}

{
    times = ""
    ratios = ""
    walls = ""
    for (i = 1; i <= count; i++) {
        times = times number($(2 * i), 8)
        walls = walls number($(2 * i + 1), 8)
        if (i == 1) {
            continue
        }
        value = ratio(i, $2, $(2 * i))
        ratios = ratios number(value, length(ratio_title(i)))
        if (value != "-") {
            note("all", i, value)
        }
        if (value != "-" && $1 !~ /\*$/) {
            note("easy", i, value)
        }
    }
    printf "%-17s%s |%s |%s\n", $1, times, ratios, walls
}

END {
    print_means("geometric means", "all")
    print_means("without those *", "easy")
}
