# Shows each line of a script and, beside it, its answer.
#   awk -v answers=FILE -f demo/side_by_side.awk SCRIPT
# A line that is nothing and a line that sets the clock have no answer. What is left of the answers is
# shown at the end: a line that could not be read is named there.

{
    script[NR] = $0
    if (length($0) > width) width = length($0)
}

function has_answer(line) {
    return line !~ /^ *\r?$/ && line !~ /^#/ && line !~ /^ *at( |$)/
}

function next_answer() {
    if (ended || (getline answer < answers) <= 0) {
        ended = 1
        return ""
    }
    return "=> " answer
}

END {
    for (i = 1; i <= NR; i++) {
        beside = has_answer(script[i]) ? next_answer() : ""
        if (beside == "") print script[i]
        else printf "%-" width "s  %s\n", script[i], beside
    }
    for (beside = next_answer(); beside != ""; beside = next_answer()) printf "%" width "s  %s\n", "", beside
}
