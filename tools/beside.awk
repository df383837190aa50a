# Shows a script, which is read, with the answer to each line under it: answers is the file of what the program wrote,
# status is how it ended, and language is docs/LANGUAGE.md, whose tables say what a code means.

BEGIN {
    while ((getline row < language) > 0)
        if (split(row, cell, / *\| */) > 4 && cell[2] ~ /^[0-9]+$/)
            means[cell[2] " " cell[3]] = cell[4]
}

{
    line = $0
    printf "%4d  %s\n", NR, without_cr(line)
    if (is_answered(line))
        show_answer()
}

END {
    while ((getline left < answers) > 0)
        print "      " left
}

# The last byte of a line is dropped where it is a carriage return.
function without_cr(line) {
    sub(/\r$/, "", line)
    return line
}

# A line without a word, or whose first word begins with #, is not answered, unless it is longer than a line may be.
function is_answered(line) {
    return length(line) > 4096 || without_cr(line) !~ /^[ \t]*(#|$)/
}

# An answer is one line, but for a proposal, a document and the plan as a script, which end with a line of their own.
function show_answer(    row, last) {
    if ((getline row < answers) <= 0) {
        print "      (no answer: the run ended with status " status ")"
        return
    }
    if (row ~ /^error /) {
        print "      " row with_meaning(substr(row, 7))
        return
    }
    print "      " row
    if (row == "ok" || row == "none")
        return
    last = row ~ /^(proposal|document) / ? "end" : "# end"
    while (row != last && (getline row < answers) > 0)
        print "      " row
}

function with_meaning(code) {
    return code in means ? ": " means[code] : ""
}
