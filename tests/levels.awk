# Prints how many rows are in the first level of a text report with two sizes, and how many are below one of these at most. Then it
# prints the line of the total.
NR > 1 {
    if (substr($0, 35, 1) == " ") {
        if (++below > most) most = below
    } else {
        rows++
        below = 0
    }
}
END {
    print rows - 1 " rows, and at most " most " below one of them"
    print
}
