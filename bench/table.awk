# table.awk: makes the one table of the lines that bench and times print: a call, T, n, nanoseconds with the check, of the
# check and without it; then for each other side its name, its nanoseconds and 1 where the ratio without the check is told.
BEGIN {
    FS = "\t"
    print "| call | T | n | with check, µs | check, µs | less check, µs | each, ns | against | its µs | less check / its | with check / its |"
    print "|---|---|---|---|---|---|---|---|---|---|---|"
}

# A number with a comma before each three digits.
function grouped(number) {
    for (at = length(number) - 3; at > 0; at -= 3) number = substr(number, 1, at) "," substr(number, at + 1)
    return number
}

# Microseconds. The clock does not tell less than two nanoseconds.
function micro(time) {
    if (time == "-") return "–"
    if (time < 2) return "< 0.002"
    return sprintf(time < 9999.5 ? "%.3f" : "%.1f", time / 1000)
}

# Nanoseconds without the check for each of n; where there is no check before the call, for each of T.
function each(tables, n, with, check, less) {
    if (n > 0) return sprintf("%.2f", less / n)
    return check == "-" ? sprintf("%.1f", with / tables) : "–"
}

# A ratio, where it is told; never to what the clock does not tell.
function ratio(time, other, told) {
    if (!told || other < 2) return "not told"
    return sprintf(time / other < 99.5 ? "%.2f" : "%.0f", time / other)
}

# Another part of a cell, which may have one.
function joined(cell, part) {
    return cell == "" ? part : cell ", " part
}

{
    names = times = less = with = ""
    for (i = 7; i < NF; i += 3) {
        names = joined(names, $i)
        times = joined(times, micro($(i + 1)))
        less = joined(less, ratio($6, $(i + 1), $(i + 2)))
        with = joined(with, ratio($4, $(i + 1), 1))
    }
    if (names == "") names = times = less = with = "–"
    if ($6 == "-") less = "–"
    printf "| %s | %s | %s | %s | %s | %s | %s | %s | %s | %s | %s |\n", $1, $2, $3 ? grouped($3) : "–", micro($4),
        micro($5), micro($6), each($2, $3, $4, $5, $6), names, times, less, with
}
