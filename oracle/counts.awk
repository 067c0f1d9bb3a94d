# counts.awk: makes the tables of docs/DIFFERENCES.md of the counts of both builds, which are read as the files whose names end
# in .wrapping and .checked. Where both builds count the same there is one row.

# A number with commas.
function commas(number, text) {
    text = number ""
    while (text ~ /[0-9][0-9][0-9][0-9]/) sub(/[0-9][0-9][0-9]($|,)/, ",&", text)
    return text
}

# The fields from one on as cells.
function cells(first, i, text) {
    text = ""
    for (i = first; i <= NF; i++) text = text " " commas($i) " |"
    return text
}

BEGIN { FS = "\t" }

{ build = FILENAME ~ /wrapping$/ ? "wrapping" : "checked" }

$1 == "helper" {
    helpers[build] = 1
    for (i = 3; i <= NF; i++) sums[build, i] += $i
    next
}

$1 == "stores" {
    key = $1 SUBSEP $2
    row = cells(3)
}
$1 == "call" {
    key = $1 SUBSEP $2
    row = cells(3)
    last = NF
    for (i = 3; i <= NF; i++) calls[build, i] += $i
}
$1 ~ /difference$/ {
    key = $1 SUBSEP $2 SUBSEP $3
    row = cells(4)
}

{
    if (!(key in place)) {
        place[key] = ++number
        keys[number] = key
    }
    rows[build, key] = row
}

# The rows of one kind, one for both builds where they are the same.
function both(kind, i, part) {
    for (i = 1; i <= number; i++) {
        split(keys[i], part, SUBSEP)
        if (part[1] != kind) continue
        if (rows["wrapping", keys[i]] == rows["checked", keys[i]]) print "| `" part[2] "` |" rows["wrapping", keys[i]]
        else {
            print "| `" part[2] "`, wrapping |" rows["wrapping", keys[i]]
            print "| `" part[2] "`, with overflow checks |" rows["checked", keys[i]]
        }
    }
    print ""
}

# The sums over all calls, in one row for each build where they differ.
function sum_of_calls(key, i, builds, build) {
    key = "call" SUBSEP "all"
    split("wrapping checked", builds, " ")
    for (build in builds)
        for (i = 3; i <= last; i++) rows[builds[build], key] = rows[builds[build], key] " " commas(calls[builds[build], i]) " |"
    keys[++number] = key
}

# The rows of differences, with a column for each build.
function each(kind, i, part, before, name, wrapping, checked) {
    before = ""
    for (i = 1; i <= number; i++) {
        split(keys[i], part, SUBSEP)
        if (part[1] != kind) continue
        name = part[2] == before ? "" : " `" part[2] "`"
        wrapping = (("wrapping", keys[i]) in rows) ? rows["wrapping", keys[i]] : " |"
        checked = (("checked", keys[i]) in rows) ? rows["checked", keys[i]] : " |"
        print "|" name " | " part[3] " |" wrapping checked
        before = part[2]
    }
    print ""
}

END {
    print "| the Rust built | compared | equal | listed differences | unlisted |\n|---|---|---|---|---|"
    for (i = 3; i <= 6; i++) {
        first = first " " commas(sums["wrapping", i]) " |"
        second = second " " commas(sums["checked", i]) " |"
    }
    print "| wrapping |" first "\n| with overflow checks |" second "\n"
    print "| helper | listed difference | wrapping | with overflow checks |\n|---|---|---|---|"
    each("helper's difference")
    print "| stores | all | well formed |\n|---|---|---|"
    both("stores")
    print "| call | compared with the model | of these on the largest stores | directed | different | " \
        "compared with the Rust | equal | listed differences | unlisted |\n|---|---|---|---|---|---|---|---|---|"
    sum_of_calls()
    both("call")
    print "| call | listed difference | wrapping | with overflow checks |\n|---|---|---|---|"
    each("difference")
}
