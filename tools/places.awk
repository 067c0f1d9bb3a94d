# Reads the sources and prints a line for each place: point, file:line, kind, text, with tabs between them. TABLE names what only
# reading finds. With bodies=1 it prints the functions whose bodies are the same but for names, types and numbers.

BEGIN {
    rows = split(ENVIRON["TABLE"], row, "\n")
    for (i = 1; i <= rows; i++) {
        words = split(row[i], w, " ")
        for (j = 3; j <= words; j++)
            if (w[1] == 2) twin[w[j]] = twin[w[j]] " " w[2]
            else listed[w[1], w[j]] = w[2]
    }
    facts = split("a ≤ e;at ≤ length out;≤ length line;root < 512;first ≤ end;end ≤ 2 ^ 26;0 < v;2 ≤ m;level ≤ 2;Asked (;RootReady (;" \
        "≡ 512 * length tmarks;≤ lowest ;t < 2 ^ 54;m < 2 ^ 32", fact, ";")
    pairs = split("a e;first end;first n;root page;root size;root va;pa perm;va size;mask v;old new;parent child;words m;out at;rt outcome;" \
        "line n;row lent", pair, ";")
}

FNR == 1 { split(FILENAME, path, "/"); crate = path[2]; inside = block = collecting = "" }

# A comment is no place.
/^ *\/\// { next }

# A place once, under the first kind that finds it.
function place(point, line, kind, text) {
    if ((point, FILENAME, line) in seen) return
    seen[point, FILENAME, line] = 1
    sub(/^ +/, "", text)
    if (!bodies) printf "%d\t%s:%d\t%s\t%s\n", point, FILENAME, line, kind, text
}

# Notes that a function or a type of the table stands here.
function named(name, line, text,   key, k, n, g) {
    key = crate "/" name
    for (k = 1; k <= 7; k++)
        if ((k, key) in listed && (k != 1 || text ~ /-> (u64|usize)/)) place(k, line, listed[k, key], shown(text))
    n = split(twin[key], g, " ")
    for (k = 1; k <= n; k++) grouped(g[k], g[k], line, text)
    if (name ~ /^ronakvesh_/ && crate ~ /^interface/) grouped(name, "exported", line, text)
}

function grouped(group, kind, line, text) {
    if (!(group in twins)) group_at[++groups] = group
    twins[group] = twins[group] FILENAME ":" line "\t" kind "\t" shown(text) "\n"
}

function shown(text) {
    sub(/^ +/, "", text)
    sub(/ (requires|ensures) .*/, "", text)
    sub(/[({<].*/, "", text)
    return text
}

function has(parameter) { return index(signature, "(" parameter ": ") || index(signature, " " parameter ": ") }

# Point 5, of a function whose head is read: which parameters travel, which facts stand in its contract.
function travels(   i, n, p, kinds, some) {
    some = has("words") + has("tmarks") + has("bytes") + has("fmarks")
    if (some == 4) kinds = "four-slices"
    else if (some > 1) kinds = "some-of-the-slices"
    for (i = 1; i <= pairs; i++) {
        split(pair[i], p, " ")
        if (has(p[1]) && has(p[2])) { pair_of[heads + 1, i] = 1; travel[i]++ }
    }
    heads++
    head_at[heads] = FILENAME ":" start
    head_text[heads] = shown(first)
    head_kinds[heads] = kinds
    for (i = 1; i <= facts; i++)
        if (index(contract, fact[i])) { fact_of[heads, i] = 1; stands[i]++ }
}

# A body with its names, types and numbers taken out, so that twins look the same.
function bare(text,   out, word, n, number) {
    gsub(/0x[0-9A-Fa-f_]+|[0-9][0-9_]*/, "0", text)
    gsub(/Virtual|Physical|Number|Entry|Str|PTE_[A-Z]/, "", text)
    n = 0
    split("", number)
    while (match(text, /[a-z_][a-z_0-9]*/)) {
        word = substr(text, RSTART, RLENGTH)
        out = out substr(text, 1, RSTART - 1)
        text = substr(text, RSTART + RLENGTH)
        if (word ~ /^(if|return|let|mut|while|loop|match|self|true|false|as|len|else)$/) out = out word
        else if (word ~ /^(u8|u32|u64|usize)$/) out = out "T"
        else { if (!(word in number)) number[word] = ++n; out = out "v" number[word] }
    }
    return out text
}

# Blocks of types.
/^(pub )?(enum|struct) / {
    name = $0
    sub(/^(pub )?(enum|struct) /, "", name)
    sub(/[^A-Za-z0-9].*/, "", name)
    named(name, FNR, $0)
    block = $0 ~ /\{$/ ? $0 : ""
    opened = FNR
}
block ~ /enum/ && /^    (Refused\(|Nothing,|None,|Other,)/ { place(1, opened, "own-enum", block) }
block ~ /enum/ && /^    .*, bool\)/ { place(1, FNR, "flag-beside", $0) }
block ~ /struct/ && /: bool,$/ { place(1, FNR, "flag-beside", $0) }
block ~ /struct/ && /^    (pub )?(no|number): u64,/ { place(1, FNR, "number-beside", $0) }
/^}/ { block = "" }

# Heads of functions.
/^ *(pub(\([a-z]*\))? )?(const )?(extern "C" )?fn [a-z]/ && inside == "" && collecting == "" {
    collecting = $0
    first = $0
    start = FNR
    margin = $0
    sub(/[^ ].*/, "", margin)
    name = $0
    sub(/^.*fn /, "", name)
    sub(/[^a-z0-9_].*/, "", name)
    if ($0 !~ /[;{]$/) next
}
collecting != "" {
    if (FNR > start) collecting = collecting " " $0
    if ($0 !~ /[;{]$/) next
    signature = collecting
    sub(/ (requires|ensures) .*/, "", signature)
    contract = substr(collecting, length(signature) + 1)
    named(name, start, signature)
    if (signature ~ /Result<[^>]*, (u64|usize)>/ || (name ~ /^judge_/ && signature ~ /-> u64/)) place(1, start, "judge", shown(first))
    travels()
    inside = $0 ~ /;$/ ? "" : name
    body = collecting = ""
    next
}

# Lines of bodies.
inside != "" && $0 == margin "}" {
    b = bare(body)
    if (length(body) > 12) same[b] = same[b] FILENAME ":" start " " inside "\n"
    count[b]++
    inside = ""
}
inside != "" { t = $0; sub(/^ +/, "", t); body = body t "\n" }
/^const OUTSIDE: u64/ || /Refused\([0-9A-Z]/ || /Err\([0-9]/ { place(1, FNR, "refusal-literal", $0) }
inside ~ /^judge_/ && /^ *(return )?[1-9][0-9]*;?$/ { place(1, FNR, "refusal-literal", $0) }
inside != "" && /^ *if ((no|way\.no|numbers|then) != 0|!p\.ok|!t\.more) \{$/ { place(1, FNR, "passed-on-by-hand", $0) }
/Answer::Done\([01]\)/ || /^ *(return )?Ok\([01]\);?$/ { place(1, FNR, "no-value-as-number", $0) }
/count: 6,/ { place(1, FNR, "none-as-number", $0) }
/(Answer|Parsed)::[A-Za-z]+\([^)]*\) =/ { place(1, FNR, "taken-apart", $0) }
inside != "" && /if (level|m|m1|m2|store::mark_at\(.*\)) (==|!=|<|>) [0-3] \{$/ { place(1, FNR, "kind-as-number", $0) }
crate == "vectors" && (/call(\(row\))? (==|<=) [0-9]+/ || /number\(row, [0-9]\) ==|return 11;/ || /^const (EQUAL|LISTED|WRONG|FRESH)/) { place(1, FNR, "kind-as-number", $0) }
inside != "" && /^ *(while |loop \{)/ { place(3, FNR, /loop/ ? "loop" : "while", $0) }
inside != "" && /\/ 1024|1024 \* \(|0x4000_0001|0x2000_0000/ { place(4, FNR, "entry-by-hand", $0) }
/check::same\(/ { place(4, FNR, "equality", $0) }
inside != "" && /count_pages\(/ { place(7, FNR, "mask-and-bits-call", $0) }
inside != "" && (/^ +(true|false),$/ || /(judge_leave|judge_unmap|leave_pages)\(.*(true|false)\)/) { place(7, FNR, "freeing-call", $0) }

END {
    if (bodies) {
        for (b in same) if (count[b] > 1) printf "%d\n%s\n", count[b], same[b]
        exit
    }
    # A twin of two groups is one place. An exported function is no twin of the one it calls: these are point 9, counted apart.
    for (i = 1; i <= groups; i++) if (gsub(/\n/, "\n", twins[group_at[i]]) > 1) all = all twins[group_at[i]]
    n = split(all, one, "\n")
    for (i = 1; i < n; i++) {
        split(one[i], f, "\t")
        if (f[1] in kind_of) kind_of[f[1]] = kind_of[f[1]] "+" f[2]
        else { kind_of[f[1]] = f[2]; text_of[f[1]] = f[3]; place_at[++places] = f[1] }
    }
    for (i = 1; i <= places; i++) {
        at = place_at[i]
        printf "%d\t%s\t%s\t%s\n", kind_of[at] == "exported" ? 9 : 2, at, kind_of[at], text_of[at]
    }
    for (h = 1; h <= heads; h++) {
        kinds = head_kinds[h]
        for (i = 1; i <= pairs; i++) if (pair_of[h, i] && travel[i] > 2) kinds = kinds ", " pair[i]
        for (i = 1; i <= facts; i++) if (fact_of[h, i] && stands[i] > 2) kinds = kinds ", " fact[i]
        sub(/^[ ,]+/, "", kinds)
        if (kinds != "") printf "5\t%s\t%s\t%s\n", head_at[h], kinds, head_text[h]
    }
}
