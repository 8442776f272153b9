# Holds the index of the stored cases to their numbers: agree.awk OUTPUT.. COVERAGE INDEX, where each OUTPUT is the expected output of a replay,
# crates/vectors_NAME/stdout or tests/vectors/NAME/expected, COVERAGE is COVERAGE.md and INDEX is INDEX.tsv. Writes what doesn't agree.
BEGIN { FS = "\t" }

function replay_of(path) {
    sub(/\/[a-z]*$/, "", path)
    sub(/.*vectors[_\/]/, "", path)
    return path
}

function number(text) {
    gsub(/[^0-9]/, "", text)
    return text + 0
}

FNR == 1 { headline = "" }

FILENAME ~ /\/(stdout|expected)$/ && /^cases\.bin: / {
    stored[replay_of(FILENAME)] = number(substr($0, 11, index($0, " cases") - 11))
    next
}

# The table of judges: its first line names the replays, the last column is the sum.
FILENAME ~ /COVERAGE\.md$/ {
    if (/^## /)
        headline = $0
    if (headline == "## Judges" && /^\| /) {
        n = split($0, cell, / *\| */)
        for (i = 3; i < n; i++)
            if (cell[2] == "judge")
                replay[i] = cell[i]
            else
                told[replay[i], cell[2]] = number(cell[i])
    }
    next
}

FILENAME ~ /INDEX\.tsv$/ && FNR > 1 {
    split($2, span, "-")
    last = span[2] == "" ? span[1] : span[2]
    if (NF != 5 || !($1 in stored))
        print "a line of no replay: " $0
    if (span[1] != after[$1] + 0 || last < span[1])
        print $1 ": case " after[$1] + 0 " isn't the next one: " $0
    if (!($4 == "rust" && $5 == "-" || $4 == "document" && $5 != "-" && $5 != ""))
        print "a judge with a wrong reason: " $0
    after[$1] = last + 1
    judged[$1, $4] += last - span[1] + 1
    judged["all", $4] += last - span[1] + 1
}

END {
    for (name in stored) {
        replays++
        if (stored[name] != after[name] + 0)
            print name " has " stored[name] " cases, the index " after[name] + 0
    }
    if (replays != 6)
        print "there are " replays " replays"
    for (pair in judged)
        if (judged[pair] != told[pair] + 0) {
            split(pair, part, SUBSEP)
            print part[1] ", " part[2] ": " judged[pair] " in the index, " told[pair] + 0 " in COVERAGE.md"
        }
}
