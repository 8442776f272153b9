# Holds the tables to the document: agree.awk DOCUMENT INPUTS EXPORTS, where DOCUMENT is what document.awk writes, INPUTS is inputs.tsv and
# EXPORTS is tests/export/differences.tsv. Writes what doesn't agree.
BEGIN {
    FS = "\t"
    # E8 is about names that document 01 leaves out, so there is nothing to test
    tested["E8"] = 1
}

FNR == 1 { file++ }

file == 1 && $1 == "entry" {
    if ($2 in known)
        print "the document has two entries " $2
    known[$2] = 1
}

file == 1 && $1 == "input" { id[++inputs] = $2; spelling[inputs] = $3; levels[inputs] = $4 }

file == 1 && $1 == "text" { words[$2] = $3 }

# Rows of one entry and one input, one after the other, are one input of the document with several level counts.
file == 2 {
    tested[$10] = 1
    if (row > 0 && $10 == id[row] && $1 == spelling[row]) {
        seen = seen "," $2
    } else {
        hold_levels()
        row++
        seen = $2
        if ($10 != id[row] || $1 != spelling[row])
            print "input " row " is " id[row] " " spelling[row] " in the document, and " $10 " " $1 " in the table"
    }
    if ($5 != 0 && !says($10, $5))
        print $10 ": the document doesn't name refusal " $5 ": " $1
    if ($6 != 0 && !says($10, "line " $6))
        print $10 ": the document doesn't name line " $6 ": " $1
    refused[$10 ":" $5] = 1
}

file == 3 {
    entry = $20
    sub(/,.*/, "", entry)
    if (entry in known) {
        tested[entry] = 1
        if ($18 != 0 && !says(entry, $18))
            print entry ": the document doesn't name refusal " $18
    } else if (entry != "no difference")
        print "an export is of no entry: " entry
}

END {
    if (file != 3)
        print "a table is empty"
    hold_levels()
    if (row != inputs)
        print "the document has " inputs " inputs, the table " row
    for (entry in known)
        if (!(entry in tested))
            print "no test has the entry " entry
    for (entry in tested)
        if (!(entry in known))
            print "the document has no entry " entry
    # a number that the document names as an answer of document 01 or 02 is some row's
    for (entry in words)
        while (match(words[entry], /Document 0[12]: [0-9]+/)) {
            number = substr(words[entry], RSTART + 13, RLENGTH - 13)
            words[entry] = substr(words[entry], RSTART + RLENGTH)
            if (entry !~ /^E/ && !((entry ":" number) in refused))
                print entry ": no row has refusal " number
        }
}

# Are the level counts of the last input those that the document names?
function hold_levels() {
    if (row > 0 && levels[row] != "-" && levels[row] != seen)
        print id[row] ": the document names level counts " levels[row] ", the table " seen ": " spelling[row]
}

# Does the entry's text have this number, or these words, standing alone? Not as part of E4, 2^64, import.rs:36 or 17,179,869,180.
function says(entry, what) {
    return (" " words[entry] " ") ~ ("[^0-9A-Za-z:^.,]" what "([^0-9,]|,[^0-9])")
}
