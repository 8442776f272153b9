# The entries of docs/DIFFERENCES.md as lines, columns between tabs:
#
#     entry ID                    each entry, in its order
#     input ID INPUT LEVELS       each input, with the level counts that the text before it names, between commas, or `-`
#     text  ID TEXT               the entry's words, for what they say of refusals
#
# An entry starts with its name in bold type, as `**N1. ..`, and ends at the next one or at a headline. An input stands alone on its line,
# in backquotes, perhaps as an item of a list. The level counts of an input hold for the next ones too, up to the next words.
function done() {
    if (id != "")
        print "text\t" id "\t" words
    id = words = ""
}

/^## / { done() }

/^\*\*[A-Z][0-9]+\. / {
    done()
    id = substr($0, 3)
    sub(/\..*/, "", id)
    levels = "-"
    print "entry\t" id
}

id != "" && /^ *(- )?`.*`$/ {
    input = $0
    sub(/^ *(- )?`/, "", input)
    sub(/`$/, "", input)
    print "input\t" id "\t" input "\t" levels
    next
}

id != "" && NF > 0 {
    words = words " " $0
    levels = "-"
    if (match($0, /Levels [0-9]+(, and [0-9]+)?/)) {
        levels = substr($0, RSTART + 7, RLENGTH - 7)
        sub(/, and /, ",", levels)
    }
}

END { done() }
