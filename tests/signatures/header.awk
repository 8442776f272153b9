# Writes what the header file declares: its structs with their fields, and its functions with their parameters, in order. Aliases are
# replaced by their types, and names by those that are linked. rattle.awk writes the same lines of the Rattle files.

# a name and the one that is linked
/^#define zt_[a-z]+ zt[0-9]+_[a-z]+$/ {
    linked[$2] = $3
}

# the file without comments, white space as single spaces
{
    text = text $0 " "
}

function without_comments(s,    out, from, to) {
    while ((from = index(s, "/*")) > 0) {
        out = out substr(s, 1, from - 1) " "
        s = substr(s, from + 2)
        to = index(s, "*/")
        s = substr(s, to + 2)
    }
    return out s
}

# a declaration such as `const uint8_t *file`: its type and its name
function declared(s,    name, type) {
    gsub(/^ +| +$/, "", s)
    name = s; sub(/^.*[ *]/, "", name)
    type = substr(s, 1, length(s) - length(name)); gsub(/ +$/, "", type)
    return name ": " resolved(type)
}

function resolved(type,    words, n, i, out) {
    gsub(/\*/, " * ", type)
    n = split(type, words, " ")
    for (i = 1; i <= n; i++)
        out = out (i > 1 ? " " : "") (words[i] in alias ? alias[words[i]] : words[i])
    return out
}

function fields(of, body,    parts, n, i) {
    print "struct " of
    n = split(body, parts, ";")
    for (i = 1; i < n; i++)
        print of " field " i ": " declared(parts[i])
}

function parameters(of, answer, body,    parts, n, i) {
    print "function " of
    n = split(body, parts, ",")
    for (i = 1; i <= n; i++)
        print of " parameter " i ": " declared(parts[i])
    print of " answers " answer
}

END {
    text = without_comments(text)
    gsub(/[ \t]+/, " ", text)
    rest = text
    while (match(rest, /typedef [^;]*;/)) {
        split(substr(rest, RSTART, RLENGTH - 1), words, " ")
        alias[words[3]] = words[2]
        rest = substr(rest, RSTART + RLENGTH)
    }
    rest = text
    while (match(rest, /struct [a-z_]+ ([{][^}]*[}]|[a-z_]+[(][^)]*[)]);/)) {
        one = substr(rest, RSTART, RLENGTH - 1)
        rest = substr(rest, RSTART + RLENGTH)
        split(one, words, /[ (]/)
        if (one ~ /[}]$/) {
            sub(/^[^{]*[{]/, "", one); sub(/[}]$/, "", one)
            fields(words[2], one)
        } else {
            sub(/^[^(]*[(]/, "", one); sub(/[)]$/, "", one)
            parameters(words[3] in linked ? linked[words[3]] : words[3], words[2], one)
        }
    }
}
