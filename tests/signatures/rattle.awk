# Writes what Rattle files export to C, in the lines that header.awk writes of the header file. The files are read in this order: those with
# the aliases, then those with the structs and the functions. Only a struct marked #[repr(C)] and a function marked #[unsafe(no_mangle)] count.

BEGIN {
    width["u8"] = "uint8_t"; width["u16"] = "uint16_t"; width["u32"] = "uint32_t"; width["u64"] = "uint64_t"; width["usize"] = "size_t"
    width["i8"] = "int8_t"; width["i16"] = "int16_t"; width["i32"] = "int32_t"; width["i64"] = "int64_t"
}

# the type of C for a type of Rattle that is a number
function number(type) {
    if (type in alias)
        type = alias[type]
    return type in width ? width[type] : "no number: " type
}

# LoadAnswer is zt_load_answer
function struct_name(name,    out, i, c) {
    out = "zt"
    for (i = 1; i <= length(name); i++) {
        c = substr(name, i, 1)
        out = out (c == toupper(c) ? "_" : "") tolower(c)
    }
    return out
}

# one parameter: a slice is a pointer and a length
function parameter(name, type,    constant) {
    if (type !~ /^&/) {
        print of " parameter " ++n ": " name ": " number(type)
        return
    }
    constant = type ~ /^&mut / ? "" : "const "
    sub(/^&(mut )?/, "", type)
    if (type !~ /^\[/) {
        print of " parameter " ++n ": " name ": " constant number(type) " *"
        return
    }
    gsub(/[][]/, "", type)
    print of " parameter " ++n ": " name ": " constant number(type) " *"
    print of " parameter " ++n ": " name "_len: size_t"
}

{ sub(/[ \t]*\/\/.*$/, "") }

/^pub type / {
    sub(/;$/, "")
    alias[$3] = $5
}

/^#\[repr\(C\)\]$/ { repr = 1; next }
/^#\[derive\(.*\)\]$/ { next }
/^#\[unsafe\(no_mangle\)\]$/ { exported = 1; next }

/^pub struct / && repr { of = struct_name($3); within = "struct"; n = 0; print "struct " of; repr = 0; next }

/^pub extern "C" fn / && exported {
    of = $5; sub(/\(.*/, "", of)
    within = "function"; n = 0; exported = 0
    print "function " of
    next
}

/^[^ \t]/ { repr = 0; exported = 0 }

within == "struct" && /^[}]/ { within = "" }
within == "struct" && /^ *pub / {
    sub(/,$/, ""); name = $2; sub(/:$/, "", name)
    print of " field " ++n ": " name ": " number($3)
}

within == "function" && /^\)/ {
    answer = $0; sub(/^\) *-> */, "", answer); sub(/[ {]*$/, "", answer)
    print of " answers " struct_name(answer)
    within = ""
}
within == "function" && /: / {
    line = $0; sub(/^ */, "", line); sub(/,$/, "", line)
    name = line; sub(/:.*/, "", name)
    sub(/^[^:]*: */, "", line)
    parameter(name, line)
}
