# What rt ci or rt must-fail says of the must-fail edits, a line for each: lines as tools/claims-log.awk prints, of the first
# failure alone. Run at the top of the repository, where a place in the code tells the function.

function fact(kind, what) {
    print edit "\t" kind "\t" what
}

# The function that stands at this line of a crate's file, or begins there with an attribute.
function at(path, number,    line, count, name, module, type) {
    path = "crates/" crate "/" path
    while ((count++ < number || line ~ /^ *#\[/) && (getline line <path) > 0) {
        if (line ~ /^}/) type = ""
        if (match(line, /^impl(<[^>]*>)? ([^{]* for )?[A-Za-z0-9_]+/)) {
            type = substr(line, RSTART, RLENGTH)
            sub(/.* /, "", type)
            type = type "::"
        }
        if (match(line, /^ *(pub )?(extern "C" )?fn [a-z0-9_]+/)) {
            name = substr(line, RSTART, RLENGTH)
            sub(/.* /, "", name)
            name = type name
        }
    }
    close(path)
    module = path
    sub(/.*\/src\//, "", module)
    sub(/\.rt$/, "", module)
    gsub("/", "::", module)
    return crate "::" (module ~ /^(lib|main)$/ ? "" : module "::") name
}

/^rt: must-fail [^ ]+\/[^ ]+\.edit: / {
    split(substr($3, 1, length($3) - 1), part, "/")
    crate = part[1]
    edit = "crates/" crate "/must-fail/" part[2]
    said = substr($0, index($0, ".edit: ") + 7)
    if (said !~ /^refused, as it must be( \(only by a limit [^)]*\))?: /) {
        fact("void", substr(said, 1, 200))
        next
    }
    sub(/^refused, as it must be( \([^)]*\))?: (note: )?(\.\/)?/, "", said)
    split(said, place, ":")
    file = place[1]
    if (file ~ /^proofs\/.*\//) {
        sub(/\/[^\/]*$/, "", file)
        gsub("/", "::", file)
        sub(/^proofs/, crate, file)
        fact("own", file)
    } else if (file ~ /^proofs\// && match(said, /error: `[^`]+`: /))
        fact("own", "crates/" crate "/" file ": " substr(said, RSTART + 8, RLENGTH - 11))
    else if (file ~ /^src\// && said ~ /it is not proved that |`search` found no proof/)
        fact("own", at(file, place[2]))
    else
        fact("void", substr(said, 1, 200))
}
