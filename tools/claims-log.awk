# What the log of a must-fail edit (tools/edit-logs) says: lines 'edit, kind, what', with tabs between. Kinds:
#   own    a law (`crates/CRATE/proofs/File.antt: name`) or a contract (`crate::module::function`) that is refused
#   after  a law that is not checked because one that it rests on was refused
#   void   why the edit shows nothing: its first error is about form and not a fact, or its check did not end
# In the log's order, each once.

function fact(kind, what) {
    if (!seen[kind, what]++) print edit "\t" kind "\t" what
}

# the code or a definition is not well-formed, or a proof names what is no longer there
function form(what) {
    if (!own++) fact("void", substr(what, 1, 200))
}

BEGIN {
    split(edit, part, "/") # crates/CRATE/must-fail/NAME.edit
    crate = part[2]
}

/^logic=/ {
    ended = 1
}

# a goal of the function whose line comes next
/^note: src\/[^ ]+:[0-9]+:[0-9]+: it is not proved that / {
    goals++
}

# what only calls a function that is refused has no goal or error of its own
/^fn [^ ]+: (not proved|no proof)/ {
    name = substr($2, 1, length($2) - 1)
    if (goals || wrong[name]) {
        own++
        fact("own", name)
    } else if ($3 == "not")
        form(name ": " unnamed[name])
    goals = 0
}

/^(\.\/)?[^ :]+:[0-9]+:[0-9]+: error/ {
    said = $0
    sub(/^\.\//, "", said)
    file = said
    sub(/:.*/, "", file)
    sub(/^[^ ]* error(\[[a-z-]*\])?: /, "", said)
    law = "crates/" crate "/" file ": "
    if (said ~ /^[0-9]+ declarations? that depends? on /) {
        sub(/.* not checked: /, "", said)
        gsub(/ \(via [^)]*\)/, "", said)
        n = split(said, names, /, /)
        for (i = 1; i <= n; i++) fact("after", law names[i])
        next
    }
    # a limit of the checker's, which says nothing of a fact
    if (said ~ /deep recursion: /) next
    unscoped = said ~ /not in scope|has no (field )?`/
    # a function's own proof
    if (file ~ /^proofs\/.*\//) {
        name = file
        sub(/\/[^\/]*$/, "", name)
        gsub("/", "::", name)
        sub(/^proofs/, crate, name)
        if (unscoped) unnamed[name] = said
        else wrong[name] = 1
    } else if (file ~ /^proofs\// && !unscoped && match(said, /^`[^`]+`: /)) {
        own++
        fact("own", law substr(said, 2, RLENGTH - 4))
    } else
        form(file ": " said)
}

END {
    if (!ended) fact("void", "its check did not end: " $0)
    else if (!own) fact("void", "its log has no error of its own")
}
