# Holds the tables of docs/CLAIMS.md to what tools/claims-log.awk found; with `--print` prints for each edit what its
# row is to say. A cell 'Fails at' has
#   the laws that the row's edits break of themselves, all of them and no other;
#   after 'and so' laws that fall with those, demand 3 among them if it does;
#   the contracts that the row's edits break of themselves, all and no other.
# A row of the table by contract has edits whose first error is in that contract's proof.

BEGIN {
    FS = "\t"
    home = "crates/gmch/proofs/"
    demand3 = home "Theorem.antt: demand3"
}

function fault(text) {
    print claims ":" FNR ": " text
}

# ---- the facts: own[edit] and after[edit] are lists with tabs between
FNR == NR {
    if (!($1 in known)) order[++edits] = $1
    known[$1] = 1
    if ($2 == "void") void[$1] = $3
    if ($2 == "own") own[$1] = own[$1] "\t" $3
    if ($2 == "after") after[$1] = after[$1] "\t" $3
    next
}

function has(list, item) {
    return index(list "\t", "\t" item "\t") > 0
}

function united(list, more,    parts, n, i) {
    n = split(substr(more, 2), parts, "\t")
    for (i = 1; i <= n; i++) if (!has(list, parts[i])) list = list "\t" parts[i]
    return list
}

function within(list, other,    parts, n, i) {
    n = split(substr(list, 2), parts, "\t")
    for (i = 1; i <= n; i++) if (!has(other, parts[i])) return 0
    return 1
}

# `File.antt: name, name`, `File.antt: name` for laws, or `crate::function`, `crate::function` for contracts
function words(list, contracts,    parts, n, i, file, name, text, last) {
    n = split(substr(list, 2), parts, "\t")
    for (i = 1; i <= n; i++) {
        if ((parts[i] ~ /::/) != contracts) continue
        file = parts[i]
        sub("^" home, "", file)
        name = file
        sub(/: .*/, "", file)
        sub(/^[^ ]*: /, "", name)
        if (!contracts && file == last) text = text ", " name
        else text = text (text == "" ? "`" : "`, `") (contracts ? parts[i] : file ": " name)
        last = file
    }
    return text (text == "" ? "" : "`")
}

# what stands in 'Fails at' for these failures
function cell(mine, then,    contracts, text) {
    text = words(mine, 0)
    contracts = words(mine, 1)
    if (has(then, demand3)) text = text (text == "" ? "" : ", ") "and so " words("\t" demand3, 0)
    if (contracts != "") text = text (text == "" ? "" : "; ") "contract " contracts
    return text
}

mode ~ /--print/ {
    exit
}

# ---- the tables
/^## / {
    section = ""
}
/^## Models that must not pass/ {
    section = "D"
}
/^## Edits of the code, by contract/ {
    section = "C"
}

section == "D" && /^\|.*\.edit/ {
    n = split($0, column, "|")
    row_own = row_after = nothing = ""
    text = $0
    while (match(text, /crates\/[^` ]*\.edit/)) {
        edit = substr(text, RSTART, RLENGTH)
        text = substr(text, RSTART + RLENGTH)
        named[edit] = 1
        if (edit in void) nothing = nothing edit
        row_own = united(row_own, own[edit])
        row_after = united(row_after, after[edit])
    }
    # the names of the cell
    said_own = said_after = ""
    so = 0
    text = column[n - 1]
    while (match(text, /`[^`]*`/)) {
        before = substr(text, 1, RSTART - 1)
        item = substr(text, RSTART + 1, RLENGTH - 2)
        text = substr(text, RSTART + RLENGTH)
        if (before ~ /;/) so = 0
        if (before ~ /and so/) so = 1
        if (item ~ /::/) {
            said_own = said_own "\t" item
            continue
        }
        file = item
        sub(/: .*/, "", file)
        sub(/^[^ ]*: /, "", item)
        if (file !~ /\//) file = home file
        k = split(item, names, /, */)
        for (i = 1; i <= k; i++)
            if (so) said_after = said_after "\t" file ": " names[i]
            else said_own = said_own "\t" file ": " names[i]
    }
    wanted = cell(row_own, row_after)
    if (nothing == "" && !(within(said_own, row_own) && within(row_own, said_own) && within(said_after, row_after) \
        && (has(said_after, demand3) || !has(row_after, demand3))))
        fault("'Fails at' is to be: " wanted)
    fallen = row_own row_after
    if (column[n - 1] ~ /Demand 3 still holds/ && has(fallen, demand3)) fault("demand 3 does not hold of it by the log")
    if (column[n - 1] ~ /examples still hold/ && index(fallen, home "Examples.antt:")) fault("the examples do not hold of it by the log")
}

section == "C" && /^\|.*\.edit/ {
    match($0, /`[^`]*`/)
    contract = substr($0, RSTART + 1, RLENGTH - 2)
    crate = contract
    sub(/::.*/, "", crate)
    text = substr($0, RSTART + RLENGTH)
    while (match(text, /`[^`]*\.edit`/)) {
        name = substr(text, RSTART + 1, RLENGTH - 2)
        edit = "crates/" crate "/must-fail/" name
        text = substr(text, RSTART + RLENGTH)
        if (edit in void || !(edit in known)) continue
        split(substr(own[edit], 2), first, "\t")
        if (first[1] != contract) fault(name " is to stand at `" first[1] "` and not at `" contract "`")
    }
}

END {
    for (i = 1; i <= edits; i++) {
        edit = order[i]
        if (mode ~ /--print/) print edit "\t" ((edit in void) ? "SHOWS NOTHING: " void[edit] : cell(own[edit], after[edit]))
        else if (edit in void) print claims ": " edit " shows nothing: " void[edit]
    }
}
