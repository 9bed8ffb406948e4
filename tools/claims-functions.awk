# The functions of a source file, a line for each: its path, as crate::function, crate::module::function or
# crate::module::Type::function, and 'pub' where it is public.
FNR == 1 {
    path = FILENAME
    sub(/^crates\//, "", path)
    sub(/\.rt$/, "", path)
    sub(/\/src\//, "::", path)
    sub(/::(lib|main)$/, "", path)
    gsub("/", "::", path)
    type = ""
}
/^impl/ && match($0, /^impl(<[^>]*>)? ([^{]* for )?[A-Za-z0-9_]+/) {
    type = substr($0, RSTART, RLENGTH)
    sub(/.* /, "", type)
    type = type "::"
}
/^}/ { type = "" }
match($0, /^ *(pub )?(extern "C" )?fn [a-z0-9_]+/) {
    name = substr($0, RSTART, RLENGTH)
    public = name ~ /^ *pub / ? " pub" : ""
    sub(/.* /, "", name)
    print path "::" type name public
}
