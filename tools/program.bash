# What tells whether the built program is right: sourced by ./flexplan and .ci/run, with `top` as the repository's folder.
# Beside the program stands a record: the sum of the program and of all that it was made from, and the toolchain's line.
# Contents count and times don't, so a copied tree is as good as the first one.
program="$top/crates/flexplan/out/flexplan"
record="$top/crates/flexplan/out/flexplan.record"

# The sum of the sources: code, definitions and the list of crates. Proofs leave the program as it is.
sources() {
    (cd "$top" && find crates.txt crates/*/src crates/*/specs -type f -print0 | LC_ALL=C sort -z | xargs -0 sha256sum | sha256sum)
}

# The record of the program as it stands, if it was made from these sources: its sum, theirs, and the toolchain's line.
record_of() {
    sha256sum <"$program" && echo "$1" && rt version
}

# Whether the program is the one that was made from the sources as they stand. Without `rt` any toolchain will do.
is_right() {
    [ -x "$program" ] && [ -r "$record" ] || return 1
    if command -v rt >/dev/null; then
        [ "$(record_of "$(sources)")" = "$(cat "$record")" ]
    else
        [ "$(record_of "$(sources)" 2>/dev/null)" = "$(head -n 2 "$record")" ]
    fi
}

# Notes that the program was just made from sources with this sum, unless they changed meanwhile.
note_made() {
    [ -x "$program" ] && [ "$(sources)" = "$1" ] && record_of "$1" >"$record"
}
