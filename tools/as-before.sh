# For ./avida and tools/built-program, which read this: whether all is as it was when the checksums were made.

# Nothing of the repository in the folder $1 has a later time than when tools/built-program last looked at the checksums
# for the program $2, and $found is what they said then. The file $2.look has this word, the name of a file from then,
# and the command that lists that file and all others, the latest first.
is_as_before() {
    [ -f "$1/$2.look" ] && read -r _ found looked <"$1/$2.look" && (cd "$1/crates" && . "../$2.look") 2>&1 | {
        read -r latest
        [ "$latest" = "$looked" ]
    }
}
