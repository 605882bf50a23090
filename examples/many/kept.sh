# What the scripts here know of kept rows, to be sourced. OUT/rows/NAME.sha256 has two SHA-256 in one line: of the text that was
# evaluated, and of its rows in OUT/rows/NAME.csv.

# Puts the SHA-256 of each file into the variable `sums`, with blanks between: sums_of FILE..
# Status 1 where a file has none, because it cannot be read.
sums_of() {
    local line
    sums=
    while IFS= read -r -d '' line; do
        sums+=${sums:+ }${line:0:64}
    done < <(sha256sum -z -- "$@")
    [ "${#sums}" -eq $((65 * $# - 1)) ]
}

# Whether OUT has the rows of FOLDER/NAME.decl as its text is now, and COPY, if given, is a copy of them:
# has_rows FOLDER OUT NAME [COPY]
has_rows() {
    local rows=$2/rows/$3 kept sums
    [ -e "$rows.csv" ] && [ -e "$rows.sha256" ] && read -r kept < "$rows.sha256" &&
        sums_of "$1/$3.decl" "${4:-$rows.csv}" && [ "$sums" = "$kept" ]
}
