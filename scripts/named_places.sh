#!/usr/bin/env sh
# Checks that what the pages name is there: files of a crate ('dl_x/src/y.rt' stands for crates/dl_x/src/y.rt), other files of the
# repository, laws ('law_x' is a function), definitions ('IsX' stands in the specs/ of a crate), and that each crate has its line in
# docs/ARCHITECTURE.md and docs/PROOFS.md, there only crates below it that crates.txt names too, and in the drawing a line above those of
# the crates that it stands on. A kind of name of which none is found fails too. The last line is 'N passed, M failed'.
set -u
cd "$(dirname "$0")/.." || exit 1
passed=0
failed=0
pages="README.md CONTRIBUTING.md CHANGELOG.md $(ls docs/*.md clients/*/README.md)"

# is_there WHAT TEST..: counts a thing that the test finds, and tells one that it does not
is_there() {
    what=$1
    shift
    if "$@" > /dev/null 2>&1; then
        passed=$((passed + 1))
    else
        failed=$((failed + 1))
        echo "FAILED: the pages name $what, and it is not there"
    fi
}

# named PATTERN: what the pages name by it, once each; a name with a star in it stands for several
named() {
    sed 's/[^ ]*\*[^ ]*//g' $pages | grep -oE "(^|[^/[:alnum:]_.-])$1" | sed 's/^[^[:alnum:]]//' | sort -u
}

# has LIST NAME: whether the name stands in the list, between two blanks
has() {
    case $1 in *" $2 "*) ;; *) return 1 ;; esac
}

# some KIND NAMES: the names, and a failure where there are none
some() {
    if [ -z "$2" ]; then
        failed=$((failed + 1))
        echo "FAILED: the pages name no $1"
    fi
    names=$2
}

some "file of a crate" "$(named 'dl_[a-z]+/(src|specs|proofs|must-fail)/[A-Za-z0-9_/]+\.(rt|antt|edit)')"
for place in $names; do
    is_there "$place" test -f "crates/$place"
done
some "file of the repository" "$(named '(docs|bench|scripts|clients|examples|share)/[A-Za-z0-9_./-]*[A-Za-z0-9]')"
for place in $names; do
    is_there "$place" test -e "$place"
done
some law "$(grep -ohE '\blaw_[a-z_]+' $pages | sort -u)"
laws=$(grep -rohE '\bfn law_[a-z_]+[(<]' crates/*/src --include=*.rt | sed 's/^fn \(.*\)[(<]$/ \1 /' | sort -u)
for law in $names; do
    is_there "$law" has "$laws" "$law"
done
some definition "$(grep -ohE '`(Is|Are|Has|Holds|Declares)[A-Za-z]*' docs/DEFINITIONS.md docs/PROOFS.md | tr -d '`' | sort -u)"
words=$(grep -rohE '\b(Is|Are|Has|Holds|Declares)[A-Za-z]*\b' crates/*/specs --include=*.antt | sort -u | sed 's/.*/ & /')
for word in $names; do
    is_there "$word" has "$words" "$word"
done
some crate "$(sed -n 's/^\([a-z_]*\)[^:#]*:.*/\1/p' crates.txt)"
for crate in $names; do
    is_there "the map's row of $crate" grep -q "^| \`$crate\` |" docs/ARCHITECTURE.md
    is_there "what is proved of $crate" grep -qE "^(### |- )?\`$crate\`" docs/PROOFS.md
    for other in $(sed -n "s/^| \`$crate\` | .* | \(.*\) |\$/\1/p" docs/ARCHITECTURE.md | tr -d '`,'); do
        is_there "$other below $crate in crates.txt" test -n "$(sed -n "s/^$crate:\(.* $other\b\)/\1/p" crates.txt)"
    done
done
# layer CRATE: the line of the crate in the drawing of the layers
layer() {
    sed -nE "s/^ +([0-9]+)  (.*[^a-z_])?$1([^a-z_].*)?\$/\1/p" docs/ARCHITECTURE.md
}

# above CRATE OTHER: whether the crate has one line, above that of the other
above() {
    [ "$(layer "$1")" -gt "$(layer "$2")" ]
}

some "crate on another" "$(sed -n 's/^\([a-z_]*\):/\1/p' crates.txt | grep -v '^[a-z_]*_tests ' | tr ' ' '~')"
for line in $names; do
    crate=${line%%~*}
    [ "$crate" = "$line" ] && continue
    for other in $(echo "${line#*~}" | tr '~' '\n' | grep '^dl_'); do
        is_there "$crate above $other in the drawing" above "$crate" "$other"
    done
done
# what stands on the lexer, one on another, as crates.txt says; and as docs/ARCHITECTURE.md does
above_lexer=$(awk -F: '/^[a-z]/ && $1 !~ /_tests$/ {
    count = split($2, below, " ")
    for (i = 1; i <= count; i++) if (below[i] == "dl_lexer" || below[i] in above) above[$1]
    if ($1 in above) print $1
}' crates.txt | sort)
told=$(sed -n '/^On the lexer stand/,/:/p' docs/ARCHITECTURE.md | sed 's/:.*//' | grep -oE '`[a-z_]+`' | tr -d '`' | sort)
is_there "each crate above the lexer, and no other" test "$above_lexer" = "$told"
echo "$passed passed, $failed failed"
[ "$failed" -eq 0 ]
