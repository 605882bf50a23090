#!/usr/bin/env sh
# The lines of each crate as a table: of code (src), of definitions (specs) and of proofs, and how many lines of proof a line of
# code has. The last row adds up the crates without those of tests. docs/PROOFS.md, "Lines", is what it wrote.
set -u
cd "$(dirname "$0")/.." || exit 1

lines() { # FOLDER ENDING
    find "$1" -name "*.$2" -exec cat {} + 2>/dev/null | wc -l
}

row() { # NAME CODE DEFINITIONS PROOFS
    echo "| $1 | $2 | $3 | $4 | $(echo "$4 $2" | awk '{ printf "%.2f", $1 / $2 }') |"
}

echo '| Crate | Code | Definitions | Proofs | Proofs to code |'
echo '|---|---|---|---|---|'
all_code=0 all_definitions=0 all_proofs=0
for crate in $(sed -E 's/[:#].*//' crates.txt); do
    code=$(lines "crates/$crate/src" rt)
    definitions=$(lines "crates/$crate/specs" antt)
    proofs=$(lines "crates/$crate/proofs" antt)
    row "\`$crate\`" "$code" "$definitions" "$proofs"
    case $crate in *_tests) continue ;; esac
    all_code=$((all_code + code)) all_definitions=$((all_definitions + definitions)) all_proofs=$((all_proofs + proofs))
done
row 'all, without tests' "$all_code" "$all_definitions" "$all_proofs"
