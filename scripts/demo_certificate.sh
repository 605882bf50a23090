#!/bin/sh
# A certificate of two dice, for `make demo`: written, verified, and checked by clients/check_steps.c where a C compiler is there.
set -eu
decl=$1
room=$(mktemp -d)
trap 'rm -rf "$room"' EXIT
echo 'agg Dice 2 claims dsev [1:6] fixed' > "$room/program"
set -x
"$decl" cert --log2 4 < "$room/program" > "$room/steps"
(cat "$room/program"; echo ---; cat "$room/steps") | "$decl" verify --log2 4
set +x
if command -v cc > /dev/null; then
    cc -std=c11 -O2 -o "$room/check_steps" clients/check_steps.c
    echo 'decl: the same steps and the plan in lines, to clients/check_steps.c, which shares nothing with decl:'
    (echo 'log2 4'; echo 'unit fixed 2 of 1:1 2:1 3:1 4:1 5:1 6:1'; echo ---; cat "$room/steps") | "$room/check_steps"
else
    echo 'decl: there is no C compiler for clients/check_steps.c'
fi
