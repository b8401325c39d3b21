#!/usr/bin/env bash
# Runs the program dial on each input of tests/digits and compares what it prints, byte for byte.
set -eu
root=$(cd "$(dirname "$0")/.." && pwd)
program=$root/crates/dial/out/dial
[ -x "$program" ] || { echo "digits: there is no $program; make it with '(cd crates/dial && rt run < stdin)'"; exit 1; }
count=0
for input in "$root"/tests/digits/*.in; do
    "$program" < "$input" | cmp - "${input%.in}.out" || { echo "digits: $input is answered otherwise"; exit 1; }
    count=$((count + 1))
done
echo "digits: $count printed as expected"
