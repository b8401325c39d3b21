#!/usr/bin/env bash
# Runs the listing program on each session of a folder (tests/sessions) and compares what it prints, byte for byte; then on a session of over
# 128 KiB and on one that comes in small pieces (tests/pieces.py).
#
#   tests/sessions.sh [FOLDER]
set -euo pipefail
root=$(cd "$(dirname "$0")/.." && pwd)
folder=${1:-$root/tests/sessions}
program=$root/crates/listing/out/listing
[ -x "$program" ] || { echo "sessions: there is no $program; make it with '(cd crates/listing && rt run < stdin)'"; exit 1; }
count=0
for input in "$folder"/*.in; do
    "$program" < "$input" | cmp - "${input%.in}.out" || { echo "sessions: $input is answered otherwise"; exit 1; }
    count=$((count + 1))
done
echo "sessions: $count printed as expected"
python3 "$root/tests/pieces.py" "$program" "$folder"
