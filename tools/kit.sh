#!/usr/bin/env bash
# Says whether the kit here is the one that this tree was proved with (kit.txt), and what another one may change.
set -eu
cd "$(dirname "$0")/.."
case $* in
    "") ;;
    --help | -h) echo "usage: kit.sh"; sed -n '2s/^# //p' tools/kit.sh; exit 0 ;;
    *) echo "usage: kit.sh" >&2; exit 2 ;;
esac
pinned=$(cat kit.txt) || exit 2
if ! command -v rt > /dev/null; then
    echo "kit: there is no rt on the path; this tree was proved with $pinned" >&2
    exit 2
fi
here=$(rt version)
if [ "$here" = "$pinned" ]; then
    echo "kit: $here, the one that this tree was proved with"
else
    echo "kit: DIFFERS, here is $here, but this tree was proved with $pinned"
    echo "kit: proofs that are good may then be refused, and times, sizes and stack may be others"
fi
