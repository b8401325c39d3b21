#!/usr/bin/env bash
# Builds and runs the examples, in C, C++ and Rust, and compares what they print with expected.txt.
# The archive is CORDAFINA_LIB (a path that is not absolute starts at the top folder of the repository), or
# crates/cordafina/out/libcordafina.a.
set -eu
cd "$(dirname "$0")/.."
archive=$(realpath -m "${CORDAFINA_LIB:-crates/cordafina/out/libcordafina.a}")
export CORDAFINA_LIB=$archive
if [ ! -f "$archive" ]; then
    echo "examples: FAILED, there is no archive at $archive"
    echo "make it with '(cd crates/cordafina && rt lib)' (README.md says how long that takes), or name one in CORDAFINA_LIB"
    exit 1
fi
out=$(mktemp -d)
trap 'rm -rf "$out"' EXIT

warnings="-Wall -Wextra -Wconversion -pedantic -Werror"
cc -std=c99 -O2 $warnings -I include examples/c/call.c "$archive" -o "$out/c"
"$out/c" > "$out/c.txt"
cmp "$out/c.txt" examples/expected.txt
echo "examples: C prints what is expected"

if command -v c++ > /dev/null; then
    c++ -std=c++11 -O2 $warnings -I include examples/cpp/call.cpp "$archive" -o "$out/cpp"
    "$out/cpp" > "$out/cpp.txt"
    cmp "$out/cpp.txt" examples/expected.txt
    echo "examples: C++ prints what is expected"
else
    echo "examples: there is no C++ compiler here, C++ was not tried"
fi

cargo run -q -j1 --release --offline --manifest-path rust/Cargo.toml -p call > "$out/rust.txt"
cmp "$out/rust.txt" examples/expected.txt
echo "examples: Rust prints what is expected"

# Each header by itself, and the digit maps' without the other.
for header in cordafina.h cordafina_digit_maps.h; do
    cc -std=c99 $warnings -x c -fsyntax-only "include/$header"
done

# The archive has the functions that the headers declare and no others, and asks for nothing but memory functions.
declared=$(grep -ohE '^uint(32|64)_t cordafina_[a-z_]+\(' include/*.h | sed 's/.* //; s/(//' | sort)
defined=$(nm -g --defined-only "$archive" | sed -n 's/.* T //p' | sort)
wanted=$(nm -u "$archive" | sed -n 's/^ *U //p' | sort -u | grep -vxE 'mem(set|cpy|move|cmp)|bcmp' || true)
if [ "$declared" != "$defined" ] || [ -n "$wanted" ]; then
    echo "examples: FAILED, the headers declare" $declared "and the archive has" $defined "and wants" $wanted
    exit 1
fi
echo "examples: the archive has the" $(echo "$declared" | wc -l) "functions that the headers declare"

# Who hears whom, packets with their figures, and kept replies, as the header shows them.
for test in flows packets room; do
    cc -std=c99 -O2 $warnings -I include "tests/$test.c" "$archive" -o "$out/$test"
    "$out/$test"
    if command -v c++ > /dev/null; then
        c++ -std=c++11 -O2 $warnings -I include -x c++ "tests/$test.c" -x none "$archive" -o "$out/$test"
        "$out/$test"
    fi
done

# Stack: held to what the headers say.
cc -std=c99 -O2 $warnings -I include tests/stack.c "$archive" -o "$out/stack"
"$out/stack" rust/bench/mix tests/sessions/*.in
