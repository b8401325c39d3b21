#!/usr/bin/env bash
# The tests beside the proofs: tools, names in the documents, unit tests, documentation without an archive, examples, the reference's examples, listing sessions,
# differential tests of the calls, the map of the ephemerals, the contexts, packets and rows, demand 3 on the compiled library, README.md's commands.
# Ends with status 0 only if all of them passed. docs/TESTING.md says what each is.
#
#   tests/run.sh                      the short form, some minutes
#   tests/run.sh --long               the long form
#   tests/run.sh --allow-no-archive   where there is no archive: the reference's tests alone, and the note 'no archive yet'
#
# The archive is the file that CORDAFINA_LIB names (a path that is not absolute starts at the top folder of the repository), or
# crates/cordafina/out/libcordafina.a. SEED (default 1) is that of the generated calls.
set -euo pipefail
cd "$(dirname "$0")/.."
archive=$(realpath -m "${CORDAFINA_LIB:-crates/cordafina/out/libcordafina.a}")
export CORDAFINA_LIB=$archive
seed=${SEED:-1}
calls=200000
maps=200000
contexts=100000
packets=100000
rows=50000
pairs=20000
long=no
allow=no
for option in "$@"; do
    case $option in
        --long) long=yes calls=2000000 contexts=1000000 packets=1000000 rows=500000 pairs=200000 ;;
        --allow-no-archive) allow=yes ;;
        *) sed -n '2,11s/^# \{0,1\}//p' tests/run.sh >&2; exit 2 ;;
    esac
done

step() { # step NAME COMMAND..: runs the command, and says how long it took or that it failed
    local name=$1 start=$SECONDS
    shift
    echo "== $name"
    "$@" || { echo "tests: FAILED at $name"; exit 1; }
    echo "== $name: passed in $((SECONDS - start)) s"
}
rust() { cargo "$1" -q -j1 --release --offline --manifest-path rust/Cargo.toml "${@:2}"; }
without_archive() ( # a clone can be read and checked before anything is proved; what is linked says what is missing
    export CARGO_TARGET_DIR=rust/target/without-archive CORDAFINA_LIB=rust/target/no.a RUSTDOCFLAGS="-D warnings"
    rust doc --no-deps -p cordafina || exit 1
    rust check --workspace --all-targets || exit 1
    output=$(rust build -p call 2>&1) && { echo "a program was linked without the archive"; exit 1; }
    [[ $output == *cordafina_is_missing__make_it_with__rt_lib_in_crates_cordafina* ]] || { echo "$output"; exit 1; }
)

if [ ! -f "$archive" ]; then
    if [ $allow = no ]; then
        echo "tests: FAILED, there is no archive at $archive; make it with '(cd crates/cordafina && rt lib)'"
        exit 1
    fi
    step "unit tests of the reference" rust test -p reference
    echo "no archive yet: nothing that links it was tested"
    exit 0
fi

step "tools" python3 tests/tools.py
step "names in the documents" python3 tools/names.py
step "build" rust build --workspace
step "unit tests" rust test --workspace
step "no archive" without_archive
step "examples" bash examples/run.sh
step "reference" python3 tools/reference.py
step "listing sessions" bash tests/sessions.sh
step "digit maps" bash tests/digits.sh
step "differential test, $calls calls" rust run -p differential -- calls "$seed" $calls
step "map of the ephemerals, $maps maps" rust run -p differential -- maps "$seed" $maps
step "contexts as text, $contexts tables" rust run -p differential -- contexts "$seed" $contexts
step "$packets packets" rust run -p differential -- packets "$seed" $packets
step "$rows rows of tables" rust run -p differential -- rows "$seed" $rows
step "demand 3, $pairs pairs" rust run -p differential -- pairs "$seed" $pairs
step "commands of README.md" python3 tests/readme.py
if [ $long = yes ]; then
    step "out of range, 20000 calls under a memory checker" \
        valgrind -q --error-exitcode=9 rust/target/release/differential calls "$seed" 20000 exact
fi
echo "tests: passed"
