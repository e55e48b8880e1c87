#!/usr/bin/env bash
# All tests. The documents come first, which takes seconds. Then `rt ci` checks the proofs, the deliberately wrong versions and the stored
# runs; what needs no proof runs beside it. The rest works on the library, built of what was just proved, and on the program that `rt ci`
# has built. The last line of `rt ci` is held back until all else has passed.
set -euo pipefail
script='test'
cd "$(dirname "$0")"
root=$PWD
. scripts/common.sh

usage() {
    cat <<'end'
usage: bash test.sh

Runs everything: looks up what the documents name; proves every crate, checks that each deliberately
wrong version is rejected, and runs the stored cases. Then it compares an independent Rust
implementation with the proved library on stored and random inputs, links the library from C and Rust,
and runs the desk program, the scripts and the tools. The first run on a machine takes hours of
processor time; rt keeps what it has proved, and a later run proves what has changed. Progress goes to
standard error.

The last line is `N passed, 0 failed` exactly when everything has passed.

Exit status: 0 everything passed; 2 wrong use, or a command is missing; any other: something failed.
end
}

case ${1-} in
-h | --help)
    usage
    exit
    ;;
esac
[ $# -eq 0 ] || fail "takes no arguments; see --help"
for command in rt cargo cc git python3; do
    command -v $command > /dev/null || fail "$command is not on the path"
done
check_kit

independent() {
    SPLINEPEARL_LIBS="$root/target/staticlib" cargo run --quiet --offline --locked --release --manifest-path compare/Cargo.toml "$@"
}

note "the documents"
python3 tools/check-docs.py
python3 tools/figures.py --check
python3 tools/yardstick.py --check

# What needs nothing that is proved. It fills the time in which rt waits for the slowest of its checks.
beside() {
    set -e
    note "the independent implementation on its stored cases"
    cargo test --quiet --offline --locked --manifest-path compare/Cargo.toml
    independent -- cases
    note "the tools and the stored runs"
    python3 tools/test_check_docs.py
    python3 tools/test_caa_files.py
    python3 crates/test_runs/make.py --check
}

said=$(mktemp)
said_beside=$(mktemp)
beside > "$said_beside" 2>&1 &
beside=$!
trap 'kill "$beside" 2> /dev/null || :; rm -f "$said" "$said_beside"' EXIT
crates=$(crates_for "")
edits=$(find crates -path '*/must-fail/*.edit' | wc -l)
note "proving $crates crates and trying $edits wrong versions; what rt has kept of an earlier run it takes from there"
rt ci 2>&1 | tee "$said" | progress "$crates" "$edits" | sed '$d' || { tail -n 1 "$said"; exit 1; }
# A wrong version that doesn't fit the code shows nothing, and `rt ci` passes over it.
if grep -qE '^rt: ok.*, [0-9]+ bad' "$said"; then
    note "a wrong version couldn't be tried; rt ci says BAD EDIT of it"
    exit 1
fi

wait "$beside" || { cat "$said_beside"; note "the tests beside the proofs have failed"; exit 1; }
cat "$said_beside"
bash scripts/archive.sh test_readers splinepearl

# On one processor the library against the independent implementation, on the other all that is left.
compared() {
    set -e
    note "the library against the independent implementation"
    independent --features readers,judge,list,lines,session -- library
}
compared > "$said_beside" 2>&1 &
beside=$!
note "linking"
bash examples/link.sh
note "the desk program and the scripts"
bash desk-runs/test.sh
note "the frauds that a reader tries"
python3 tools/test_try_fraud.py
wait "$beside" || { cat "$said_beside"; note "the comparison has failed"; exit 1; }
cat "$said_beside"

tail -n 1 "$said"
