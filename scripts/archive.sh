#!/usr/bin/env bash
# Builds the archives that C and Rust link, from the crates whose functions are exported.
set -euo pipefail
script='archive'
root=$(cd "$(dirname "$0")/.." && pwd)
. "$root/scripts/common.sh"

usage() {
    cat <<'end'
usage: bash scripts/archive.sh NAME..

Builds target/staticlib/libNAME.a from the crate NAME_c, whose functions are exported for C: splinepearl, the
library, or test_readers, the readers for the tests alone. Before that it proves what has changed. Progress
goes to standard error.

Exit status: 0 built; 2 wrong use, or a build that failed.
end
}

case ${1-} in
-h | --help)
    usage
    exit
    ;;
-*) fail "unknown option $1; see --help" ;;
esac
[ $# -gt 0 ] || fail "which archive? see --help"
for name; do
    if [[ ! $name =~ ^[a-z0-9_]+$ ]] || [ ! -d "$root/crates/${name}_c" ]; then
        fail "there is no crate ${name}_c; see --help"
    fi
done
command -v rt > /dev/null || fail "rt, of the Rattle toolchain, is not on the path"
check_kit
log=$(mktemp)
trap 'rm -f "$log"' EXIT
mkdir -p "$root/target/staticlib"
for name; do
    (cd "$root/crates/${name}_c" && rt lib 2>&1) | progress "$(crates_for "${name}_c")" > "$log" || {
        cat "$log" >&2
        fail "lib$name.a could not be built"
    }
    cp "$root/crates/${name}_c/out/lib${name}_c.a" "$root/target/staticlib/lib$name.a"
done
