#!/usr/bin/env bash
# Judges a folder with the desk program, prints its line, and turns it into an exit status.
set -euo pipefail
# Every way out that is no decision has status 2.
status=2
log=''
trap 'rm -f "$log"; exit "$status"' EXIT
trap '' PIPE
script='run'
root=$(cd "$(dirname "$0")/.." && pwd)
. "$root/scripts/common.sh"

usage() {
    cat <<'end'
usage: bash examples/run.sh [FOLDER]

Judges request.bin, issuer.txt, account.txt, method.txt and book.bin in FOLDER with the desk program, and
prints the program's line. Without FOLDER it judges examples/whole-case. Before that it proves and builds
what has changed: the first time that takes minutes, after that seconds. Progress goes to standard error.

Exit status: 0 permitted; 1 not permitted; 2 anything else: refused, no book, a folder that can't be
entered, a failed build, a line that isn't known, output that can't be written.
end
}

case ${1-} in
-h | --help)
    usage
    status=0
    exit
    ;;
-*) fail "unknown option $1; see --help" ;;
esac
[ $# -le 1 ] || fail "one folder at most; see --help"
folder=${1-$root/examples/whole-case}
# `cd ''` would stay where it is.
[ -n "$folder" ] || fail "the folder's name is empty"
enter_folder() { CDPATH='' cd -- "$folder" > /dev/null; }
(enter_folder) || fail "can't enter the folder $folder"

command -v rt > /dev/null || fail "rt, of the Rattle toolchain, is not on the path"
check_kit
[ -f "$root/crates/desk/out/desk" ] || note "proving and building the desk program; the first time this takes some minutes"
log=$(mktemp)
# What rt says goes to standard error. It also runs the program, in crates/desk, where there is no book.
(cd "$root/crates/desk" && rt run 2>&1 > /dev/null < /dev/null) | progress "$(crates_for desk)" > "$log" || {
    cat "$log" >&2
    fail "the desk program could not be built"
}

line=$(enter_folder && exec "$root/crates/desk/out/desk") || fail "the desk program failed"
printf '%s\n' "$line" || fail "the line could not be written"
case $line in
'verdict 0') status=0 ;;
'verdict '[1-9]*) status=1 ;;
esac
