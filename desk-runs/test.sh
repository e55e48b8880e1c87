#!/usr/bin/env bash
# Runs the desk program, and the scripts around it, and checks what they print and their exit statuses.
set -euf
script='desk-runs'
here=$(cd "$(dirname "$0")" && pwd)
root=$(cd "$here/.." && pwd)
. "$root/scripts/common.sh"

usage() {
    cat <<'end'
usage: bash desk-runs/test.sh [PROGRAM]

Runs PROGRAM (crates/desk/out/desk, which `rt ci` builds, and `rt run` in crates/desk) on folders made
here, and checks each line against the one that the requirements give. Then checks the exit statuses of
examples/run.sh, and what every script does with --help and with unknown arguments. Takes about 15
seconds.

Exit status: 0 all as expected; 1 a run failed; 2 wrong use, or no program.
end
}

case ${1-} in
-h | --help)
    usage
    exit
    ;;
-*) fail "unknown option $1; see --help" ;;
esac
[ $# -le 1 ] || fail "one program at most; see --help"
program=${1-$root/crates/desk/out/desk}
if [ ! -f "$program" ] || [ ! -x "$program" ]; then
    fail "there is no program $program; run first, in $root/crates/desk: rt run"
fi
program=$(realpath "$program")
whole=$root/examples/whole-case
scratch=$(mktemp -d)
trap 'rm -rf "$scratch"' EXIT
runs=0
failures=0

# begin TITLE: a new folder to change, with a good request, issuer name, account and method and an empty book, and so `verdict 0`
begin() {
    title=$1
    rm -rf "$scratch/folder"
    mkdir "$scratch/folder"
    cd "$scratch/folder"
    name www.example.com > request.bin
    printf %s ca1.example.net > issuer.txt
    printf %s https://ca1.example.net/acct/230123 > account.txt
    printf %s dns-01 > method.txt
    : > book.bin
}

# expect LINE: what the program has to write, to the octet, with its line end
expect() {
    runs=$((runs + 1))
    printf '%s\n' "$1" > "$scratch/expected"
    timeout 20 "$program" > "$scratch/written" || echo "(exit status $?)" >> "$scratch/written"
    cmp -s "$scratch/expected" "$scratch/written" && return
    failed "$1" "$(tr '\0\n' '?$' < "$scratch/written" | head -c 200)"
}

# failed EXPECTED WRITTEN: counts and tells a failure
failed() {
    failures=$((failures + 1))
    echo "FAILED: $title" >&2
    echo "    expected: $1" >&2
    echo "    written:  $2" >&2
}

# octets N..: an octet for each number
octets() {
    local n escape
    for n; do
        printf -v escape '\\x%02x' "$n"
        printf "$escape"
    done
}

# two N: a number of two octets, the high one first
two() { octets $(($1 / 256)) $(($1 % 256)); }

# repeated N COMMAND..: what the command writes, N times
repeated() {
    local n=$1
    shift
    while [ "$n" -gt 0 ]; do "$@"; n=$((n - 1)); done
}

# letters N: N letters, at most 100,000
many=$(head -c 100000 /dev/zero | tr '\0' a)
letters() { printf %s "${many:0:$1}"; }

# label N: a label of N letters behind its length octet
label() { octets "$1"; letters "$1"; }

# labels N..: a name with such labels, and the closing zero
labels() {
    local n
    for n; do label "$n"; done
    octets 0
}

# name TEXT: labels joined by dots as a name in wire form
name() {
    local IFS=. l
    for l in $1; do octets ${#l}; printf %s "$l"; done
    octets 0
}

# fields TYPE LENGTH: what stands between a record's owner and its data: type, class 1, time to live, data length
fields() { two "$1"; two 1; two 0; two 3600; two "$2"; }

# caa OWNER FLAGS TAG VALUE: a CAA record
caa() { name "$1"; fields 257 $((2 + ${#3} + ${#4})); octets "$2" ${#3}; printf %s "$3$4"; }

# cname OWNER TARGET: a CNAME record. In wire form a name has two octets more than its text, and the root has one
cname() {
    local length=1
    [ -z "$2" ] || length=$((${#2} + 2))
    name "$1"
    fields 5 $length
    name "$2"
}

# chain N: N aliases, from www.example.com to t1, from t1 to t2, and so on
chain() {
    local k=1 owner=www.example.com
    while [ "$k" -le "$1" ]; do cname "$owner" "t$k"; owner=t$k; k=$((k + 1)); done
}

# other: a record of 11 octets that is no CAA record: owner the root, type 1, no data
other() { octets 0; fields 1 0; }

. "$here/files.sh"
. "$here/edges.sh"
. "$here/aliases.sh"
. "$here/up.sh"
. "$here/statuses.sh"

echo "desk: $runs runs, $failures failed"
[ "$failures" -eq 0 ]
