#!/usr/bin/env bash
# The night run: the library next to an ordinary Rust program, and next to Go where it is installed.
set -eu
script='night'
root=$(cd "$(dirname "$0")/.." && pwd)
. "$root/scripts/common.sh"

usage() {
    cat <<'end'
usage: bash compare/night.sh [--go] [LIBS]

Measures 200 names of three labels over a full book, in five shapes, and all other loads beside them: the
library next to the yardstick of compare/src/bench/yardstick.rs, both built with --release, in one run.
Then the five shapes with Go's miekg/dns, where it is installed. Prints tables in Markdown. Takes about
three minutes. Nothing passes or fails by speed; do nothing else on the machine meanwhile.

LIBS is the folder of libsplinepearl.a. Without it the library is proved and built first.

  --go     Go alone. It is in Debian's packages golang-go and golang-github-miekg-dns-dev.

Exit status: 0 measured; 1 answers differ, or a load is not as it has to be; 2 wrong use, no library, or
with --go no Go. Without --go it is no error that Go is missing; the output says so. A compiler that
fails ends this with its own status.
end
}

only_go=no
case ${1-} in
-h | --help)
    usage
    exit
    ;;
--go)
    only_go=yes
    shift
    ;;
-*) fail "unknown option $1; see --help" ;;
esac
[ $# -le 1 ] || fail "one folder at most; see --help"
[ $# -eq 0 ] || [ -f "$1/libsplinepearl.a" ] || fail "there is no library $1/libsplinepearl.a; run first, in $root: bash scripts/archive.sh splinepearl"

# why_no_go: what is missing for Go, or nothing
sources=/usr/share/gocode
why_no_go() {
    if ! command -v go > /dev/null; then
        echo 'there is no go on the path (Debian: golang-go)'
    elif [ ! -d "$sources/src/github.com/miekg/dns" ]; then
        echo "there is no miekg/dns in $sources (Debian: golang-github-miekg-dns-dev)"
    fi
}
missing=$(why_no_go)
[ $only_go = no ] || [ -z "$missing" ] || fail "$missing"

# compare COMMAND..: the program of compare/, linked with the library but for --go
features=()
[ $only_go = yes ] || features=(--features judge,list)
compare() {
    cargo run --quiet --offline --locked --release --manifest-path "$root/compare/Cargo.toml" ${features[@]+"${features[@]}"} -- "$@"
}

machine() {
    local model
    model=$(sed -n 's/^model name[^:]*: //p;T;q' /proc/cpuinfo)
    echo "$(date -u +%Y-%m-%d), $(nproc) processors ($model), load $(cut -d ' ' -f 1 /proc/loadavg) before the run; $(rustc --version | cut -d ' ' -f 1,2)."
}

if [ $only_go = no ]; then
    libs=${1-$root/target/staticlib}
    [ $# -eq 1 ] || bash "$root/scripts/archive.sh" splinepearl >&2
    SPLINEPEARL_LIBS=$(realpath "$libs")
    export SPLINEPEARL_LIBS
    compare cases >&2
    machine
    echo
    compare night
    echo
fi

if [ -n "$missing" ]; then
    echo "Go with miekg/dns: not measured, because $missing."
    exit
fi
work=$(mktemp -d)
trap 'rm -rf "$work"' EXIT
mkdir "$work/loads"
compare night-files "$work/loads"
GO111MODULE=off GOPATH=$sources GOCACHE=$work/cache GOFLAGS= go build -o "$work/night" "$root/compare/go/main.go"
version=$(sed -n 's/^var Version = v{\(.*\)}$/\1/p' "$sources/src/github.com/miekg/dns/version.go" | tr -d ' ' | tr , .)
echo "$(go version | cut -d ' ' -f 3), miekg/dns $version."
echo
"$work/night" "$work/loads"
