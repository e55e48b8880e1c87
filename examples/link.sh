#!/usr/bin/env bash
# Links the library from C and Rust, and checks what the examples print and their exit statuses.
set -eu
script='link'
root=$(cd "$(dirname "$0")/.." && pwd)
. "$root/scripts/common.sh"

usage() {
    cat <<'end'
usage: bash examples/link.sh [LIBS]

Builds the C and Rust examples against libsplinepearl.a in the folder LIBS (target/staticlib), and checks
what they print and their exit statuses. Looks up what the library needs from a C library, measures the
stack that each call takes, compiles the header as C++, and runs the tests of the Rust crate. Takes about
10 seconds. `bash scripts/archive.sh splinepearl` builds the library.

Exit status: 0 all as expected; 1 something else was printed, or a test failed; 2 wrong use, or no
library. A compiler that fails ends this with its own status.
end
}

case ${1-} in
-h | --help)
    usage
    exit
    ;;
-*) fail "unknown option $1; see --help" ;;
esac
[ $# -le 1 ] || fail "one folder at most; see --help"
libs=${1-$root/target/staticlib}
[ -f "$libs/libsplinepearl.a" ] || fail "there is no library $libs/libsplinepearl.a; run first, in $root: bash scripts/archive.sh splinepearl"
libs=$(realpath "$libs")
cd "$root"

work=$(mktemp -d)
trap 'rm -rf "$work"' EXIT
strict="-Wall -Wextra -pedantic -Werror"

# expect WANTED COMMAND..: WANTED is the output, and behind it the exit status in brackets
expect() {
    local wanted=$1 got status=0
    shift
    got=$("$@") || status=$?
    if [ "$got [$status]" != "$wanted" ]; then
        printf 'link: %s\nwanted:\n%s\ngot:\n%s\n' "$*" "$wanted" "$got [$status]" >&2
        exit 1
    fi
}

# expect_status WANTED COMMAND..: the exit status alone
expect_status() {
    local wanted=$1 status=0
    shift
    "$@" > /dev/null 2>&1 || status=$?
    if [ "$status" != "$wanted" ]; then
        printf 'link: %s\nwanted: status %s\ngot: status %s\n' "$*" "$wanted" "$status" >&2
        exit 1
    fi
}

# to_full COMMAND..: with a standard output on which every write fails
to_full() { "$@" > /dev/full; }

# What the library needs from a C library
needed() { nm -u "$libs/libsplinepearl.a" | awk '$1 == "U" { print $2 }' | sort -u; }
expect "memcpy
memset [0]" needed

# The cases, each a folder as the desk program reads it.
whole=examples/whole-case
folder() {
    mkdir "$work/$1"
    cp "$whole"/* "$work/$1"
}
folder www # www.example.com alone: the first name of the request
head -c 17 "$whole/request.bin" > "$work/www/request.bin"
folder anyone
: > "$work/anyone/book.bin"
folder critical # example.com CAA 128 tbs "Unknown"
printf '\7example\3com\0\1\1\0\1\0\0\0\0\0\14\200\3tbsUnknown' > "$work/critical/book.bin"
folder limited # example.com CAA 0 issue "ca1.example.net; accounturi=https://ca1.example.net/acct/230123"
printf '\7example\3com\0\1\1\0\1\0\0\0\0\0\106\0\5issueca1.example.net; accounturi=%s' "$(cat "$whole/account.txt")" > "$work/limited/book.bin"
folder other-account # the same record, for another account
cp "$work/limited/book.bin" "$work/other-account/book.bin"
printf '%s' https://ca1.example.net/acct/230124 > "$work/other-account/account.txt"
folder alias # www.example.com CNAME pay.example.com, before the whole case
cp "$work/www/request.bin" "$work/alias/request.bin"
{
    printf '\3www\7example\3com\0\0\5\0\1\0\0\0\0\0\21\3pay\7example\3com\0'
    cat "$whole/book.bin"
} > "$work/alias/book.bin"
folder alias-of-itself # example.com CNAME example.com: an alias without an end
printf '\7example\3com\0\0\5\0\1\0\0\0\0\0\15\7example\3com\0' > "$work/alias-of-itself/book.bin"
folder alias-conflict # the same, behind the whole case
cat "$work/alias-of-itself/book.bin" >> "$work/alias-conflict/book.bin"
folder line-end
echo >> "$work/line-end/issuer.txt"
folder account-line-end
echo >> "$work/account-line-end/account.txt"
folder method-comma
printf '%s' http-01,dns-01 > "$work/method-comma/method.txt"
folder no-account
rm "$work/no-account/account.txt"
folder no-method
rm "$work/no-method/method.txt"
folder issuer-first # the issuer name is checked before the account, and both before the book
cp "$work/line-end/issuer.txt" "$work/issuer-first/issuer.txt"
rm "$work/issuer-first/account.txt"
head -c 199 "$whole/book.bin" > "$work/issuer-first/book.bin"
folder cut
head -c 199 "$whole/book.bin" > "$work/cut/book.bin"
folder no-request
rm "$work/no-request/request.bin"
folder book-is-a-folder
rm "$work/book-is-a-folder/book.bin"
mkdir "$work/book-is-a-folder/book.bin"
mkdir "$work/nothing"

# A library of our own making, whose judge gives an answer that no program knows yet. It isn't proved, and decides nothing.
mkdir "$work/later"
cat > "$work/later.c" <<'end'
#include "splinepearl.h"
#define UNUSED (void)a, (void)b, (void)c, (void)d, (void)e, (void)f, (void)g, (void)h, (void)i, (void)j
uint64_t caa_judge_for(const uint8_t *a, size_t b, const uint8_t *c, size_t d, const uint8_t *e, size_t f,
                       const uint8_t *g, size_t h, const uint8_t *i, size_t j)
{
    return UNUSED, 29 | 1 << 8;
}
uint64_t caa_permitted_issuers_for(const uint8_t *a, size_t b, const uint8_t *c, size_t d, const uint8_t *e, size_t f,
                                   const uint8_t *g, size_t h, uint8_t *i, size_t j)
{
    return UNUSED, 32;
}
end
# shellcheck disable=SC2086  # $strict is several words
"${CC:-cc}" -std=c99 $strict -Iinclude -c -o "$work/later.o" "$work/later.c"
ar rcs "$work/later/libsplinepearl.a" "$work/later.o"

note "C"
# build SOURCE LIBS PROGRAM
build() {
    # shellcheck disable=SC2086
    "${CC:-cc}" -std=c99 -O2 $strict -Iinclude -o "$3" "$1" "$2/libsplinepearl.a"
}
build examples/c/judge.c "$libs" "$work/judge"
expect 'verdict 21 name 1 record 3 up 0
list of 1 in 16 octets
ca2.example.org [1]' "$work/judge" "$whole"
expect 'verdict 0
list of 2 in 32 octets
ca1.example.net
ca2.example.org [0]' "$work/judge" "$work/www"
expect 'verdict 0
anyone [0]' "$work/judge" "$work/anyone"
expect 'verdict 20 name 0 record 0 up 1
list of 0 in 0 octets [1]' "$work/judge" "$work/critical"
expect 'verdict 0
list of 1 in 16 octets
ca1.example.net [0]' "$work/judge" "$work/limited"
expect 'verdict 21 name 0 record 0 up 1
list of 0 in 0 octets [1]' "$work/judge" "$work/other-account"
expect 'verdict 21 name 0 record 4 up 0
list of 1 in 16 octets
ca2.example.org [1]' "$work/judge" "$work/alias"
expect 'verdict 22 name 0 record 0 up 1
list of 0 in 0 octets [1]' "$work/judge" "$work/alias-of-itself"
expect 'refused 12 at 4
refused 12 at 4 [2]' "$work/judge" "$work/alias-conflict"
expect 'refused 4 at 0
list of 1 in 16 octets
ca2.example.org [2]' "$work/judge" "$work/line-end"
for folder in account-line-end method-comma no-account no-method; do
    expect 'refused 15 at 0
refused 15 at 0 [2]' "$work/judge" "$work/$folder"
done
expect 'refused 4 at 0
refused 15 at 0 [2]' "$work/judge" "$work/issuer-first"
expect 'refused 6 at 3
refused 6 at 3 [2]' "$work/judge" "$work/cut"
expect 'refused 2 at 0
refused 2 at 0 [2]' "$work/judge" "$work/no-request"
for folder in nothing book-is-a-folder not-there; do
    expect 'no book [2]' "$work/judge" "$work/$folder"
done
expect_status 2 to_full "$work/judge" "$work/anyone"
expect_status 0 "$work/judge" --help
expect_status 2 to_full "$work/judge" --help
expect_status 2 "$work/judge"
expect_status 2 "$work/judge" "$work/anyone" "$work/anyone"
expect_status 2 "$work/judge" --not-known
build examples/c/judge.c "$work/later" "$work/judge-later"
expect 'unknown answer 29
unknown answer 32 [2]' "$work/judge-later" "$work/anyone"

# Which numbers the header takes for refusals.
cat > "$work/refusals.c" <<'end'
#include <stdio.h>
#include "splinepearl.h"
int main(void)
{
    uint64_t number;

    for (number = 0; number < 256; number++) {
        if (caa_is_refusal(number)) {
            printf("%u ", caa_number(number));
        }
    }
    return 0;
}
end
build "$work/refusals.c" "$libs" "$work/refusals"
expect '1 2 3 4 5 6 7 8 9 10 11 12 14 15  [0]' "$work/refusals"

# Which bits each function takes: all ones in one field, none in the others; then all four fields.
cat > "$work/fields.c" <<'end'
#include <stdio.h>
#include "splinepearl.h"
static void print_fields(uint64_t answer)
{
    printf("%u %zu %zu %zu %zu %zu %zu %zu\n", caa_number(answer), caa_place(answer), caa_name_number(answer),
           caa_octets(answer), caa_length(answer), caa_record_number(answer), caa_count(answer),
           caa_labels_off(answer));
}
int main(void)
{
    print_fields(UINT64_C(0x00000000000000FF));
    print_fields(UINT64_C(0x00000000FFFFFF00));
    print_fields(UINT64_C(0x0000FFFF00000000));
    print_fields(UINT64_C(0xFFFF000000000000));
    print_fields(UINT64_C(0x007E03FF0000F915));
    return 0;
}
end
build "$work/fields.c" "$libs" "$work/fields"
expect '255 0 0 0 0 0 0 0
0 16777215 16777215 16777215 16777215 0 0 0
0 0 0 0 0 65535 65535 0
0 0 0 0 0 0 0 65535
21 249 249 249 249 1023 1023 126 [0]' "$work/fields"

# The layout of a session, which no compiler compares with the library's; and which octets of it are the asked name.
cat > "$work/layout.c" <<'end'
#include <stdio.h>
#include "splinepearl.h"
static caa_session session;
static void print_asked(uint64_t answer)
{
    size_t length = 999;
    const uint8_t *const name = caa_asked_name(&session, answer, &length);

    if (name == NULL) {
        printf("none %zu\n", length);
    } else {
        printf("at %td, %zu octets\n", name - (const uint8_t *)&session, length);
    }
}
int main(void)
{
    printf("%zu: %zu %zu %zu %zu %zu %zu %zu %zu\n", sizeof(caa_session), offsetof(caa_session, phase),
           offsetof(caa_session, up), offsetof(caa_session, verdict), offsetof(caa_session, rr),
           offsetof(caa_session, name), offsetof(caa_session, issuer), offsetof(caa_session, account),
           offsetof(caa_session, method));
    printf("%zu: %zu %zu\n", sizeof(struct caa_text), offsetof(struct caa_text, length),
           offsetof(struct caa_text, octets));
    print_asked(UINT64_C(0x0000000200001128)); /* 40, a = 17, b = 2 */
    print_asked(UINT64_C(0x0000000000010028)); /* 40, a = 256, b = 0 */
    print_asked(UINT64_C(0x0000000100010028)); /* 40, a = 256, b = 1: beyond the room */
    print_asked(UINT64_C(0x0000FFFF00000128)); /* 40, a = 1, b = 65,535 */
    print_asked(UINT64_C(0x0000000200001129)); /* 41 */
    return 0;
}
end
build "$work/layout.c" "$libs" "$work/layout"
expect '1088: 0 8 16 24 32 296 560 824
264: 0 8
at 42, 17 octets
at 40, 256 octets
none 999
none 999
none 999 [0]' "$work/layout"

# What the C and the Rust example of a session print.
zone=examples/session/zone.txt
printf '%s\n' 'example.com CNAME example.org' 'Example.com CAA 0 issue "ca1.example.net"' > "$work/conflict.txt"
printf '%s\n' 'example.com CAA 0 issue' > "$work/no-zone.txt"
try_sessions() {
    local program=$1
    expect 'look up www.example.com: 0 records
look up example.com: 3 records
permitted [0]' "$program" "$zone" www.example.com ca1.example.net
    expect 'look up Pay.example.com: 1 record
not permitted: restricted by record 0 of the last answer; labels taken off: 0 [1]' "$program" "$zone" '*.Pay.example.com' ca1.example.net
    expect 'look up a.b.example.com: 0 records
look up b.example.com: 0 records
look up example.com: 3 records
not permitted: restricted by record 0 of the last answer; labels taken off: 2 [1]' "$program" "$zone" a.b.example.com ca3.example.com
    expect 'look up nobody.example: 0 records
look up example: 0 records
permitted [0]' "$program" "$zone" nobody.example ca3.example.com
    expect 'look up shop.example.com: 2 records
not permitted: restricted by record 1 of the last answer; labels taken off: 0 [1]' "$program" "$zone" shop.example.com ca1.example.net
    expect 'look up a.loop.example: 0 records
look up loop.example: 1 record
not permitted: too many aliases from record 0 of the last answer on; labels taken off: 1 [1]' "$program" "$zone" a.loop.example ca1.example.net
    expect 'look up critical.example: 1 record
not permitted: record 0 of the last answer is critical and not known; labels taken off: 0 [1]' "$program" "$zone" critical.example ca1.example.net
    expect 'look up a.broken.example.com: 0 records
look up broken.example.com: failed
nothing decided: a lookup failed [2]' "$program" "$zone" a.broken.example.com ca1.example.net
    expect 'look up limited.example: 1 record
permitted [0]' "$program" "$zone" limited.example ca1.example.net https://ca1.example.net/acct/230123 dns-01
    expect 'look up limited.example: 1 record
not permitted: restricted by record 0 of the last answer; labels taken off: 0 [1]' "$program" "$zone" limited.example ca1.example.net
    expect 'look up example.com: 2 records
refused 12 at 1 [2]' "$program" "$work/conflict.txt" example.com ca1.example.net
    expect 'refused 2 at 0 [2]' "$program" "$zone" a_b ca1.example.net
    expect 'refused 4 at 0 [2]' "$program" "$zone" example.com ca1.example.net.
    expect 'refused 15 at 0 [2]' "$program" "$zone" example.com ca1.example.net 'a;b' dns-01
    expect_status 2 "$program" "$work/not-there.txt" example.com ca1.example.net
    expect_status 2 "$program" "$work/no-zone.txt" example.com ca1.example.net
    expect_status 2 to_full "$program" "$zone" www.example.com ca1.example.net
    expect_status 0 "$program" --help
    expect_status 2 to_full "$program" --help
    expect_status 2 "$program"
    expect_status 2 "$program" --not-known a b
}
build examples/c/session.c "$libs" "$work/session"
try_sessions "$work/session"

build tools/caa-lines.c "$libs" "$work/caa-lines"
expect '128 tbs "Unk\"\\\000n"
refused 11 at 0 [0]' "$work/caa-lines" write <<< '8003544253556E6B225C006E
0000'
expect '0005697373756563613B
refused 9 at 0 [0]' "$work/caa-lines" read <<< '0 issue "ca;"
256 issue x'

build examples/c/stack.c "$libs" "$work/stack"
"$work/stack"

if command -v "${CXX:-c++}" > /dev/null; then
    # shellcheck disable=SC2086
    "${CXX:-c++}" -std=c++11 $strict -Iinclude -fsyntax-only -x c++ - <<< '#include "splinepearl.h"'
else
    note "no C++ compiler, so the header is not tried in C++"
fi

note "Rust"
# rust LIBS COMMAND WORDS..
rust() {
    local libs=$1 command=$2
    shift 2
    SPLINEPEARL_LIBS="$libs" cargo "$command" --quiet --offline --locked --manifest-path bindings/rust/Cargo.toml "$@"
}
rust "$libs" test
desk() { rust "$libs" run --example desk -- "$@"; }
expect 'verdict 21 name 1 record 3 up 0 [1]' desk "$whole"
expect 'verdict 0 [0]' desk "$work/www"
expect 'verdict 0 [0]' desk "$work/anyone"
expect 'verdict 20 name 0 record 0 up 1 [1]' desk "$work/critical"
expect 'verdict 0 [0]' desk "$work/limited"
expect 'verdict 21 name 0 record 0 up 1 [1]' desk "$work/other-account"
expect 'verdict 21 name 0 record 4 up 0 [1]' desk "$work/alias"
expect 'verdict 22 name 0 record 0 up 1 [1]' desk "$work/alias-of-itself"
expect 'refused 12 at 4 [2]' desk "$work/alias-conflict"
expect 'refused 4 at 0 [2]' desk "$work/line-end"
for folder in account-line-end method-comma no-account no-method; do
    expect 'refused 15 at 0 [2]' desk "$work/$folder"
done
expect 'refused 4 at 0 [2]' desk "$work/issuer-first"
expect 'refused 6 at 3 [2]' desk "$work/cut"
expect 'refused 2 at 0 [2]' desk "$work/no-request"
for folder in nothing book-is-a-folder not-there; do
    expect 'no book [2]' desk "$work/$folder"
done
expect_status 2 to_full desk "$work/anyone"
expect_status 0 desk --help
expect_status 2 to_full desk --help
expect_status 2 desk
expect_status 2 desk "$work/anyone" "$work/anyone"
expect_status 2 desk --not-known
later_desk() { CARGO_TARGET_DIR="$work/cargo" rust "$work/later" run --example desk -- "$@"; }
expect 'refused 29 at 1 [2]' later_desk "$work/anyone"
rust_session() { rust "$libs" run --example session -- "$@"; }
try_sessions rust_session

echo "link: C and Rust give the expected lines and exit statuses"
