# shellcheck shell=bash disable=SC2154  # script and root are set by the script that sources this
# What the scripts share; they source it. A script sets `script`, the name that its messages begin with, and `root`, the top
# folder of the repository.

# note TEXT..: tells something on standard error
note() { printf '%s: %s\n' "$script" "$*" >&2; }

# fail TEXT..: tells what is wrong and ends the script with status 2
fail() {
    note "$@"
    exit 2
}

# check_kit: warns where the Rattle kit isn't the one that the proofs were last checked with. It never fails for that
check_kit() {
    local proved_with have
    proved_with=$(cat "$root/kit-version.txt") || proved_with=unknown
    have=$(rt version 2> /dev/null) || have=unknown
    [ "$have" = "$proved_with" ] || note "warning: the Rattle kit here is '$have'; the proofs were last checked with '$proved_with' (kit-version.txt)"
}

# crates_for NAME: how many crates NAME needs, itself included; for an empty NAME, how many there are
crates_for() {
    awk -v wanted="$1" '
        function visit(name,    list, n, i) {
            if (!(name in needs) || name in seen) return
            seen[name] = 1
            count++
            n = split(needs[name], list, " ")
            for (i = 1; i <= n; i++) visit(list[i])
        }
        { sub(/#.*/, "") }
        # a static library has a word after its name
        split($0, part, ":") == 2 { sub(/ .*/, "", part[1]); needs[part[1]] = part[2] }
        END {
            if (wanted == "") for (name in needs) visit(name)
            else visit(wanted)
            print count + 0
        }' "$root/crates.txt"
}

# progress CRATES [EDITS]: passes the output of rt on, and tells on standard error, at most every 5 seconds, how far it has
# come. With EDITS the output is that of `rt ci`, which names each crate; one that an earlier run proved is counted and not
# told. Without, it is that of a check, which ends what it says of a crate with a line `logic=..`, and passes over a crate that
# needs no new proof.
progress() {
    local line crates=0 edits=0 said=-5 now
    while IFS= read -r line; do
        printf '%s\n' "$line"
        now=''
        case ${2:+ci} in
        ci)
            case $line in
            'rt: '*': its tests are '*) ;;
            'rt: '*': trying its must-fail edits ('*')')
                line=${line##*'('}
                edits=$((edits + ${line%')'}))
                now="$edits of $2 wrong versions begun"
                ;;
            'rt: '*' is kept: '*) crates=$((crates + 1)) ;;
            'rt: '*' proved' | 'rt: '*' NOT PROVED'*)
                crates=$((crates + 1))
                now="crate $crates of $1 checked"
                ;;
            esac
            ;;
        *)
            case $line in
            'logic='*)
                crates=$((crates + 1))
                now="crate $crates of at most $1 checked"
                ;;
            esac
            ;;
        esac
        if [ -n "$now" ] && [ $((SECONDS - said)) -ge 5 ]; then
            note "$now"
            said=$SECONDS
        fi
    done
}
