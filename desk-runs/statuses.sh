# Exit statuses: examples/run.sh on what the desk program says, then every script with --help and with unknown arguments.
# 0 is permitted, 1 is not permitted, and everything else is 2.

# expect_run STATUS LINE ARGUMENTS..: what `bash examples/run.sh ARGUMENTS..` has to write on standard output, and its exit status
expect_run() {
    local status=0 wanted="$2 [$1]"
    shift 2
    runs=$((runs + 1))
    written=$(bash "$repository/examples/run.sh" "$@" 2> "$scratch/said") || status=$?
    [ "$written [$status]" = "$wanted" ] || failed "$wanted" "$written [$status] $(head -c 300 "$scratch/said")"
}

# expect_said TEXT: what the last run has to say on standard error
expect_said() {
    runs=$((runs + 1))
    grep -qF -- "$1" "$scratch/said" || failed "... $1 ..." "$(head -c 300 "$scratch/said")"
}

# The desk program itself.
repository=$root

begin 'run.sh: permitted'
expect_run 0 'verdict 0' .

begin 'run.sh: not granted, by a path from here'
caa example.com 0 issue ca2.example.org > book.bin
cd ..
expect_run 1 'verdict 21 name 0 record 0 up 1' folder

begin 'run.sh: unknown critical'
caa example.com 128 tbs Unknown > book.bin
expect_run 1 'verdict 20 name 0 record 0 up 1' "$PWD"

begin 'run.sh: too many aliases'
cname www.example.com www.example.com > book.bin
expect_run 1 'verdict 22 name 0 record 0 up 0' .

begin 'run.sh: the stored example, in an empty folder'
rm request.bin issuer.txt account.txt method.txt book.bin
expect_run 1 'verdict 21 name 1 record 3 up 0'

begin 'run.sh: refused'
echo >> issuer.txt
expect_run 2 'refused 4 at 0' .

begin 'run.sh: refused for a method'
echo >> method.txt
expect_run 2 'refused 15 at 0' .

begin 'run.sh: refused for aliases'
{ cname a b; cname a b; } > book.bin
expect_run 2 'refused 12 at 1' .

begin 'run.sh: no book'
rm book.bin
expect_run 2 'no book' .

# A copy of the scripts, with an rt and a desk program of our own making, for what the real ones don't do on demand. `rt` here
# ends with the status in the file `rt-status`, and the program writes the file `line` and ends with the status in `desk-status`.
repository=$scratch/repository
mkdir -p "$repository/examples" "$repository/crates/desk/out" "$repository/bin"
cp "$root/examples/run.sh" "$repository/examples"
cp -r "$root/scripts" "$root/kit-version.txt" "$root/crates.txt" "$repository"
cat > "$repository/bin/rt" <<'end'
#!/bin/sh
here=$(dirname "$0")/..
case $1 in
version) cat "$here/kit-here" ;;
*)
    echo "$@" > "$here/rt-asked"
    echo "logic=proved functions=3" >&2
    cp "$here/crates/desk/made" "$here/crates/desk/out/desk"
    exit "$(cat "$here/rt-status")"
    ;;
esac
end
cat > "$repository/crates/desk/made" <<'end'
#!/bin/sh
here=$(dirname "$0")/../../..
cat "$here/line"
exit "$(cat "$here/desk-status")"
end
chmod +x "$repository/bin/rt" "$repository/crates/desk/made"
path=$PATH
PATH=$repository/bin:$PATH

# begin_copy TITLE LINE: the program writes that line
begin_copy() {
    begin "run.sh: $1"
    cp "$root/kit-version.txt" "$repository/kit-here"
    echo 0 > "$repository/rt-status"
    echo 0 > "$repository/desk-status"
    cp "$repository/crates/desk/made" "$repository/crates/desk/out/desk"
    printf '%s' "$2" > "$repository/line"
}

begin_copy 'a permission' 'verdict 0
'
expect_run 0 'verdict 0' .
expect_said 'crate 1 of'

begin_copy 'a verdict of a later release' 'verdict 24 name 0 record 1 up 2 at 3
'
expect_run 1 'verdict 24 name 0 record 1 up 2 at 3' .

begin_copy 'a verdict of a later release, with no numbers' 'verdict 23
'
expect_run 1 'verdict 23' .

begin_copy 'a verdict that begins like a permission' 'verdict 0 name 1
'
expect_run 2 'verdict 0 name 1' .

begin_copy 'a verdict 00' 'verdict 00
'
expect_run 2 'verdict 00' .

begin_copy 'two lines' 'verdict 0
verdict 0
'
expect_run 2 'verdict 0
verdict 0' .

begin_copy 'a line that is not known' 'permitted
'
expect_run 2 'permitted' .

begin_copy 'no line' ''
expect_run 2 '' .

begin_copy 'a program that fails' 'verdict 0
'
echo 3 > "$repository/desk-status"
expect_run 2 '' .
expect_said 'the desk program failed'

begin_copy 'a build that fails' 'verdict 0
'
echo 1 > "$repository/rt-status"
expect_run 2 '' .
expect_said 'could not be built'
expect_said 'logic=proved functions=3'

begin_copy 'a first build' 'verdict 0
'
rm "$repository/crates/desk/out/desk"
expect_run 0 'verdict 0' .
expect_said 'some minutes'

begin_copy 'another kit' 'verdict 0
'
echo another-kit > "$repository/kit-here"
expect_run 0 'verdict 0' .
expect_said "warning: the Rattle kit here is 'another-kit'"

begin_copy 'no kit' 'verdict 0
'
mkdir "$repository/few"
for command in bash dirname rm; do
    ln -s "$(command -v $command)" "$repository/few"
done
PATH=$repository/few expect_run 2 '' .
expect_said 'rt, of the Rattle toolchain, is not on the path'

begin_copy 'output that can not be written' 'verdict 0
'
to_full() { bash "$repository/examples/run.sh" "$@" > /dev/full; }
to_nowhere() { bash "$repository/examples/run.sh" "$@" >&-; }
for command in to_full to_nowhere; do
    runs=$((runs + 1))
    status=0
    $command . 2> "$scratch/said" || status=$?
    [ $status = 2 ] || failed '[2]' "[$status] $command"
done

# A folder that can't be entered starts no build.
begin_copy 'folders that can not be entered' 'verdict 0
'
ln -s loop loop
rm -f "$repository/rt-asked"
for folder in not-there book.bin loop '' "$(letters 300)"; do
    expect_run 2 '' "$folder"
    expect_said 'run: '
done

# Root may enter every folder, so it asks as nobody.
begin_copy 'a folder without permission' 'verdict 0
'
mkdir closed
cp request.bin issuer.txt account.txt method.txt book.bin closed
chmod 000 closed
chmod 755 "$scratch"
as_nobody=
[ "$(id -u)" != 0 ] || as_nobody='setpriv --reuid=65534 --regid=65534 --clear-groups'
runs=$((runs + 1))
status=0
$as_nobody bash "$repository/examples/run.sh" closed > "$scratch/written" 2> "$scratch/said" || status=$?
[ "$(cat "$scratch/written") [$status]" = ' [2]' ] || failed ' [2]' "$(cat "$scratch/written") [$status]"
expect_said "can't enter the folder closed"
chmod 755 closed

for arguments in '--not-known' '. .' '-x' '-'; do
    expect_run 2 '' $arguments
done
runs=$((runs + 1))
[ ! -e "$repository/rt-asked" ] || failed 'no build' "rt $(cat "$repository/rt-asked")"

# Every script with --help prints its usage, and with an unknown argument it ends with 2. Both start nothing: the commands that
# do the work are replaced by one that leaves a mark.
for command in rt cargo cc c++ go python3 mktemp; do
    printf '#!/bin/sh\necho "%s $*" >> "%s/started"\n' $command "$scratch" > "$repository/bin/$command"
    chmod +x "$repository/bin/$command"
done
# expect_script STATUS FIRST COMMAND..: the exit status and the first word on standard output
expect_script() {
    local status=0 wanted="$2 [$1]"
    shift 2
    title="$*"
    runs=$((runs + 1))
    rm -f "$scratch/started"
    "$@" > "$scratch/written" 2> "$scratch/said" || status=$?
    read -r written _ < "$scratch/written" || written=
    [ "$written [$status]" = "$wanted" ] || failed "$wanted" "$written [$status] $(head -c 300 "$scratch/said")"
    [ ! -e "$scratch/started" ] || failed 'starts nothing' "$(cat "$scratch/started")"
}
for name in examples/run.sh examples/link.sh scripts/archive.sh compare/night.sh desk-runs/test.sh test.sh .ci/run; do
    expect_script 0 usage: bash "$root/$name" --help
    expect_script 0 usage: bash "$root/$name" -h
    expect_script 2 '' bash "$root/$name" --not-known
    expect_script 2 '' bash "$root/$name" not-there neither
done
PATH=$path
