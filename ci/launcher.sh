#!/bin/sh
# Calls the launcher in each way that could lose input, or end with a status that is not true, and builds and installs. Nothing is
# proved or compiled: a stand-in for the kit shows what it was given.
cd "$(dirname "$0")/.." || exit 2
# shellcheck source=ci/stand_in.sh
. ci/stand_in.sh
bad=0

complain() {
    printf 'launcher.sh: %s\n' "$1" >&2
    bad=1
}

# Runs a launcher on words, and keeps what it shows, says and ends with. $STAND_IN is how the kit ends.
run() {
    "$@" >"$room/out" 2>"$room/err"
    status=$?
}

# Compares the last run with a status, standard error (a pattern) and standard output.
ends() {
    said=$(cat "$room/err")
    shown=$(cat "$room/out")
    # shellcheck disable=SC2254
    case $status:$said in
    "$2":$3) [ "$shown" = "$4" ] && return ;;
    esac
    complain "$1: status $status, standard error '$said', standard output '$shown'"
}

usage='usage: dfs MODE*'
run "$tree/dfs"; ends 'no words' 2 "$usage" ''
run "$tree/dfs" sing; ends 'an unknown mode' 2 "$usage" ''
run "$tree/dfs" shell now; ends 'a further word' 2 "$usage" ''
[ -e "$room/kit/calls" ] && complain 'a usage called the kit'

mkfifo "$room/pipe"
{ echo one; sleep 1; printf two; } >"$room/pipe" &
run "$tree/dfs" shell <"$room/pipe"
ends 'a slow writer' 0 '' 'given: one
given: two'
[ "$(cat "$room/kit/calls")" = 'try -- shell' ] || complain 'the kit was not called once'

echo x >"$room/input"
ln -s "$tree/dfs" "$room/link" && ln -s link "$room/further"
run "$room/further" replay <"$room/input"; ends 'a link to a link' 0 '' 'given: x'
run env STAND_IN=bad_deck "$tree/dfs" replay <"$room/input"; ends 'a bad line' 3 'dfs: line 2: bad deck' 'given: x'
run env STAND_IN=time "$tree/dfs" shell <"$room/input"; ends 'a limit of time' 6 'dfs: unproved run cut: more than 60 s*' ''
run env STAND_IN=output "$tree/dfs" shell <"$room/input"; ends 'a limit of output' 6 'dfs: unproved run cut: more than 1048576 b*' ''
run env STAND_IN=refused "$tree/dfs" shell <"$room/input"; ends 'refused sources' 8 '*1:1: error*the kit did not run the sources*' ''

run "$tree/dfs" shell <&-; ends 'closed standard input' 4 'dfs: read fault' ''
run "$tree/dfs" shell </tmp; ends 'a folder as input' 4 'dfs: read fault' ''
: >"$room/out"
"$tree/dfs" shell <"$room/input" >&- 2>"$room/err"; status=$?; ends 'closed standard output' 5 'dfs: write fault' ''
"$tree/dfs" shell <"$room/input" >/dev/full 2>"$room/err"; status=$?; ends 'a full device' 5 'dfs: write fault' ''
run env STAND_IN=bad_deck "$tree/dfs" shell <"$room/input" 2>&-
[ "$status" -eq 3 ] || complain "closed standard error: status $status"

run "$tree/install" "$room/prefix"; ends 'an install without a program' 1 'install: no proved program is current*' ''
run "$tree/build"; ends 'a build' 0 '*its stamp is written' ''
run "$tree/dfs" shell <"$room/input"; ends 'a current program' 0 '' 'proved shell
given: x'
run "$tree/install"; ends 'an install to nowhere' 2 'usage: ./install PREFIX*' ''
run "$tree/install" "$room/prefix"
cmp -s "$program" "$room/prefix/bin/dfs" || complain 'the installed program is another'
grep -q 'built from commit' "$room/prefix/share/man/man1/dfs.1" || complain 'the manual page is not installed'
grep -q '@[A-Z]*@' "$room/prefix/share/man/man1/dfs.1" && complain 'the manual page does not name the commit and the kit'
echo '# other' >>"$program"
run "$tree/dfs" shell <"$room/input"; ends 'another program in its place' 0 '' 'given: x'
run "$tree/build"
echo '// other' >>"$tree/crates/low/src/lib.rt"
run "$tree/dfs" shell <"$room/input"; ends 'a source below that changed' 0 '' 'given: x'
run "$tree/install" "$room/prefix"; ends 'an install of an old program' 1 'install: no proved program is current*' ''

# The tools that the launcher uses, without the kit.
mkdir "$room/tools"
for tool in awk cat cut dirname find head mktemp readlink rm sed sha256sum sh sort stty tail xargs; do
    ln -s "$(command -v "$tool")" "$room/tools/$tool"
done
run env PATH="$room/tools" "$tree/dfs" shell <"$room/input"; ends 'no kit' 7 '*the Rattle kit*is not on PATH' ''
exit "$bad"
