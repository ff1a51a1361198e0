# For the checks of the launcher, which read this file: a small tree with the launcher in it, and a stand-in for the kit.
# It sets $room, a folder that goes when the check ends, and $tree, and puts the stand-in's folder in front of PATH.
room=$(mktemp -d) || exit 2
trap 'rm -rf "$room"' EXIT
tree=$room/tree
# shellcheck disable=SC2034
program=$tree/crates/dfs/out/dfs
PATH=$room/kit:$PATH
mkdir -p "$room/kit" "$tree/tools" "$tree/crates/dfs/src" "$tree/crates/dfs/out" "$tree/crates/low/src" || exit 2
cp dfs build install "$tree" || exit 2
cp tools/stamp "$tree/tools/stamp" || exit 2
mkdir "$tree/docs" && cp docs/dfs.1 "$tree/docs/dfs.1" || exit 2
printf 'low:\ndfs: low\n' >"$tree/crates.txt"
echo 'Handles allowed: none.' >"$tree/HANDLES"
echo '//! The program.' >"$tree/crates/dfs/src/main.rt"
echo '//! What it uses.' >"$tree/crates/low/src/lib.rt"

# `rt try` shows the input, which has to be a file, and ends as $STAND_IN says; `rt run` leaves a program. The file `calls` beside
# it keeps the words of each call.
cat >"$room/kit/rt" <<'END'
#!/bin/sh
if [ "$1" = version ]; then
    echo stand-in
    exit
fi
echo "$*" >>"$(dirname "$0")/calls"
if [ "$1" = run ]; then
    printf '#!/bin/sh\necho "proved $*"\nsed "s/^/given: /"\n' >out/dfs
    chmod +x out/dfs
    exit
fi
[ -f /dev/fd/0 ] || echo 'the input is no file'
case $STAND_IN in
slow) sleep 2 ;;
time) echo 'checked: no-answer: the program did not end within the time limit' >&2 ;;
output) echo 'checked: no-answer: the program wrote more than 1048576 bytes to standard output or to standard error, the limit on each' >&2 ;;
refused) echo 'src/main.rt:1:1: error' >&2 ;;
esac
case $STAND_IN in
time | output | refused)
    echo 'run=no-answer proved=no' >&2
    exit 6
    ;;
bad_deck)
    echo 'dfs: line 2: bad deck' >&2
    status=3
    ;;
*) status=0 ;;
esac
sed 's/^/given: /'
printf 'checked: ended status=%s\nrun=ended status=%s runners=1 proved=no\n' "$status" "$status" >&2
exit "$status"
END
chmod +x "$room/kit/rt"
