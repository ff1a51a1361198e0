#!/bin/sh
# The sizes of the sources in crates/: no file has more than 500 lines, no function a body of more than 40, no clause more than 150
# characters, no lemma more than nine arguments; no answer file says one `let` three times, and no definition whose name is one
# word lacks a comment. What is above its limit is listed in ci/shape.txt with its number, which may only fall.
#
#   ci/shape.sh         fails where something is above its limit and its listed number
#   ci/shape.sh --list  prints what is above a limit: `ci/shape.sh --list >ci/shape.txt` makes the list anew
cd "$(dirname "$0")/.." || exit 2
LC_ALL=C
export LC_ALL

found() {
    find crates -type f \( -name '*.rt' -o -name '*.antt' \) ! -path '*/out/*' | sort | xargs awk -f ci/shape.awk
}

case $* in
'') ;;
--list)
    found
    exit
    ;;
*)
    echo 'usage: ci/shape.sh [--list]' >&2
    exit 2
    ;;
esac
found | awk '
    BEGIN {
        while ((getline line < "ci/shape.txt") > 0) {
            split(line, part, " ")
            listed[part[1] " " part[2] " " part[3]] = part[4]
        }
    }
    { what = $1 " " $2 " " $3 }
    !(what in listed) { print "shape.sh: above its limit: " $0; bad = 1 }
    what in listed && $4 > listed[what] { print "shape.sh: above its listed number " listed[what] ": " $0; bad = 1 }
    END { exit bad }' >&2
