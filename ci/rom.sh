#!/bin/sh
# Prints a folder as a rom, and asks for roms that the form can't have.
cd "$(dirname "$0")/.." || exit 2
room=$(mktemp -d) || exit 2
trap 'rm -rf "$room"' EXIT
bad=0

complain() {
    printf 'rom.sh: %s\n' "$1" >&2
    bad=1
}

# A rom of this folder and name is refused, with nothing printed and a line that has this text.
refuses() {
    if shown=$(tools/rom "$1" "$2" 2>"$room/err"); then
        complain "not refused: $3"
    fi
    [ -z "$shown" ] || complain "printed beside a refusal: $3"
    grep -q "$3" "$room/err" || complain "refused without '$3': $(cat "$room/err")"
}

mkdir -p "$room/good/etc/sub" "$room/empty" "$room/odd"
printf 'welcome\n' >"$room/good/etc/motd"
printf '\000\377' >"$room/good/etc-x"
: >"$room/good/etc/sub/none"
awk 'BEGIN { for (at = 0; at < 501; at++) printf "a" }' >"$room/good/long"
digits=$(awk 'BEGIN { for (at = 0; at < 500; at++) printf "61" }')
[ "$(tools/rom "$room/good" boot)" = "rom boot
d /etc
f /etc-x
+ 00ff
f /etc/motd
+ 77656c636f6d650a
d /etc/sub
f /etc/sub/none
f /long
+ $digits
+ 61
end" ] || complain 'a folder is printed otherwise'
[ "$(tools/rom "$room/empty" boot)" = 'rom boot
end' ] || complain 'an empty folder is printed otherwise'

refuses "$room/good" 'a b' 'NAME is'
refuses "$room/good" 'a/b' 'NAME is'
refuses "$room/none" boot "$room/none"
ln -s motd "$room/odd/link"
refuses "$room/odd" boot 'neither a folder nor a file: ./link'
mkfifo "$room/odd/pipe"
refuses "$room/odd" boot 'neither a folder nor a file: ./pipe'
rm "$room/odd/link" "$room/odd/pipe"
: >"$room/odd/a b"
refuses "$room/odd" boot 'in its name: ./a b'
rm "$room/odd/a b"
: >"$room/odd/end$(printf '\r')"
refuses "$room/odd" boot 'in its name: ./end'
exit "$bad"
