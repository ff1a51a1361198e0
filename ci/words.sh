#!/bin/sh
# Fails where a text of the repository refers to something by a number that only its authors would know.
cd "$(dirname "$0")/.." || exit 2
found=$(grep -rnE --exclude-dir=out \
    '\b[DTW][0-9]{1,2}(\.[0-9])?\b|\bR[0-9]{1,2}[ab]?\b|document 0[1-4]|[Ss]ection [0-9]|\b[Rr]ow [0-9]+[ab]?\b' \
    crates docs README.md | grep -vE '\(row |: row [0-9]+: E')
if [ -n "$found" ]; then
    printf 'words.sh: numbers that refer outside the repository:\n%s\n' "$found" >&2
    exit 1
fi
exit 0
