#!/bin/sh
# Times the proved program on 10,000, 20,000 and 40,000 lines of small commands (./build makes it).
cd "$(dirname "$0")/.." || exit 2
program=crates/dfs/out/dfs
[ -x "$program" ] || {
    echo 'bench: no program is built (./build makes it)' >&2
    exit 1
}

# Lines that make, list, write, read, move and remove, on a tree that stays small.
lines() {
    awk -v count="$1" 'BEGIN {
        for (at = 0; at < count; at += 10) {
            d = "/d" at % 50
            print "mkdir " d; print "cd " d; print "echo text-" at " f"; print "cat f"; print "stat f"
            print "mv f g"; print "ls"; print "rm g"; print "cd /"; print "rmdir " d
        }
    }'
}

for count in 10000 20000 40000; do
    input=$(mktemp)
    lines "$count" >"$input"
    start=$(date +%s.%N)
    "$program" shell <"$input" | tail -c 5 >/dev/null
    end=$(date +%s.%N)
    rm -f "$input"
    awk -v n="$count" -v s="$start" -v e="$end" 'BEGIN { printf "%d lines: %.2f s, %.1f us a line\n", n, e - s, (e - s) * 1e6 / n }'
done
