#!/bin/sh
# Plays all cases with the sources as they stand, unproved: a line a case, and at the end what the gate wants.
cd "$(dirname "$0")/../crates/dfs_tests" || exit 2
set --
for file in data/*/*; do
    set -- "$@" --data "${file#data/}=$file"
done
exec rt try --seconds 600 "$@"
