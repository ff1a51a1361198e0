#!/bin/sh
# Counts the instructions a byte of a row's writes and reads in pieces of 4,096, one after the other: of bytes in memory over 2 MiB, and of a
# file on a cell in memory over 64 KiB, whose pages all stay in memory. It is the difference of a task and one of half its bytes, so what
# a task costs that moves nothing is taken off.
cd "$(dirname "$0")/.." || exit 2
program=crates/row_cases/out/row_cases
[ -x "$program" ] || {
    echo 'bench: no program is built (rt run in crates/row_cases makes it)' >&2
    exit 1
}
command -v valgrind >/dev/null || {
    echo 'bench: valgrind is wanted' >&2
    exit 1
}

# The instructions of a whole run. It fails where the task was not done, or nothing was counted.
instructions() {
    told=$(valgrind --tool=callgrind --callgrind-out-file=/dev/null "$program" "$@" 2>&1) || {
        echo "bench: the task is not done: $*" >&2
        exit 1
    }
    echo "$told" | awk '/Collected/ { print $NF; counted = 1 } END { exit !counted }' || {
        echo "bench: valgrind counts nothing: $*" >&2
        exit 1
    }
}

printf '%-10s %10s %14s %9s\n' task bytes instructions 'a byte'
for line in 'tmp-write 4194304' 'tmp-read 4194304' 'cell-write 131072' 'cell-read 131072'; do
    task=${line% *}
    bytes=${line#* }
    few=$(instructions "$task" $((bytes / 2))) || exit 1
    many=$(instructions "$task" "$bytes") || exit 1
    awk -v task="$task" -v bytes=$((bytes / 2)) -v few="$few" -v many="$many" 'BEGIN {
        printf "%-10s %10d %14d %9.3f\n", task, bytes, many - few, (many - few) / bytes
    }'
done
