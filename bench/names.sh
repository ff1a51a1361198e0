#!/bin/sh
# Counts the instructions of a look-up, an insert (with its removal), a rename (there and back) and a listing in trees of 64, 512 and 4,096
# names: in one folder, at a fixed depth of a chain of folders, and in a tree of sixteen below each. What the tree itself costs is taken
# off. The last column is the growth exponent between 64 and 4,096: 0 does not grow, 1 grows as the number of names.
cd "$(dirname "$0")/.." || exit 2
program=crates/name_cases/out/name_cases
[ -x "$program" ] || {
    echo 'bench: no program is built (rt run in crates/name_cases makes it)' >&2
    exit 1
}
command -v valgrind >/dev/null || {
    echo 'bench: valgrind is wanted' >&2
    exit 1
}

# The instructions of a whole run.
instructions() {
    valgrind --tool=callgrind --callgrind-out-file=/dev/null "$program" "$@" 2>&1 | awk '/Collected/ { print $NF }'
}

# The instructions of one operation: 200 of them, less 100 of them.
one() {
    few=$(instructions "$1" "$2" "$3" 100)
    many=$(instructions "$1" "$2" "$3" 200)
    echo $(((many - few) / 100))
}

printf '%-8s %-8s %10s %10s %10s %9s\n' shape operation 64 512 4096 exponent
for shape in folder chain tree; do
    for operation in find insert rename list; do
        small=$(one "$shape" 64 "$operation")
        middle=$(one "$shape" 512 "$operation")
        # An insert needs room for one name more.
        large=$(one "$shape" 4095 "$operation")
        awk -v shape="$shape" -v operation="$operation" -v s="$small" -v m="$middle" -v l="$large" 'BEGIN {
            printf "%-8s %-8s %10d %10d %10d %9.2f\n", shape, operation, s, m, l, log(l / s) / log(64)
        }'
    done
done
