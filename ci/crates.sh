#!/bin/sh
# docs/CRATES.md is made of crates.txt (its groups and their order) and of the heads of the crates. Fails where the file that
# stands is another, or a crate is missing on either side; with --write it writes the file.
cd "$(dirname "$0")/.." || exit 2
page=docs/CRATES.md

# The root file of a crate, which begins with its head.
root() {
    if [ -f "crates/$1/src/lib.rt" ]; then
        echo "crates/$1/src/lib.rt"
    else
        echo "crates/$1/src/main.rt"
    fi
}

# A crate's item: its name, the first line of its head, and the rest of it.
item() {
    sed -n -e '/^\/\/!/!q' -e 's/^\/\/! \{0,1\}//p' "$(root "$1")" | awk -v name="$1" -v uses="$2" '
        BEGIN { body = 0 }
        !body && /^$/ { body = 1; next }
        { text[body] = text[body] (text[body] == "" ? "" : " ") $0 }
        END {
            printf "- **`%s`** %s\n", name, text[0]
            if (text[1] != "") printf "  %s\n", text[1]
            if (uses != "") printf "  *Uses*: %s.\n", uses
        }'
}

made() {
    cat <<'END'
# Crates

Made by `ci/crates.sh --write` of crates.txt and of the heads of the crates: change those. A group has the question that it
answers, and a crate what it is, what a contract sees of it, what it never knows, and the libraries that it uses. A group under
which nothing stands has no crate.
END
    sed 's/[[:space:]]*$//' crates.txt | while IFS= read -r line; do
        case $line in
        '# '*': '*)
            group=${line#\# }
            printf '\n## %s\n' "$group"
            ;;
        '#'* | '') ;;
        *) item "${line%%:*}" "$(echo "${line#*:}" | sed -e 's/^ *//' -e 's/ /, /g')" ;;
        esac
    done
}

# The crates on the disk that crates.txt does not name.
unnamed() {
    for folder in crates/*/; do
        name=$(basename "$folder")
        grep -q "^$name:" crates.txt || echo "$name"
    done
}

if [ "$1" = --write ]; then
    made >"$page"
    exit
fi
[ -z "$(unnamed)" ] || {
    echo "crates.sh: crates.txt does not name $(unnamed | tr '\n' ' ')" >&2
    exit 1
}
made | diff -u "$page" - || {
    echo "crates.sh: $page is stale (ci/crates.sh --write makes it)" >&2
    exit 1
}
