#!/bin/sh
# The manual page is read without a warning, and lists the commands as `help` does.
cd "$(dirname "$0")/.." || exit 2
page=docs/dfs.1
bad=0

commands=$(sed -n '/^cat cd close /p' examples/files_and_folders.out)
for command in $commands; do
    grep -E '^\.Cm ' "$page" | grep -qw -e "$command" || {
        echo "manual.sh: $page does not name the command $command" >&2
        bad=1
    }
done

case $(man --version 2>/dev/null) in
'man '[0-9]*)
    said=$(man --warnings -l "$page" 2>&1 >/dev/null)
    [ -z "$said" ] || {
        printf 'manual.sh: man warns:\n%s\n' "$said" >&2
        bad=1
    }
    ;;
*) echo 'manual.sh: the page was not set, as there is no man-db' >&2 ;;
esac
exit "$bad"
