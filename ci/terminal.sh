#!/bin/sh
# A session at a terminal: no line that is typed for dfs reaches the shell that dfs was called from. A stand-in for the kit takes
# two seconds, in which more is typed.
# Single quotes keep $((..)) from being computed before it is typed.
# shellcheck disable=SC2016
cd "$(dirname "$0")/.." || exit 2
if ! script --version >/dev/null 2>&1; then
    echo 'terminal.sh: skipped, as there is no command `script` of util-linux' >&2
    exit 0
fi
# shellcheck source=ci/stand_in.sh
. ci/stand_in.sh
export STAND_IN=slow
shown=$room/shown
end=$(printf '\004')
: >"$shown"

# Waits until the terminal shows a text, for at most half a minute.
await() {
    left=150
    until grep -q "$1" "$shown"; do
        left=$((left - 1))
        [ "$left" -gt 0 ] || return 1
        sleep 0.2
    done
}

# What is typed: `leaked-$((40 + 2))` is shown as leaked-42 only by a shell that runs it.
typed() {
    printf '%s shell\n' "$tree/dfs"
    await 'Ctrl-D' || return
    printf 'echo leaked-$((40 + 2)) in\n%s' "$end"
    await 'what is typed until the answer is dropped' || return
    printf 'echo leaked-$((40 + 2)) behind\nrm leaked-$((40 + 2))'
    await 'given: ' || return
    # Then the shell is served again.
    left=60
    until grep -q own-42 "$shown"; do
        left=$((left - 1))
        [ "$left" -gt 0 ] || return
        printf 'echo own-$((40 + 2))\n'
        sleep 0.5
    done
    printf 'exit\n'
}

typed | script -q -c 'PS1= sh' "$room/log" >"$shown" 2>&1
lines=$(tr -d '\r' <"$shown")
case $lines in
*leaked-42*) why='a line that was typed for dfs was run by the shell' ;;
*'given: echo leaked-$((40 + 2)) in'*own-42*) exit 0 ;;
*) why='the session was not as it should be' ;;
esac
printf 'terminal.sh: %s:\n%s\n' "$why" "$lines" >&2
exit 1
