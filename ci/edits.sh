#!/bin/sh
# Tries the wrong bodies of the repository, those of the gate (must-fail/*.edit) and those kept beside it (must-fail/*.md), on a
# copy: the prover must refuse each. It is no part of the gate, which tries the first alone; with --beside it tries only the
# second. Further words are names of crates, with which those below them are tried too; none means all. What the gate has proved on
# this machine is not proved again. Its last line is `N refused, M not`, of the crates named.
cd "$(dirname "$0")/.." || exit 2
beside=
case $1 in
--beside) beside=1; shift ;;
esac
work=$(mktemp -d) || exit 2
trap 'rm -rf "$work"' EXIT
git ls-files -z crates crates.txt HANDLES | xargs -0 cp --parents -t "$work" || exit 2
cd "$work" || exit 2
[ -z "$beside" ] || rm -f crates/*/must-fail/*.edit
for kept in crates/*/must-fail/*.md; do
    [ -e "$kept" ] && mv "$kept" "${kept%.md}.edit"
done
names=${*:-$(ls crates/*/must-fail/*.edit | cut -d / -f 2 | sort -u)}
rt ci $names 2>&1 | tee log | grep '^rt: must-fail .*\.edit: '
any=$(echo $names | tr ' ' '|')
tried=$(find crates -name '*.edit' | grep -cE "^crates/($any)/must-fail/")
refused=$(grep -cE "^rt: must-fail ($any)/.*\.edit: refused, as it must be" log)
echo "$refused refused, $((tried - refused)) not"
[ "$refused" -eq "$tried" ]
