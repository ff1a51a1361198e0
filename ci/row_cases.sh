#!/bin/sh
# Compares the cases of a row with ci/row_cases.py, a second reading of the rule of its steps, and the runs of the two scripts of
# which each call fails in turn with what that reading makes of them. Skipped without Python 3.
cd "$(dirname "$0")/.." || exit 2
cases=crates/row_cases/data/cases
if ! python3 -c '' 2>/dev/null; then
    echo 'row_cases.sh: skipped, there is no Python 3' >&2
    exit 0
fi
status=0
python3 ci/row_cases.py "$cases"/*.case || status=1
for made in "$cases"/each_call_of_*_fails_in_turn.case; do
    python3 ci/row_cases.py --make "$made" | cmp - "$made" || status=1
done
exit "$status"
