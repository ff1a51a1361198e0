#!/bin/sh
# Compares the cases of the page cache with ci/page_cache.py, a second reading of its rule: each case written by hand, and the one
# that is made. Skipped without Python 3; with --write it makes that one anew.
cd "$(dirname "$0")/.." || exit 2
cases=crates/cache_cases/data/cases
made=$cases/each_of_forty_calls_fails_in_turn.case
if ! python3 -c '' 2>/dev/null; then
    echo 'page_cache.sh: skipped, there is no Python 3' >&2
    exit 0
fi
if [ "$1" = --write ]; then
    python3 ci/page_cache.py ci/page_cache.script >"$made"
    exit
fi
status=0
python3 ci/page_cache.py --cases "$cases"/*.case || status=1
python3 ci/page_cache.py ci/page_cache.script | cmp - "$made" || status=1
exit "$status"
