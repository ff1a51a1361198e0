#!/bin/sh
# Runs the gate once and prints what it cost: processor minutes (user and system) and wall time of the whole, and for each crate
# what was seen of its proof, its tests and its must-fail edits, as a table for docs/DEVELOPING.md. Words are those of `rt ci`:
# `bench/gate.sh --anew` proves everything from nothing, where `rt ci` would take what it kept.
cd "$(dirname "$0")/.." || exit 2
work=$(mktemp -d) || exit 2
trap 'rm -rf "$work"' EXIT

# The processor seconds so far of each check below a process: its number, the seconds, the crate, and what is checked.
checks_below() {
    ps -eo pid=,ppid=,cputimes=,args= | awk -v root="$1" '
        { parent[$1] = $2; seconds[$1] = $3; line[$1] = $0 }
        function is_below(pid, at) {
            for (at = pid; at in parent; at = parent[at]) if (parent[at] == root) return 1
            return 0
        }
        END {
            for (pid in line) {
                if (!match(line[pid], /--crate-name [a-z0-9_]+/) || !is_below(pid)) continue
                crate = substr(line[pid], RSTART + 13, RLENGTH - 13)
                kind = line[pid] ~ / --test/ ? "tests" : line[pid] ~ /rattle check / && line[pid] !~ / -o / ? "edits" : "proof"
                print pid, seconds[pid], crate, kind
            }
        }'
}

# The table, and the longest chain of proofs, from what was seen and from crates.txt.
report() {
    awk '
        FNR == NR {
            name = $1; sub(/:$/, "", name)
            if (name !~ /^#/ && name != "") { order[++count] = name; for (at = 2; at <= NF; at++) below[name] = below[name] " " $at }
            next
        }
        { if ($2 > most[$1]) most[$1] = $2; crate[$1] = $3; kind[$1] = $4 }
        function chain(name, parts, size, at, longest, next_name) {
            if (name in reached) return reached[name]
            size = split(below[name], parts, " "); longest = 0; next_name = ""
            for (at = 1; at <= size; at++)
                if (parts[at] in known && chain(parts[at]) > longest) { longest = chain(parts[at]); next_name = parts[at] }
            way[name] = (next_name == "" ? "" : way[next_name] " ") name
            return reached[name] = longest + sum[name, "proof"]
        }
        END {
            for (pid in most) sum[crate[pid], kind[pid]] += most[pid] / 60
            print "| Crate | Proof | Tests | Edits |"; print "|---|---|---|---|"
            for (at = 1; at <= count; at++) {
                known[order[at]] = 1; name = order[at]
                printf "| %s | %.1f | %.1f | %.1f |\n", name, sum[name, "proof"], sum[name, "tests"], sum[name, "edits"]
                proofs += sum[name, "proof"]; tests += sum[name, "tests"]; edits += sum[name, "edits"]
            }
            printf "| all | %.1f | %.1f | %.1f |\n", proofs, tests, edits
            for (at = 1; at <= count; at++) if (chain(order[at]) > chain(top == "" ? order[at] : top) || top == "") top = order[at]
            printf "longest chain of proofs: %.1f processor minutes: %s\n", reached[top], way[top]
        }' crates.txt "$1"
}

start=$(date +%s)
rt ci "$@" >"$work/log" 2>&1 &
gate=$!
while kill -0 "$gate" 2>/dev/null; do
    checks_below "$gate" >>"$work/seen"
    sleep 2
done
wait "$gate"
status=$?
end=$(date +%s)
times >"$work/times"
tail -n 2 "$work/log"
awk -v wall=$((end - start)) '
    function minutes(text, parts) { split(text, parts, "m"); sub(/s$/, "", parts[2]); return parts[1] + parts[2] / 60 }
    NR == 2 { printf "processor minutes: %.1f; wall minutes: %.1f\n", minutes($1) + minutes($2), wall / 60 }' "$work/times"
report "$work/seen"
exit "$status"
