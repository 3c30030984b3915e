#!/usr/bin/env bash
# How long a repair takes beside a check of the same volume, and the most memory that each has: volumes of bench/check.py, each three
# times, just made and so in memory, and with the side file beside them. It prints rows of the table in docs/BENCHMARKS.md.
#
#   bash bench/repair.sh [PROGRAM [CASE:COUNT ..]]      at the top of the repository; by default the proved build of udffsck
source "$(dirname "${BASH_SOURCE[0]}")/timing.sh"

# Each run has a copy of the volume, and no side file.
ready() {
    rm -f "$work/b.img.redo"
    cp --sparse=always "$work/a.img" "$work/b.img"
}

echo '| volume | printed | a check: seconds | MB at most | a repair: seconds | MB at most |'
echo '|---|---|---|---|---|---|'
for row in ${*:-linked:20000 open:20000 spoilt:20000 linked:100000}; do
    python3 -B "$top/bench/check.py" "${row%:*}" "${row#*:}" "$work/a.img"
    check=$(wanted=4 && thrice "$program" -c "$work/b.img")
    repair=$(wanted=1 && thrice "$program" -p "$work/b.img")
    printf '| `%s` | %s | %s | %s |\n' "$row" "$(sed 's/.*: //' "$work/said" | tail -n 1)" "$check" "$repair"
done
