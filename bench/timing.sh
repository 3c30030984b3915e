# What bench/check.sh and bench/repair.sh share; they source it with their arguments: where things are, and how a command is timed.
set -euo pipefail
top=$(cd "$(dirname "${BASH_SOURCE[0]}")/.." && pwd)
program=$(realpath "${1:-$top/crates/udffsck/out/udffsck}")
shift || true
work=$(mktemp -d)
trap 'rm -rf "$work"' EXIT
# The status that each timed run is to have; empty where any will do.
wanted=''

# ready: called before each timed run
ready() { :; }

# thrice COMMAND..: the least and the most seconds of three runs, and the most memory of any in MB
thrice() {
    local least='' most=0 memory=0 start took kilobytes status
    for _ in 1 2 3; do
        ready
        start=${EPOCHREALTIME/./} status=0
        /usr/bin/time -q -f %M -o "$work/memory" "$@" > "$work/said" 2>&1 || status=$?
        took=$((${EPOCHREALTIME/./} - start))
        if [ -n "$wanted" ] && [ "$status" != "$wanted" ]; then echo "status $status, not $wanted: $*" >&2; exit 1; fi
        kilobytes=$(cat "$work/memory")
        if [ -z "$least" ] || [ "$took" -lt "$least" ]; then least=$took; fi
        if [ "$took" -gt "$most" ]; then most=$took; fi
        if [ "$kilobytes" -gt "$memory" ]; then memory=$kilobytes; fi
    done
    awk "BEGIN { printf \"%.3f to %.3f | %.1f\", $least / 1e6, $most / 1e6, $memory / 1e3 }"
}
