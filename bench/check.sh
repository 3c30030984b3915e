#!/usr/bin/env bash
# How long a check of a clean volume takes, and the most memory that it has: the volumes of bench/check.py, each three times, just
# made and so in memory. Where e2fsprogs are there, e2fsck -fn checks ext4 file systems with the same trees of files. It prints rows of
# the table in docs/BENCHMARKS.md.
#
#   bash bench/check.sh [PROGRAM [CASE:COUNT ..]]      at the top of the repository; by default the proved build of udffsck
source "$(dirname "${BASH_SOURCE[0]}")/timing.sh"

# ext4 CASE COUNT: makes the file system to compare with, or fails where there is none
ext4() {
    command -v mke2fs > "$work/log" && command -v e2fsck > "$work/log" || return 1
    rm -rf "$work/tree" "$work/ext4.img"
    case $1 in
    empty) mke2fs -q -t ext4 "$work/ext4.img" $(($2 * 2))k ;;
    files)
        [ "$2" -le 100000 ] || return 1
        for directory in $(seq $(($2 / 100))); do
            mkdir -p "$work/tree/dirs$(printf %08d "$directory")"
            (cd "$work/tree/dirs$(printf %08d "$directory")" && fill $(seq -f "file%08.0f" 100))
        done
        mke2fs -q -t ext4 -N $(($2 * 5 / 4)) -d "$work/tree" "$work/ext4.img" $(($2 / 40 + 64))M
        ;;
    large)
        mke2fs -q -t ext4 "$work/ext4.img" 1024G
        for file in $(seq "$2"); do
            echo "write /dev/null file$file"
            echo "fallocate file$file 0 2441406"
            echo "set_inode_field file$file size 10000000000"
        done | debugfs -w -f - "$work/ext4.img" > "$work/log" 2>&1
        ;;
    esac > "$work/log" 2>&1
}

# fill FILE..: gives each 2,048 bytes that are no hole
fill() { for file in "$@"; do printf '%2048s' "$file" > "$file"; done; }

echo '| volume | printed | seconds | MB at most | e2fsck -fn: seconds | MB at most |'
echo '|---|---|---|---|---|---|'
for row in ${*:-empty:2294921 files:20000 files:100000 files:1000000 large:100}; do
    case=${row%:*} count=${row#*:}
    python3 -B "$top/bench/check.py" "$case" "$count" "$work/a.img"
    took=$(thrice "$program" -c "$work/a.img")
    said=$(sed 's/.*: //' "$work/said" | tail -n 1)
    rm "$work/a.img"
    beside=' | '
    if ext4 "$case" "$count"; then beside=$(thrice e2fsck -fn "$work/ext4.img"); fi
    printf '| `%s` | %s | %s | %s |\n' "$row" "$said" "$took" "$beside"
done
