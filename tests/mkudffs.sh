#!/bin/sh
# Checks volumes that other programs made, and compares what is printed and the status with what docs/VOLUMES.md says of them: those of
# mkudffs, of each medium type, revision and block size that it makes, without files, and one of genisoimage, with files. Each is
# checked with its block size given and with the size found. A program that is not installed is passed over, which is told.
# usage: mkudffs.sh PROGRAM
program=$(realpath "$1")
work=$(mktemp -d) || exit 1
trap 'rm -rf "$work"' EXIT
cd "$work" || exit 1
volumes=0
refused=0
failed=0

usage='udffsck: usage: udffsck -c|-p [-B SIZE] [--redo FILE] MEDIUM'
clean='udffsck: a.img: clean'
no_anchor='udffsck: a.img: refused, Anchor'
layout='udffsck: a.img: refused, Layout'
space_tables='udffsck: a.img: refused, Profile SpaceTables'
strategy='udffsck: a.img: refused, Profile Strategy'
unbuilt='udffsck: a.img: refused, Profile Unbuilt'

# status_of LINES: the status with which a check ends that prints these lines
status_of() {
    case $1 in
    "$clean") echo 0 ;;
    "$usage") echo 16 ;;
    *) echo 4 ;;
    esac
}

# check NAME LINES WORDS..: a check of a.img must print the lines and end with their status
check() {
    name=$1 lines=$2
    shift 2
    printed=$("$program" -c "$@" a.img 2>&1)
    answer=$?
    if [ "$printed" != "$lines" ] || [ "$answer" != "$(status_of "$lines")" ]; then
        failed=$((failed + 1))
        printf '%s, udffsck -c %s: status %s, printed:\n%s\nand not:\n%s\n' "$name" "$*" "$answer" "$printed" "$lines"
    fi
}

# volume LINES LINES BLOCKS SIZE REVISION MEDIUM OPTION..: one of mkudffs, with what is printed with the size given, and found
volume() {
    given=$1 found=$2 blocks=$3 size=$4 revision=$5 medium=$6
    shift 6
    rm -f a.img
    if mkudffs -m "$medium" -r "$revision" -b "$size" "$@" --new-file a.img "$blocks" >made 2>&1; then
        volumes=$((volumes + 1))
        check "mkudffs -m $medium -r $revision -b $size $* of $blocks blocks" "$given" -B "$size"
        check "mkudffs -m $medium -r $revision -b $size $* of $blocks blocks" "$found"
    else
        refused=$((refused + 1))
    fi
}

# revisions LINES LINES BLOCKS SIZE MEDIUM OPTION..: a volume of each revision that mkudffs makes of the medium
revisions() {
    wanted=$1 others=$2 many=$3 sized=$4 type=$5
    shift 5
    for of in 1.02 1.50 2.00 2.01 2.50 2.60; do
        volume "$wanted" "$others" "$many" "$sized" "$of" "$type" "$@"
    done
}

# media LINES BLOCKS MEDIUM OPTION..: volumes of each revision and each block size that udffsck takes
media() {
    answer_of_all=$1 count=$2
    shift 2
    for bytes in 512 1024 2048 4096; do
        revisions "$answer_of_all" "$answer_of_all" "$count" "$bytes" "$@"
    done
}

if command -v mkudffs >/dev/null; then
    for medium in hd cd dvd dvdram cdrw; do media "$clean" 20000 "$medium"; done
    media "$layout" 20000 dvdrw
    media "$clean" 20000 dvdrw --packetlen=32
    for medium in cdr dvdr bdr; do media "$unbuilt" 20000 "$medium"; done
    # mkudffs 2.3 makes neither of these: it finds too few blocks, however many there are.
    for medium in mo worm; do media "$clean" 20000 "$medium"; done
    # Volumes that are not as mkudffs makes them unasked.
    for option in --ad=short --ad=long --noefe --read-only --bootarea=mbr --packetlen=32; do media "$clean" 20000 hd "$option"; done
    for option in --space=unalloctable --space=freedbitmap --space=freedtable; do media "$space_tables" 20000 hd "$option"; done
    media "$strategy" 20000 hd --strategy=4096
    media "$unbuilt" 20000 hd --vat
    media "$clean" 500 hd
    media "$layout" 300 hd
    for bytes in 8192 16384 32768; do revisions "$usage" "$no_anchor" 2000 "$bytes" hd; done
    echo "volumes of mkudffs: $volumes checked, $refused not made by it"
else
    echo 'mkudffs is not installed (udftools has it): none of its volumes is checked'
fi

# genisoimage writes another volume set identifier into the reserve sequence, made of its processor time.
if command -v genisoimage >/dev/null; then
    mkdir -p tree/deep/deeper/deepest tree/wide tree/none
    for number in $(seq 100); do head -c $((number * 100)) "$program" >"tree/wide/a file with the number $number"; done
    cp "$program" tree/deep/deeper/deepest
    rm -f a.img
    genisoimage -quiet -udf -o a.img tree >made 2>&1
    lines='V3 -:48 5 5
udffsck: a.img: 1 broken'
    if "$program" -c a.img >made 2>&1; then lines=$clean; fi
    check 'genisoimage -udf' "$lines" -B 2048
    check 'genisoimage -udf' "$lines"
    volumes=$((volumes + 1))
    echo 'volumes of genisoimage: 1 checked'
else
    echo 'genisoimage is not installed: no volume of it is checked'
fi

echo "$volumes volumes, $failed answers are not those of docs/VOLUMES.md"
[ "$failed" = 0 ]
