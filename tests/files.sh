#!/bin/sh
# Runs a built udffsck on damaged copies of the sample volume, as files: what the cases in memory cannot show. It compares what is
# printed, the status, and what both files hold afterwards.
# usage: files.sh PROGRAM SAMPLE
program=$(realpath "$1")
sample=$(realpath "$2")
work=$(mktemp -d) || exit 1
trap 'rm -rf "$work"' EXIT
cd "$work" || exit 1
runs=0
comparisons=0
failed=0

# The volume that is damaged, and the bytes of its blocks.
whole=$sample
size=512

usage='udffsck: usage: udffsck -c|-p [-B SIZE] [--redo FILE] MEDIUM'
clean='udffsck: a.img: clean'
broken='udffsck: a.img: 1 broken'
no_anchor='udffsck: a.img: refused, Anchor'

# --- damage ---

# fresh: a.img is the whole volume, with no side file
fresh() { rm -f a.img.redo && cp "$whole" a.img && chmod u+w a.img; }

# zero FIRST COUNT: so many blocks hold zeros
zero() { dd if=/dev/zero of=a.img bs="$size" seek="$1" count="$2" conv=notrunc 2>/dev/null; }

# copy FROM TO: a block becomes a copy of another of the whole volume
copy() { dd if="$whole" of=a.img bs="$size" skip="$1" seek="$2" count=1 conv=notrunc 2>/dev/null; }

# tear BLOCK: the first half of a block is that of the whole volume
tear() { dd if="$whole" of=a.img bs=$((size / 2)) skip=$(($1 * 2)) seek=$(($1 * 2)) count=1 conv=notrunc 2>/dev/null; }

# octal N: the lowest byte of a number, in octal digits
octal() { printf '%03o' $(($1 % 256)); }

# --- the log ---

# number N: four bytes, the lowest first
number() { printf "\\$(octal "$1")\\$(octal $(($1 / 256)))\\$(octal $(($1 / 65536)))\\$(octal $(($1 / 16777216)))"; }

# seal FIRST: the SHA-256 digest of the five descriptors from a block on
seal() {
    digest=$(dd if="$whole" bs="$size" skip="$1" count=5 2>/dev/null | sha256sum | cut -c 1-64)
    for digits in $(echo "$digest" | sed 's/../& /g'); do printf "\\$(octal 0x"$digits")"; done
}

# make_log FIRST SECTOR..: the file log is the closed log of these blocks of the whole volume; the kept sequence is that from FIRST
make_log() {
    first=$1
    shift
    {
        printf '\000UDFREDO1'
        for field in "$size" 1024 "$first" 5; do number "$field"; done
        seal "$first"
        number $#
        for sector in "$@"; do
            number "$sector"
            dd if="$whole" bs="$size" skip="$sector" count=1 2>/dev/null
        done
    } >log
}

# leave_open: the side file is the file log with its gate open
leave_open() { cp log a.img.redo && printf 'O' | dd of=a.img.redo bs=1 conv=notrunc 2>/dev/null; }

# gate: the first byte of the side file
gate() { od -An -tx1 -N 1 a.img.redo | tr -d ' '; }

# starts_with_log: so the side file does; what an older, longer log left behind it stands still
starts_with_log() { head -c "$(stat -c %s log)" a.img.redo | cmp -s - log; }

# --- runs ---

# the checksum of the first megabyte, so that a sparse image of 2 TiB is not read whole
sum_of() { head -c 1048576 "$1" 2>/dev/null | cksum; }

# run NAME STATUS LINES WORDS..: a run of the program must print the lines and end with the status
run() {
    name=$1 status=$2 lines=$3
    shift 3
    printed=$("$program" "$@" 2>error)
    answer=$?
    runs=$((runs + 1))
    if [ "$printed" != "$lines" ] || [ "$answer" != "$status" ] || [ -s error ]; then
        failed=$((failed + 1))
        printf '%s: status %s, printed:\n%s\n' "$name" "$answer" "$printed"
    fi
}

# holds TEXT COMMAND..: after the last run the command must succeed
holds() {
    text=$1
    shift
    comparisons=$((comparisons + 1))
    if ! "$@"; then
        failed=$((failed + 1))
        printf '%s: it does not hold that %s\n' "$name" "$text"
    fi
}

# expect NAME STATUS LINES WORDS..: a run that leaves the image and makes no side file
expect() {
    before=$(sum_of a.img)
    run "$@"
    holds 'the image is as it was' [ "$before" = "$(sum_of a.img)" ]
    holds 'no side file was made' [ ! -e a.img.redo ]
}

check() { expect "$1" "$2" "$3" -c -B "$size" a.img; }

# keep: remembers both files, and makes them old, so that any write to them shows
keep() {
    rm -rf kept && mkdir kept
    for file in a.img a.img.redo; do
        if [ -f "$file" ]; then touch -d @0 "$file" && cp -p "$file" kept; fi
    done
}

# is_kept FILE: it holds what it held, and was not written
is_kept() { cmp -s "$1" "kept/$1" && [ "$(stat -c %Y "$1")" = 0 ]; }

is_empty() { [ -f "$1" ] && [ ! -s "$1" ]; }

# side_is_kept: so is the side file, or it was missing and is now empty
side_is_kept() { if [ -e kept/a.img.redo ]; then is_kept a.img.redo; else is_empty a.img.redo; fi; }

# unwritten NAME STATUS LINES: a repair that writes neither file
unwritten() {
    keep
    run "$1" "$2" "$3" -p -B "$size" a.img
    holds 'the image is as it was' is_kept a.img
    holds 'the side file is as it was' side_is_kept
}

# ends_whole: after the last run the image is whole, the log closed, and there is nothing to do for another run
ends_whole() {
    holds 'the image is the whole volume' cmp -s a.img "$whole"
    holds 'the side file is the closed log' starts_with_log
    unwritten "$name, again" 0 "$clean"
}

# mended NAME LINES FIRST SECTOR..: a repair that tells these findings and writes these blocks
mended() {
    told=$1 findings=$2
    shift 2
    make_log "$@"
    run "$told" 1 "$findings
udffsck: a.img: repairing $(($# - 1)) blocks" -p -B "$size" a.img
    ends_whole
}

# settled NAME COUNT: a repair that ends what an earlier one began
settled() {
    run "$1" 1 "udffsck: a.img: replayed $2 blocks
$clean" -p -B "$size" a.img
    ends_whole
}

# is_stop STATUS: that of a kill at a write past the limit, or of a fault of the device, which it is where the signal is ignored
is_stop() { [ "$1" = 8 ] || [ "$(kill -l "$1")" = XFSZ ]; }

# limited LIMIT: a repair that the system kills at a write past so many times 512 bytes of a file (some shells count by 1,024)
limited() {
    (ulimit -c 0; ulimit -f "$1" && exec "$program" -p -B "$size" a.img)
    return $?
}

# stopped NAME LINES LIMIT: a limited repair prints the lines and is stopped
stopped() {
    name=$1
    printed=$(limited "$3" 2>error)
    answer=$?
    runs=$((runs + 1))
    holds 'the lines are printed' [ "$printed" = "$2" ]
    holds 'the run is stopped' is_stop "$answer"
}

# killed CALL K: a repair is killed at its Kth call of this kind to the system; it fails where there are fewer
killed() {
    strace -f -o /dev/null -e "inject=$1:signal=KILL:when=$2" "$program" -p -B "$size" a.img >/dev/null
    [ $? = 137 ]
}

# sweep CALL: a repair of the first sequence and the last anchor, killed at each of its calls of this kind, and run again
sweep() {
    call=$1
    turn=1
    while fresh && zero 96 16 && zero 1023 1 && killed "$call" "$turn" 2>error; do
        name="killed at $call $turn, run again"
        "$program" -p -B "$size" a.img >/dev/null 2>error
        answer=$?
        runs=$((runs + 2))
        holds 'the status is 0 or 1' [ "$answer" -le 1 ]
        ends_whole
        turn=$((turn + 1))
    done
    name="a kill at each $call"
}

# --- checks ---

fresh; check 'sample volume' 0 "$clean"
: >a.img; check 'empty file' 4 "$no_anchor"
: >a.img; truncate -s 2199023255552 a.img; check '2 TiB, sparse' 4 'udffsck: a.img: refused, TooLarge'
fresh; zero 256 1; zero 96 16; check 'first anchor and main sequence zero' 4 "V2 -:256 1 2
V3 -:96 0 5
udffsck: a.img: 2 broken"
fresh; truncate -s 524388 a.img; check 'a trailing part block' 0 "$clean"

# --- checks of files ---

# poke BLOCK OFFSET BYTE..: puts bytes into a block, in decimal
poke() {
    place=$(($1 * size + $2))
    shift 2
    for byte in "$@"; do printf "\\$(octal "$byte")"; done | dd of=a.img bs=1 seek="$place" conv=notrunc 2>/dev/null
}

# peek BLOCK OFFSET COUNT: so many bytes of a block, in decimal
peek() { od -An -v -tu1 -j $(($1 * size + $2)) -N "$3" a.img; }

# retag BLOCK OFFSET COUNT: the tag there gets a CRC over so many bytes behind it, and its checksum (ECMA-167 3/7.2)
retag() {
    crc=0
    for byte in $(peek "$1" $(($2 + 16)) "$3"); do
        crc=$((crc ^ byte << 8))
        for _ in 1 2 3 4 5 6 7 8; do crc=$(((crc << 1 ^ (crc >> 15) * 4129) & 65535)); done
    done
    poke "$1" $(($2 + 8)) "$crc" $((crc / 256)) "$3" $(($3 / 256))
    poke "$1" $(($2 + 4)) 0
    sum=0
    for byte in $(peek "$1" "$2" 16); do sum=$((sum + byte)); done
    poke "$1" $(($2 + 4)) "$sum"
}

# named CHARACTERISTICS BLOCK: the root, whose entry is in block 259, gets the name `a` of a block behind its parent
named() {
    poke 259 256 1 1 3 0 0 0 1 0 0 0 0 0 2 0 0 0 1 0 "$1" 2 0 2 0 0 "$2" 0 0 0 0 0 0 0 0 0 0 0 0 0 8 97
    retag 259 256 24
    for field in 56 64 212; do poke 259 "$field" 80; done
    retag 259 0 280
}

# found NAME FINDING: a check of the damaged copy tells this alone, and writes nothing
found() {
    keep
    check "$1" 4 "$2
$broken"
    holds 'the image is not written' is_kept a.img
}

fresh; zero 64 12; found 'recognition sequence zero' 'V1 -:64 0 3'
fresh; named 0 3; found 'a name of a free block' 'V6 0:2 40 3'
fresh; poke 259 56 41; retag 259 0 240; found 'an embedded root longer than its space' 'V7 0:2 41 40'
fresh; for field in 56 64 212; do poke 259 "$field" 44; done; retag 259 0 244; found 'four bytes behind the names' 'V8 0:2 44 40'
fresh; named 2 2; found 'the root in itself' 'V9 0:2 40 0'
fresh; poke 259 48 3; retag 259 0 240; found 'a link count too high' 'V10 0:2 3 1'
fresh; poke 259 200 5; retag 259 0 240; found 'an identifier of the root' 'V11 0:2 5 0'
fresh; poke 257 36 239; found 'a free block stated as used' 'V12 0:0 1 747'
fresh; poke 112 28 0; retag 112 0 118; found 'an open volume' 'V13 -:112 0 16'
fresh; poke 112 33 2; retag 112 0 118; check 'a further integrity extent' 4 'udffsck: a.img: refused, Profile IntegrityChain'
fresh; zero 258 1; check 'file set zero' 4 'udffsck: a.img: refused, FileSet'
fresh; poke 259 20 0 16; retag 259 0 240; check 'a root of strategy 4096' 4 'udffsck: a.img: refused, Profile Strategy'
fresh; zero 259 1; check 'root zero' 4 'udffsck: a.img: refused, RootDirectory'

# --- repairs ---

fresh; unwritten 'repair of the sample volume' 0 "$clean"
fresh; zero 256 1; mended 'first anchor zero, repaired' 'V2 -:256 1 2' 96 256
holds 'the log has 577 bytes' [ "$(stat -c %s a.img.redo)" = 577 ]
begins=005544465245444f3100020000000400006000000005000000
holds "the log begins with $begins" [ "$(od -An -v -tx1 -N 25 a.img.redo | tr -d ' \n')" = $begins ]
fresh; zero 256 1; zero 96 16; mended 'first anchor and main sequence zero, repaired' 'V2 -:256 1 2
V3 -:96 0 5' 1007 96 97 98 99 100 101 256

# What breaks the rules on recognition, files and space is mended through the same log.
fresh; zero 64 12; mended 'recognition sequence zero, repaired' 'V1 -:64 0 3' 96 64 68 72
fresh; poke 259 48 3; retag 259 0 240; poke 257 36 239; poke 112 28 0; retag 112 0 118
mended 'a link count, a bit and an open volume, repaired' 'V10 0:2 3 1
V12 0:0 1 747
V13 -:112 0 16' 96 112 257 259

# Data in the partition and a part block behind the last one stay.
fresh; seq 1 20000 | dd of=a.img bs=512 seek=400 count=200 conv=notrunc 2>/dev/null
printf 'a part block' >>a.img; cp a.img data.img; whole=$work/data.img
zero 256 1; mended 'first anchor zero beside data, repaired' 'V2 -:256 1 2' 96 256
whole=$sample

fresh; zero 96 16; zero 1007 16; unwritten 'repair of both sequences zero' 4 'udffsck: a.img: refused, Sequence'
: >a.img; rm -f a.img.redo; truncate -s 2199023255552 a.img
run 'repair of 2 TiB, sparse' 4 'udffsck: a.img: refused, TooLarge' -p -B 512 a.img
rm -f a.img

# --- side files ---

fresh; : >a.img.redo; unwritten 'empty side file' 0 "$clean"
fresh; printf hello >a.img.redo; unwritten 'side file hello' 0 "$clean"
zero 256 1; mended 'side file hello, repaired' 'V2 -:256 1 2' 96 256
zero 1007 16; mended 'side file of a shorter log' 'V3 -:1007 0 5' 96 1007 1008 1009 1010 1011 1012
zero 256 1; mended 'side file of a longer log' 'V2 -:256 1 2' 96 256
holds 'the longer log is not cut' [ "$(stat -c %s a.img.redo)" = 3157 ]

fresh; zero 256 1; run 'another side file' 1 'V2 -:256 1 2
udffsck: a.img: repairing 1 blocks' -p -B 512 --redo other.log a.img
holds 'the image is the whole volume' cmp -s a.img "$whole"
holds 'the named file is the log' cmp -s other.log log
holds 'no other side file was made' [ ! -e a.img.redo ]
printf 'O' | dd of=other.log bs=1 conv=notrunc 2>/dev/null; zero 256 1
run 'another side file, open' 1 "udffsck: a.img: replayed 1 blocks
$clean" -p -B 512 --redo other.log a.img
holds 'the image is the whole volume' cmp -s a.img "$whole"
holds 'the log is closed' cmp -s other.log log

fresh; expect 'side file is the medium' 16 'udffsck: a.img: side file is the medium' -p -B 512 --redo a.img a.img
expect 'side file is the medium by another name' 8 '' -p -B 512 --redo ./a.img a.img
ln a.img hard; expect 'side file is a hard link to the medium' 8 '' -p -B 512 --redo hard a.img; rm hard
ln -s a.img soft; expect 'side file is a symbolic link to the medium' 8 '' -p -B 512 --redo soft a.img; rm soft
expect 'side file is a folder' 8 '' -p -B 512 --redo . a.img
expect 'side file in a folder that is not there' 8 '' -p -B 512 --redo missing/a.redo a.img
zero 256 1; expect 'side file without a length' 8 '' -p -B 512 --redo /dev/full a.img
mkfifo pipe; expect 'side file is a pipe' 8 '' -p -B 512 --redo pipe a.img; rm pipe
expect 'side file of a name that is too long' 8 '' -p -B 512 --redo "$(printf '%300s' | tr ' ' x)" a.img

# An image that begins like a log: its own log would be written over it.
for link in 'ln' 'ln -s'; do
    fresh; zero 256 1; cp log a.img.redo; dd if=log of=a.img conv=notrunc 2>/dev/null; rm a.img.redo
    $link a.img link; expect "an image that begins like a log, by $link" 8 '' -p -B 512 --redo link a.img; rm link
done

# --- stops ---

make_log 96 256
fresh; zero 256 1; tear 256; leave_open; settled 'stopped in block 256' 1

findings='V2 -:1023 1 2
V3 -:96 0 5'
told_first="$findings
udffsck: a.img: repairing 7 blocks"
fresh; zero 96 16; zero 1023 1; keep; stopped 'killed in the log' "$told_first" 1
holds 'the image is as it was' is_kept a.img
holds 'the gate is closed' [ "$(gate)" = 00 ]
mended 'killed in the log, run again' "$findings" 1007 96 97 98 99 100 101 1023
fresh; zero 96 16; zero 1023 1; stopped 'killed in the image' "$told_first" 256
holds 'the gate is open' [ "$(gate)" = 4f ]
run 'check after the kill' 4 "V2 -:1023 1 2
$broken" -c -B 512 a.img
stopped 'killed in the replay' '' 256
holds 'the gate is open' [ "$(gate)" = 4f ]
settled 'killed twice, run again' 7

# The front and the body of the log, the gate twice, and seven blocks are eleven writes; the lines go to another file.
make_log 1007 96 97 98 99 100 101 1023
if strace -o /dev/null true 2>/dev/null; then
    sweep write; holds 'the lines are put' [ "$turn" -gt 1 ]
    sweep pwrite64; holds 'there are eleven writes' [ "$turn" -gt 11 ]
    sweep fsync; holds 'there are six syncs' [ "$turn" -gt 6 ]
else
    echo 'skipped without strace: a kill at each write and each sync'
fi

# --- the system's edges ---

# A standard stream that is closed goes nowhere, and is no way into the image: streams CLOSED, as the shell closes them.
for closed in '>&-' '<&-' '<&- >&-' '2>&-' '<&- >&- 2>&-'; do
    for mode in -c -p; do
        for volume in clean broken refused; do
            fresh
            case $volume in
                clean) wanted=0 ;;
                broken) zero 256 1; if [ $mode = -p ]; then wanted=1; else wanted=4; fi ;;
                refused) zero 96 16; zero 1007 16; wanted=4 ;;
            esac
            cp a.img before.img
            eval '"$program" '$mode' -B 512 a.img '"$closed" >printed 2>error
            answer=$?
            runs=$((runs + 1)) name="$mode of a $volume image under $closed"
            holds "the status is $wanted" [ "$answer" = "$wanted" ]
            if [ "$volume$mode" = broken-p ]; then
                holds 'the image is the whole volume' cmp -s a.img "$whole"
                make_log 96 256; holds 'the side file is the closed log' starts_with_log
            else
                holds 'the image is as it was' cmp -s a.img before.img
                holds 'the side file holds nothing' [ ! -s a.img.redo ]
            fi
        done
    done
done

# Two runs at one image: a lock of the system keeps a second one out, a check only while the image may be written.
if command -v flock >/dev/null; then
    fresh; zero 256 1
    exec 7<a.img
    flock -s 7; name='beside a reader'
    expect 'repair beside a reader' 8 '' -p -B 512 a.img
    check 'check beside a reader' 4 "V2 -:256 1 2
$broken"
    flock -u 7; flock -x 7
    expect 'repair beside a writer' 8 '' -p -B 512 a.img
    check 'check beside a writer' 8 ''
    exec 7<&-
    : >a.img.redo; exec 7<a.img.redo; flock -x 7; unwritten 'repair with a side file in use' 8 ''; exec 7<&-
    mended 'repair after the locks' 'V2 -:256 1 2' 96 256
else
    echo 'skipped without flock: two runs at one image'
fi

# A side file that was made is on the medium with its name before it holds a byte.
if strace -o /dev/null true 2>/dev/null; then
    fresh; zero 256 1
    strace -o calls -e trace=openat,open,fsync,lseek,pwrite64,write "$program" -p -B 512 a.img >/dev/null 2>error
    name='the calls of a repair'
    folder=$(grep -n 'open.*"\."' calls | head -n 1 | cut -d : -f 1)
    synced=$(awk -v from="${folder:-0}" 'NR > from && /^fsync/ { print NR; exit }' calls)
    written=$(grep -n '^pwrite64' calls | head -n 1 | cut -d : -f 1)
    holds 'the folder is synced before the first write' [ "${synced:-999999}" -lt "${written:-0}" ]
    holds 'a file is sought in for its length alone' [ "$(grep -c '^lseek' calls)" -le 2 ]
else
    echo 'skipped without strace: the sync of the folder of a new side file'
fi
fresh; zero 256 1; mkdir far; ln -s far/a.redo near.redo
run 'a side file that a link makes' 1 'V2 -:256 1 2
udffsck: a.img: repairing 1 blocks' -p -B 512 --redo near.redo a.img
make_log 96 256; holds 'the log is where the link leads' cmp -s far/a.redo log; rm -r far near.redo

# A write that fails after some of its bytes, and one that fails whole: the image is never touched without its log.
make_log 1007 96 97 98 99 100 101
fresh; zero 96 16; keep
name='a log that does not fit'
(trap '' XFSZ; ulimit -f 1 && exec "$program" -p -B 512 a.img) >/dev/null 2>error; answer=$?; runs=$((runs + 1))
holds 'the status is 8' [ "$answer" = 8 ]
holds 'the image is as it was' is_kept a.img
holds 'the gate is closed' [ "$(gate)" = 00 ]
mended 'a log that does not fit, run again' 'V3 -:96 0 5' 1007 96 97 98 99 100 101

# A sync that fails ends the run; the same command, once the device works again, ends the repair.
if strace -o /dev/null true 2>/dev/null; then
    turn=1
    while fresh && zero 96 16 && strace -f -o /dev/null -e "inject=fsync:error=EIO:when=$turn" "$program" -p -B 512 a.img >/dev/null 2>error; [ $? = 8 ]; do
        runs=$((runs + 1))
        name="after a failed sync $turn, run again"
        "$program" -p -B 512 a.img >/dev/null 2>error; answer=$?
        runs=$((runs + 1))
        holds 'the status is 0 or 1' [ "$answer" -le 1 ]
        holds 'the image is the whole volume' cmp -s a.img "$whole"
        unwritten "$name, and again" 0 "$clean"
        turn=$((turn + 1))
    done
    name='each sync in turn'; holds 'there are six syncs' [ "$turn" -ge 6 ]
fi

# --- files and words ---

rm -f a.img a.img.redo; check 'a file that is not there' 8 ''
expect 'repair of a file that is not there' 8 '' -p -B 512 a.img
mkdir a.img; check 'a directory' 8 ''; expect 'repair of a directory' 8 '' -p -B 512 a.img; rmdir a.img
mkfifo pipe; run 'a pipe without a writer' 8 '' -c -B 512 pipe; run 'repair of a pipe' 8 '' -p -B 512 pipe; rm -f pipe pipe.redo
run 'a device that cannot tell its length' 8 '' -c -B 512 /dev/zero
run 'a name that is too long' 8 '' -c -B 512 "$(printf '%300s' | tr ' ' x)"
run 'repair of a name that is too long' 8 '' -p -B 512 "$(printf '%300s' | tr ' ' x)"
if [ "$(id -u)" = 0 ]; then
    echo 'skipped as root: an image and a side file that may not be written'
else
    fresh; zero 256 1; chmod 444 a.img; expect 'repair of an image that may not be written' 8 '' -p -B 512 a.img
    chmod 644 a.img; : >a.img.redo; chmod 444 a.img.redo; unwritten 'side file that may not be written' 8 ''; chmod 644 a.img.redo
fi
# Output on a device that is full: nothing is written to either file.
for mode in -c -p; do
    for volume in clean broken refused; do
        fresh
        case $volume in
            clean) ;;
            broken) zero 256 1 ;;
            refused) zero 96 16; zero 1007 16 ;;
        esac
        keep
        "$program" $mode -B 512 a.img >/dev/full 2>error; answer=$?
        runs=$((runs + 1)) name="$mode of a $volume image with output that takes no byte"
        holds 'the status is 8' [ "$answer" = 8 ]
        holds 'the image is as it was' is_kept a.img
        holds 'the side file holds nothing' [ ! -s a.img.redo ]
    done
done

fresh
expect 'the block size is found by a check' 0 "$clean" -c a.img
zero 96 16; run 'the block size is found by a repair' 1 'V3 -:96 0 5
udffsck: a.img: repairing 6 blocks' -p a.img
holds 'the image is whole' cmp -s a.img "$whole"
fresh; zero 256 1; expect 'no block size is found' 4 'udffsck: a.img: refused, Anchor' -c a.img

fresh
expect 'no words' 16 "$usage"
expect 'another size' 16 "$usage" -c -B 513 a.img
expect 'a request for help' 16 "$usage" --help

echo "$runs runs, $comparisons comparisons of files, $failed failed"
[ "$failed" = 0 ]
