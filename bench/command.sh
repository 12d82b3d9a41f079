#!/bin/sh
# The command on a million records, beside a Python script with struct and a Tcl script with binary scan, and a table of them packed and read:
# bench/command.sh [archive [header folder]]
# Every program makes the same text, which is compared; times are medians of $BENCH_ROUNDS runs (5), in seconds.
# $BENCH_BUILD: folder for what is built; $BENCH_RECORDS: how many records; $BENCH_COMMAND: the command, where it is built already.
set -e
here=$(cd "$(dirname "$0")" && pwd)
root=$(cd "$here/.." && pwd)
archive=${1:-${CURLEW_ARCHIVE:-$root/target/staticlib/libcurlew.a}}
include=${2:-${CURLEW_INCLUDE:-$root/include}}
build=${BENCH_BUILD:-$root/target/bench}
records=${BENCH_RECORDS:-1000000}
rounds=${BENCH_ROUNDS:-5}
layout='a6 A12 Su Su Su c'
mkdir -p "$build"

curlew=${BENCH_COMMAND:-$build/curlew}
[ -n "${BENCH_COMMAND:-}" ] ||
    "${CC:-gcc}" -std=c99 -O2 -Wall -Wextra -I "$include" -o "$curlew" "$root"/command/*.c "$archive" -pthread

# One block of 1,000 different records, as often as it takes.
make_records() {
    awk 'BEGIN { for (i = 0; i < 1000; i++) printf "%sC%05d%-12s", i ? "\n" : "", i, "Name " i * 7919 % 1000 }' |
        while IFS= read -r line || [ -n "$line" ]; do
            printf '%s\001\055\000\111\000\007\375' "$line"
        done > "$build/block"
    i=0
    while [ $i -lt $((records / 1000)) ]; do
        cat "$build/block"
        i=$((i + 1))
    done > "$build/records"
    rm "$build/block"
}

now() {
    date +%s.%N
}

# measure NAME COMMAND..: the median time; what it writes must be what the first one measured since `anew` wrote
measure() {
    name=$1
    shift
    command -v "$1" > /dev/null 2>&1 || { echo "skipped: $name ($1 not found)"; return 0; }
    : > "$build/times"
    i=0
    while [ $i -lt "$rounds" ]; do
        start=$(now)
        "$@" > "$build/text"
        end=$(now)
        echo "$start $end" | awk '{ print $2 - $1 }' >> "$build/times"
        i=$((i + 1))
    done
    [ -f "$build/first" ] || mv "$build/text" "$build/first"
    [ ! -f "$build/text" ] || cmp "$build/text" "$build/first"
    middle=$(sort -n "$build/times" | sed -n "$(((rounds + 1) / 2))p")
    [ -n "${base:-}" ] || base=$middle
    echo "$name|$middle|$base|$records|${goal:-}" | awk -F'|' '{
        printf "  %-28s %7.2f s  %6.2f million records a second  %5.2f times the first", $1, $2, $4 / $2 / 1e6, $2 / $3
        if ($5 != "") printf "%s", $2 / $3 <= $5 ? ", goal " $5 : ", GOAL " $5 " MISSED"
        printf "\n" }'
}

# anew [FILE]: what is measured next writes something else: this, where it is known
anew() {
    rm -f "$build/first"
    [ -z "${1:-}" ] || cp "$1" "$build/first"
}

# flat NAME COMMAND..: the most memory that it takes on a tenth of the records and on all of them, which stand in $file
flat() {
    name=$1
    shift
    [ -x /usr/bin/time ] || { echo "skipped: $name (GNU time not found)"; return 0; }
    tenth=$(/usr/bin/time -f %M "$@" "$build/tenth" 2>&1 > /dev/null)
    whole=$(/usr/bin/time -f %M "$@" "$file" 2>&1 > /dev/null)
    printf '  %-28s %d kB for a tenth of the records, %d kB for all\n' "$name" "$tenth" "$whole"
}

anew
make_records
echo "curlew read --tsv --long '$layout' on $records records"
measure "curlew, one thread" "$curlew" read --tsv --long --records "$layout" "$build/records"
measure "curlew -j, all cores" "$curlew" read --tsv --long --records -j "$layout" "$build/records"
measure "Python, struct" python3 "$here/command.py" "$build/records"
measure "Tcl, binary scan" tclsh8.6 "$here/command.tcl" "$build/records"
echo "the same records as a table with commas, and back"
goal=3
anew
measure "curlew read --csv" "$curlew" read --csv "$layout" "$build/records"
measure "curlew read --csv -j" "$curlew" read --csv -j "$layout" "$build/records"
cp "$build/first" "$build/table"
anew "$build/records"
measure "curlew pack --csv" "$curlew" pack --csv "$layout" "$build/table"
goal=
anew
measure "curlew sheet write --csv" "$curlew" sheet write --csv "$layout" "$build/table"
head -c $((records / 10 * 25)) "$build/records" > "$build/tenth"
file=$build/records
flat "memory, read --csv" "$curlew" read --csv "$layout"
head -n $((records / 10)) "$build/table" > "$build/tenth"
file=$build/table
flat "memory, pack --csv" "$curlew" pack --csv "$layout"
rm -f "$build/first" "$build/text" "$build/records" "$build/times" "$build/table" "$build/tenth"
