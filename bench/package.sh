#!/bin/sh
# The Python package on one record and on a million of them, beside struct: bench/package.sh [archive [header folder]]
# $BENCH_BUILD: folder for what is built; $BENCH_RECORDS: how many records; $BENCH_ROUNDS: rounds.
set -e
here=$(cd "$(dirname "$0")" && pwd)
root=$(cd "$here/.." && pwd)
archive=${1:-${CURLEW_ARCHIVE:-$root/target/staticlib/libcurlew.a}}
include=${2:-${CURLEW_INCLUDE:-$root/include}}
build=${BENCH_BUILD:-$root/target/bench}/package

if ! "$root/tools/wheel" --python > /dev/null; then
    echo "skipped: the Python package (it cannot be built here)"
    exit 0
fi
rm -rf "$build"
mkdir -p "$build"
"$root/tools/wheel" "$archive" "$include" "$build" > /dev/null
python3 -m zipfile -e "$build"/curlew-*.whl "$build/installed"
PYTHONDONTWRITEBYTECODE=1 PYTHONPATH=$build/installed python3 "$here/package.py" "${BENCH_RECORDS:-1000000}"
