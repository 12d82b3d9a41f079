#!/bin/sh
# build.sh ARCHIVE TARGET: builds TARGET/second against the archive libcurlew.a, and the twin as
# TARGET/libtwin.a and TARGET/libtwin.so. Then run TARGET/second [rounds] [seed].
set -e
here=$(cd "$(dirname "$0")" && pwd)
archives=$(cd "$(dirname "$1")" && pwd)
target=$2
mkdir -p "$target"
build="${RUSTC:-rustc} --edition 2021 -O"
$build --crate-name second -L native="$archives" -l static=curlew -o "$target/second" "$here/main.rs"
$build -C panic=abort --crate-name twin --crate-type staticlib -o "$target/libtwin.a" "$here/exports.rs"
$build -C panic=abort --crate-name twin --crate-type cdylib -o "$target/libtwin.so" "$here/exports.rs"
