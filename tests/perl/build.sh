#!/bin/sh
# build.sh ARCHIVE TARGET: builds TARGET/perl against the archive libcurlew.a.
# Then run TARGET/perl ANSWER.PL [templates] [seed], where ANSWER.PL is answer.pl beside this file.
set -e
here=$(cd "$(dirname "$0")" && pwd)
archives=$(cd "$(dirname "$1")" && pwd)
target=$2
mkdir -p "$target"
${RUSTC:-rustc} --edition 2021 -O --crate-name perl -L native="$archives" -l static=curlew -o "$target/perl" "$here/main.rs"
