#!/bin/sh
# build.sh ARCHIVE TARGET: builds TARGET/tcl against the archive libcurlew.a.
# Then run TARGET/tcl ANSWER.TCL [rounds] [seed], where ANSWER.TCL is answer.tcl beside this file.
set -e
here=$(cd "$(dirname "$0")" && pwd)
archives=$(cd "$(dirname "$1")" && pwd)
target=$2
mkdir -p "$target"
${RUSTC:-rustc} --edition 2021 -O --crate-name tcl -L native="$archives" -l static=curlew -o "$target/tcl" "$here/main.rs"
