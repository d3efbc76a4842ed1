#!/bin/sh
# Puts the Rust oracle together: a workspace of the eight supplied files of parquet-variant 60.1.0, unchanged, and of what tools/oracle
# has: shims for what was not supplied, and the programs `oracle`, which answers a script of calls, and `differences`. Then builds it.
#
#     tools/oracle.sh SOURCES ORACLE [CONFIG]
#
# SOURCES is the folder with src/builder.rs, src/builder/list.rs and the others, unchanged; ORACLE is the folder to be made.
# The program is then ORACLE/target/release/oracle. Four crates are needed beside it (chrono, half, indexmap, uuid): cargo fetches
# them, or takes them, offline, from where the cargo configuration CONFIG says (as `cargo vendor` prints one).
set -eu
[ $# -ge 2 ] || { echo "usage: $0 SOURCES ORACLE [CONFIG]" >&2; exit 2; }
here=$(cd "$(dirname "$0")" && pwd)
[ ! -e "$2" ] || { echo "$0: $2 is there already" >&2; exit 2; }
for file in builder builder/list builder/metadata builder/object decoder variant variant/decimal variant/metadata; do
    [ -f "$1/src/$file.rs" ] || { echo "$0: $1/src/$file.rs is missing" >&2; exit 2; }
done
cp -R "$here/oracle" "$2"
mkdir -p "$2/parquet-variant/src/builder"
for file in builder builder/list builder/metadata builder/object decoder variant variant/decimal variant/metadata; do
    cp "$1/src/$file.rs" "$2/parquet-variant/src/$file.rs"
done
[ $# -lt 3 ] || config=$(cd "$(dirname "$3")" && pwd)/$(basename "$3")
cd "$2" && cargo build -q --release ${config:+--offline --config "$config"}
