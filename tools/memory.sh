#!/bin/sh
# The kept scripts, the sample and the edges, through variant-script, under valgrind and then with the Rust caller address-sanitized: each
# run must give the kept answers and no report. The sanitizer is an unstable option of rustc, hence RUSTC_BOOTSTRAP.
#
#     tools/memory.sh
set -e
cd "$(dirname "$0")/.."
manifest=bindings/rust/Cargo.toml
target=x86_64-unknown-linux-gnu
data=crates/test_replay/data
answers=$(mktemp)
trap 'rm -f "$answers"' EXIT

cargo build -q --release --offline --manifest-path $manifest --bin variant-script
# kept PROGRAM..: the program's answers are the kept ones
kept() {
    "$@" $data/scripts.txt > "$answers"
    cmp "$answers" $data/answers.txt
    "$@" $data/edges.txt > "$answers"
    cmp "$answers" $data/edges_answers.txt
}
kept valgrind -q --error-exitcode=9 --leak-check=full bindings/rust/target/release/variant-script
echo "valgrind: no report, answers as kept"

RUSTC_BOOTSTRAP=1 RUSTFLAGS=-Zsanitizer=address cargo build -q --release --offline --manifest-path $manifest --target $target \
    --target-dir bindings/rust/target/sanitized --bin variant-script
kept bindings/rust/target/sanitized/$target/release/variant-script
echo "address sanitizer: no report, answers as kept"
