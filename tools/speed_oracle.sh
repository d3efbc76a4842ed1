#!/bin/sh
# The verified writer's time against that of parquet-variant itself, in one program; the bytes are compared first.
#
#     tools/speed_oracle.sh ORACLE [ROUNDS]
#
# ORACLE is the workspace that tools/oracle.sh makes. A copy of it, in a temporary folder, gets one more program, made of
# speed_oracle.rs and the modules of variant-bench. It is run twice: with cargo's own release profile, and with that
# of the workspace, which has overflow checks and debug assertions on.
set -eu
[ $# -ge 1 ] || { echo "usage: $0 ORACLE [ROUNDS]" >&2; exit 2; }
repo=$(cd "$(dirname "$0")/.." && pwd)
work=$(mktemp -d)
trap 'rm -rf "$work"' EXIT
cp -r "$1" "$work/rust"
rm -rf "$work/rust/target"
cd "$work/rust"
sed -i 's/members = \[/members = ["speed", /' Cargo.toml
mkdir -p speed/src
cp "$repo/tools/speed_oracle.rs" speed/src/main.rs
for module in cases plain writers; do cp "$repo/bindings/rust/src/bin/variant-bench/$module.rs" speed/src; done
cat >speed/Cargo.toml <<END
[package]
name = "speed"
version = "0.1.0"
edition = "2024"

[dependencies]
chrono = { version = "0.4", default-features = false, features = ["std"] }
parquet-variant = { path = "../parquet-variant" }
variant-writer = { path = "$repo/bindings/rust" }
END
measure() {
    cargo build -q --release --offline -p speed --target-dir "$work/target"
    echo "$1"
    echo
    "$work/target/release/speed" ${rounds:-}
    echo
}
rounds=${2:-}
CARGO_PROFILE_RELEASE_OVERFLOW_CHECKS=false CARGO_PROFILE_RELEASE_DEBUG_ASSERTIONS=false measure "Release profile of cargo:"
measure "Profile of the workspace:"
