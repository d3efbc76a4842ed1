#!/bin/sh
# Instructions for each of a day's ten thousand records of eight fields through the bindings, counted by callgrind, with fresh and with
# reused buffers, beside the kept figures of tools/instructions.txt: fails where a count is more than a tenth above its figure.
#
#     tools/instructions.sh [--keep]
#
# --keep writes what was counted as the figures to be kept.
set -eu
cd "$(dirname "$0")/.."
kept=tools/instructions.txt
record='8 mixed fields'
bench=bindings/rust/target/release/variant-bench
cargo build -q --release --offline --manifest-path bindings/rust/Cargo.toml --bin variant-bench
counted=$(mktemp)
out=$(mktemp)
trap 'rm -f "$counted" "$out"' EXIT
records=$("$bench" rows | sed -n "s/^$record|//p")
for way in fresh reused; do
    all=$(valgrind --tool=callgrind --callgrind-out-file="$out" --toggle-collect="variant_bench::verified_$way" \
        "$bench" count "verified-$way" "$record" 2>&1 | sed -n 's/.*Collected : //p')
    echo "$way $((all / records))"
done > "$counted"
[ "${1:-}" != --keep ] || cp "$counted" "$kept"
join "$kept" "$counted" | awk '
    { print "instructions a record, " $1 ": " $3 " counted, " $2 " kept" }
    $3 * 10 > $2 * 11 { grown = grown " " $1 }
    $3 == 0 { none = 1 }
    END {
        if (NR != 2 || none) { print "instructions.sh: a count or a kept figure is missing"; exit 1 }
        if (grown) { print "instructions.sh: more than a tenth above the kept figure:" grown; exit 1 }
    }'
