#!/bin/sh
# Instructions for each record, counted by callgrind: the rows of variant-bench, as a table in Markdown.
#
#     tools/speed_counts.sh [RECORD]
#
# RECORD is one row's title, for that row alone. The counts are of the writing loop only, callees included.
set -eu
cd "$(dirname "$0")/../bindings/rust"
cargo build -q --release --offline
bench=target/release/variant-bench
out=$(mktemp)
trap 'rm -f "$out"' EXIT
instructions() {
    valgrind --tool=callgrind --callgrind-out-file="$out" --toggle-collect="variant_bench::$1" \
        "$bench" count "$(echo "$1" | tr _ -)" "$2" 2>&1 | sed -n 's/.*Collected : //p'
}
echo "| Record | plain, fresh | verified, fresh | ratio | plain, reused | verified, reused | ratio |"
echo "|---|---|---|---|---|---|---|"
"$bench" rows | while IFS='|' read -r title records; do
    [ "${1:-$title}" = "$title" ] || continue
    for way in plain_fresh verified_fresh plain_reused verified_reused; do instructions $way "$title"; done | xargs echo |
        awk -v t="$title" -v n="$records" \
            '{ printf "| %s | %.0f | %.0f | %.1f | %.0f | %.0f | %.1f |\n", t, $1/n, $2/n, $2/$1, $3/n, $4/n, $4/$3 }'
done
