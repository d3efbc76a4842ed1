#!/bin/sh
# Fails where a file says at its top that it is derived from a Rust file and NOTICE does not list it, or the other way round.
#
#     tools/notice.sh
set -eu
cd "$(dirname "$0")/.."
said=$(find crates bindings \( -name '*.rt' -o -name '*.rs' \) -not -path '*/target/*' -exec grep -lE '^// .*[Dd]erived from ' {} + | sort)
listed=$(sed -n 's/^    \([a-z][^ ]*\.r[ts]\)  *.*/\1/p' NOTICE | sort)
[ "$said" = "$listed" ] || {
    echo "notice.sh: NOTICE and the files' own words differ; said there only, or listed only:" >&2
    printf '%s\n' "$said" "$listed" | sort | uniq -u >&2
    exit 1
}
echo "NOTICE: lists the derived files"
