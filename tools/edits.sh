#!/bin/sh
# The must-fail edits that the gate leaves out, edits/NAME/*.edit, tried on a copy of the tree: the prover must refuse each.
#
#     tools/edits.sh [NAME..]
#
# NAME is a crate; without one all that have edits are tried. A line an edit, then 'N refused, M not'; the status is 1 where M is not 0.
# Not refused are: an edit with which the crate is still proved, a bad one (its lines are gone from the source, or it cannot be compiled or
# read), one that was not tried to its end, one whose crate is not proved without it, and one refused by no more than a proof file that has
# become unfit. The copy stands below TMPDIR; rt begins there with what checks on this machine kept. RT_JOBS edits are tried at a time.
set -eu
root=$(cd "$(dirname "$0")/.." && pwd -P)
cd "$root"
[ $# -gt 0 ] || set -- $(ls edits)
for name in "$@"; do
    ls "edits/$name"/*.edit >/dev/null 2>&1 || { echo "edits.sh: there are no edits in edits/$name" >&2; exit 2; }
done

copy=$(mktemp -d)
trap 'rm -rf "$copy"' EXIT
trap 'exit 130' INT TERM
tar -cf - --exclude=out crates crates.txt | tar -xf - -C "$copy"
log=$copy/log

refused=0 not=0
for name in "$@"; do
    rm -rf "$copy/crates/$name/must-fail"
    cp -R "edits/$name" "$copy/crates/$name/must-fail"
    if (cd "$copy/crates/$name" && rt check) >"$log" 2>&1; then
        (cd "$copy" && rt must-fail "$name" 2>&1) | tee "$log" | grep --line-buffered -E '^rt: must-fail ' || true
    else
        tail -n 20 "$log"
        echo "rt: $name NOT PROVED"
        : >"$log"
    fi
    for edit in "edits/$name"/*.edit; do
        said=$(grep -F "rt: must-fail $name/${edit##*/}: " "$log" || true)
        case $said in
            *": refused, as it must be (only because a proof file names"*)
                not=$((not + 1))
                echo "$edit: refused only since a proof file became unfit" ;;
            *": refused, as it must be"*)
                refused=$((refused + 1)) ;;
            *)
                not=$((not + 1))
                echo "$edit: not refused" ;;
        esac
    done
done
echo "$refused refused, $not not"
[ "$not" -eq 0 ]
