#!/bin/sh
# Runs the generator, tools/replay.py (crates/test_replay/stdin), on a copy of what it reads and writes, and fails if a file there is not the one
# in the tree. The folder out/, which rt makes, is left out.
#
#     tools/generated.sh
set -eu
cd "$(dirname "$0")/.."
copy=$(mktemp -d)
trap 'rm -rf "$copy"' EXIT
tar -cf - --exclude=out crates/test_replay | tar -xf - -C "$copy"
python3 tools/replay.py "$copy"
diff -rq -x out crates/test_replay "$copy/crates/test_replay" ||
    { echo "generated.sh: crates/test_replay is not what its generator writes: run it (python3 tools/replay.py)" >&2; exit 1; }
echo "generated files: as the generator writes them"
