#!/bin/sh
# Shows that a view of a recording cannot outlive its buffer: a crate that uses one while the buffer is there is proved,
# and the same crate that lets the buffer go first is refused, as a move of what is borrowed. It works on a copy of the
# crates below in a temporary folder; its sources have the ending .txt here, since the gate refuses code that no crate
# holds.
set -eu
top=$(cd "$(dirname "$0")/.." && pwd)
work=$(mktemp -d)
trap 'rm -rf "$work"' EXIT
trap 'exit 1' HUP INT TERM
mkdir "$work/crates"
for name in byte_files dis_records siman_pdus exercise_model exercise_recording; do
    cp -r "$top/crates/$name" "$work/crates/"
    grep "^$name:" "$top/crates.txt" >> "$work/crates.txt"
done
cd "$work"
git init -q .
rt new crates/outlives start_lib > /dev/null
rm -rf crates/outlives/BUILD.bazel BUILD.bazel crates/outlives/src crates/outlives/proofs crates/outlives/specs
mkdir crates/outlives/src
echo 'outlives: exercise_recording' >> crates.txt
cd crates/outlives

# Prints what rt says of the crate with this source.
said_of() {
    cp "$top/tools/outlives/$1.txt" src/lib.rt
    rt check 2>&1 || true
}

kept=$(said_of kept)
case $kept in
*"fn outlives::entries: proved"*) echo "kept: proved" ;;
*) printf '%s\n' "$kept" >&2; echo "kept: not proved" >&2; exit 1 ;;
esac
outlived=$(said_of outlived)
case $outlived in
*"fn outlives::entries: proved"*) echo "outlived: proved, and must not be" >&2; exit 1 ;;
*borrow*) echo "outlived: refused"; printf '%s\n' "$outlived" | grep -m 1 'src/lib.rt.*error' ;;
*) printf '%s\n' "$outlived" >&2; echo "outlived: refused for another cause" >&2; exit 1 ;;
esac
