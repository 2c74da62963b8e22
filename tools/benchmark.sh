#!/usr/bin/env bash
# Times views and the decoder over datagrams of one kind at a time, and with many records, each beside a plain loop over
# the same bytes (views); views, the decoder and the encoder over one datagram of each kind, and a tick of the manager
# over settled orders (main); takes of an application over kept requests, and a Stop to all its entities (application).
# Usage: tools/benchmark.sh [views] [main] [application]
# It works on a copy of the repository in a temporary folder, so that the benchmark is no crate of the gate; its source
# has the ending .txt here, since the gate refuses code that no crate holds.
set -eu
top=$(cd "$(dirname "$0")/.." && pwd)
work=$(mktemp -d)
trap 'rm -rf "$work"' EXIT
cp -r "$top/crates" "$top/crates.txt" "$top/HANDLES" "$work/"
cd "$work"
git init -q .
rt new crates/benchmark start_io >&2
rm -rf crates/benchmark/BUILD.bazel BUILD.bazel crates/benchmark/src crates/benchmark/proofs crates/benchmark/specs
rm -f crates/benchmark/stdin crates/benchmark/stdout
mkdir -p crates/benchmark/src
echo 'benchmark: dis_records siman_pdus exercise_recording siman_manager siman_application hex' >> crates.txt
cd crates/benchmark
for part in ${@:-views main application}; do
    cp "$top/tools/benchmark/$part.txt" src/main.rt
    rt run < "$top/tools/benchmark/datagrams.hex"
done
