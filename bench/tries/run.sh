#!/usr/bin/env bash
# Builds the static library and the harness, and runs it.
set -euo pipefail
cd "$(dirname "$0")/../.."
bin/staticlib bench_tries
mkdir -p target/bench
rustc --edition 2021 -C opt-level=3 -C target-cpu=x86-64 -o target/bench/tries bench/tries/bench.rs -L target/staticlib -l static=bench_tries
target/bench/tries
