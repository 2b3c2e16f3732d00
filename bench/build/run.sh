#!/usr/bin/env bash
# Builds the static library and the harness, and runs it.
set -euo pipefail
cd "$(dirname "$0")/../.."
bin/staticlib bench_build
mkdir -p target/bench
rustc -C opt-level=3 -C target-cpu=x86-64 -o target/bench/build bench/build/bench.rs -L target/staticlib -l static=bench_build
target/bench/build
