#!/usr/bin/env bash
# Runs the library's functions for C and Rust on lent slices full of NaNs, with guards around them: bench/payloads.sh
# It stops at the first bit that is not as the call leaves it. Builds under target/bench.
set -eu
cd "$(dirname "$0")/.."
(cd crates/funnelcress && "${RT:-rt}" lib)
mkdir -p target/bench
rustc --edition 2024 -C opt-level=3 --crate-name payloads -o target/bench/payloads -L crates/funnelcress/out -l static=funnelcress \
    bench/payloads.rs
target/bench/payloads
