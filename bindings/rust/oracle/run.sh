#!/usr/bin/env bash
# Compares the package with the published Rust: bindings/rust/oracle/run.sh SRC_FOLDER [TREES]
# SRC_FOLDER is the oracle's (oracle/README.md). Builds under target/compare.
set -eu
if [ $# -lt 1 ]; then
    echo "usage: bindings/rust/oracle/run.sh SRC_FOLDER [TREES]" >&2
    exit 2
fi
src=$(cd "$1" && pwd)
shift
cd "$(dirname "$0")/../../.."
out=$PWD/target/compare
oracle/build.sh "$src" "$out"
(cd bindings/rust && cargo build --release --lib --offline)
rustc --edition 2024 -C opt-level=3 --crate-name compare -o "$out/compare" -L "$out" --extern obvhs="$out/libobvhs.rlib" \
    --extern glam="$out/libglam.rlib" --extern funnelcress=bindings/rust/target/release/libfunnelcress.rlib bindings/rust/oracle/main.rs
"$out/compare" "$@"
