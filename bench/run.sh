#!/usr/bin/env bash
# Measures the library beside the published Rust: bench/run.sh SRC_FOLDER [ARGUMENT..]
# SRC_FOLDER is the oracle's (oracle/README.md). Builds under target/bench. A ratio means something on a quiet machine only.
set -eu
if [ $# -lt 1 ]; then
    echo "usage: bench/run.sh SRC_FOLDER [MODULE..] [rows=TEXT] [once]" >&2
    exit 2
fi
src=$(cd "$1" && pwd)
shift
cd "$(dirname "$0")/.."
out=$PWD/target/bench
for crate in funnelcress measured; do
    (cd "crates/$crate" && "${RT:-rt}" lib)
done
ORACLE_FLAGS="--cfg uncounted" oracle/build.sh "$src" "$out"
rustc --edition 2024 -C opt-level=3 --crate-name bench -o "$out/bench" -L "$out" --extern obvhs="$out/libobvhs.rlib" \
    --extern glam="$out/libglam.rlib" -L crates/funnelcress/out -L crates/measured/out -l static=funnelcress -l static=measured bench/main.rs
"$out/bench" "$@"
