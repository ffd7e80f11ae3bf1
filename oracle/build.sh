#!/usr/bin/env bash
# Builds the oracle from the published Rust: build.sh SRC_FOLDER OUT_FOLDER
# SRC_FOLDER holds src/aabb.rs, src/cwbvh/.. as published; it is only read. No network, no cargo.
set -eu
if [ $# -ne 2 ]; then
    echo "usage: oracle/build.sh SRC_FOLDER OUT_FOLDER" >&2
    exit 2
fi
here=$(cd "$(dirname "$0")" && pwd)
src=$1
out=$2
flags=(--edition 2024 -C opt-level=3 --cap-lints allow ${ORACLE_FLAGS:-})

rm -rf "$out/obvhs"
mkdir -p "$out/obvhs"
for f in lib.rs aabb.rs ray.rs faststack.rs bvh2/mod.rs cwbvh/mod.rs cwbvh/node.rs cwbvh/bvh2_to_cwbvh.rs cwbvh/traverse_macro.rs; do
    mkdir -p "$out/obvhs/src/$(dirname "$f")"
    cp "$src/src/$f" "$out/obvhs/src/$f"
    chmod u+w "$out/obvhs/src/$f"
done
cp -r "$here/standins/src/." "$out/obvhs/src/"
python3 "$here/edits.py" "$out/obvhs"

cd "$out"
rustc "${flags[@]}" --crate-type proc-macro --crate-name bytemuck_derive "$here/standins/bytemuck_derive.rs"
rustc "${flags[@]}" --crate-type rlib --crate-name bytemuck --extern bytemuck_derive=libbytemuck_derive.so "$here/standins/bytemuck.rs"
rustc "${flags[@]}" --crate-type rlib --crate-name glam "$here/standins/glam.rs"
rustc "${flags[@]}" --crate-type rlib --crate-name log "$here/standins/log.rs"
rustc "${flags[@]}" --crate-type rlib --crate-name obvhs -L . --extern glam=libglam.rlib --extern bytemuck=libbytemuck.rlib \
    --extern log=liblog.rlib obvhs/src/lib.rs
if [ -e "$here/driver/main.rs" ]; then
    rustc "${flags[@]}" --crate-name oracle -L . --extern obvhs=libobvhs.rlib --extern glam=libglam.rlib -o oracle "$here/driver/main.rs"
fi
