#!/usr/bin/env python3
"""The mechanical edits of the published files, each applied to a copy: edits.py FOLDER.

An edit drops the lines that a pattern finds, which must be as many as it says, or puts a text in the place of another, which
must stand there once, or adds lines at a file's end.
"""
import pathlib
import re
import sys

# `validate` without its box comparisons: the two assertions on a node's p and its parent's box.
# (The comparison of primitives' boxes is left out by `uses_spatial_splits`, as published.)
DROPPED = [("src/cwbvh/mod.rs", r"^\s*assert!\(node\.p\.cmp", 2)]

# The slot test's near limit is the larger of tmin and EPSILON, in the place of EPSILON alone; a NaN tmin gives EPSILON.
# The slot assignment notes each search that it makes, and the child that takes a slot.
CONVERTER = "src/cwbvh/bvh2_to_cwbvh.rs"
SEARCH = "let mut min_cost = f32::MAX;"
SEAT = "assignment[min_index] = min_slot;"
REPLACED = [
    ("src/cwbvh/node.rs", ".max(EPSILON); //ray.tmin?", ".max(EPSILON.max(ray.tmin));"),
    (CONVERTER, SEARCH, f"crate::seating::search();\n            {SEARCH}"),
    (CONVERTER, SEAT, f"{SEAT}\n            crate::seating::seat(min_index);"),
]

# StackStack is used by cwbvh/mod.rs and is in no published file; nor is what the slot assignment notes.
ADDED = [
    ("src/faststack.rs", "pub mod stack_stack;\npub use stack_stack::StackStack;\n"),
    ("src/lib.rs", "pub mod seating;\n"),
]


def main(folder):
    root = pathlib.Path(folder)
    for name, pattern, count in DROPPED:
        lines = (root / name).read_text().splitlines(keepends=True)
        kept = [line for line in lines if not re.search(pattern, line)]
        if len(lines) - len(kept) != count:
            sys.exit(f"{name}: {len(lines) - len(kept)} lines to drop, not {count}")
        (root / name).write_text("".join(kept))
    for name, old, new in REPLACED:
        text = (root / name).read_text()
        if text.count(old) != 1:
            sys.exit(f"{name}: {text.count(old)} places to change, not 1")
        (root / name).write_text(text.replace(old, new))
    for name, text in ADDED:
        (root / name).write_text((root / name).read_text() + text)


main(sys.argv[1])
