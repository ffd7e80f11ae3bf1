#!/usr/bin/env python3
"""Respells the repository's own definitions and lemmas as today's Rattle writes them.

usage: python3 tools/respell.py [--list]      at the top of the repository, once, after the toolchain's own script

A word is in snake case; dashes stay only where each part is the name of a function or a type. Rust's names, types and modules keep their spelling.
--list writes nothing and prints the table and the names that would fall together.
"""
import collections
import os
import re
import sys

DECL = re.compile(r"^(\s*)((?:abbrev |unfoldable |pub |private |axiom )*)([^\s:(){}λ,;.\"@=]+(?: [^\s:(){}λ,;.\"@=]+)*) :(?:\s|$)")
TYPE = re.compile(r"^\s*(?:pub |abbrev |unfoldable )*(?:record|data) ([^\s:(){}]+)")
WORD = re.compile(r'[^\s(){}.;,@"«»]+')
CAMEL = re.compile(r"[a-zα-ω][A-Z]")
# Words of std that functions there have, behind which a dash may stand.
STD = set("""length append map set drop take add mul sub div rem pow min max count replicate reverse filter any all head last sum get get_or
lt le eq land lor lxor not neg suc zero slice_get slice_set slice_range round fits""".split())
# A name whose plain spelling another thing has already.
OTHER = {"is-nan": "is_nan_lem"}


def files(root="crates"):
    for folder, dirs, names in os.walk(root):
        dirs[:] = sorted(d for d in dirs if d != "out")
        for name in sorted(names):
            if name.endswith((".antt", ".rt", ".edit")):
                yield os.path.join(folder, name)


def own_lemma_file(path):
    """A file of definitions or lemmas, and not a function's proof."""
    parts = path.split(os.sep)
    return path.endswith(".antt") and (parts[2] == "specs" or parts[2] == "proofs" and len(parts) == 4)


def declared():
    """Each name declared in a file of definitions or lemmas, with its places, and which of them are functions of specs/."""
    places, functions, types = collections.defaultdict(set), set(), set()
    for path in files():
        if not own_lemma_file(path):
            continue
        for line in open(path, encoding="utf-8"):
            m = TYPE.match(line)
            if m:
                types.add(m[1])
            m = DECL.match(line)
            if m and "→" not in m[3] and "--" not in m[3]:
                for name in m[3].split():
                    places[name].add(path)
                    if path.split(os.sep)[2] == "specs" and not m[1]:
                        functions.add(name)
    return places, functions, types


def snake(word):
    """`halfArea` as `half_area`; a type's name inside keeps its capital."""
    word = re.sub(r"([a-z0-9α-ω])([A-Z])(?![A-Z])", lambda m: m[1] + "_" + m[2].lower(), word)
    return re.sub(r"([a-zα-ω])([A-Z]+)", lambda m: m[1] + "_" + m[2], word)


def spell(name, heads):
    if name in OTHER:
        return OTHER[name]
    chunks = re.split(r"(?<=[^-])-(?=[^-])", name)
    out = ("-" if all(c in heads for c in chunks) else "_").join(chunks)
    parts = re.split(r"([-_])", out)
    return "".join(snake(p) if p[:1].islower() else p for p in parts)


def imported():
    """The names that some file takes from a module that isn't the repository's."""
    own = set(os.listdir("crates"))
    found = set()
    for path in files():
        text = open(path, encoding="utf-8").read()
        for m in re.finditer(r"^(?:ghost )?use ([\w.'+-]+?)\.\{([^}]*)\}", text, re.M):
            parts = m[1].split(".")
            if not (parts[0] == "Rattle" and len(parts) > 1 and parts[1] in own):
                found |= {w.strip() for part in m[2].split(",") for w in part.split(" as ")}
    return found


def table():
    """Old and new spellings. Where a lemma would have a function's name it gets `_lem`."""
    places, functions, types = declared()
    heads = {f for f in functions if "-" not in f} | types | STD
    theirs = imported()
    names = {}
    for name in sorted(places):
        if name not in theirs and ("-" in name or CAMEL.search(name)) and spell(name, heads) != name:
            names[name] = spell(name, heads)
    camel = {to for old, to in names.items() if CAMEL.search(old) and "-" not in old}
    for name in sorted(places):
        if names.get(name, name) in camel and not (CAMEL.search(name) and "-" not in name):
            names[name] = names.get(name, name) + "_lem"
    kept = {n for n in places if n not in names}
    for name, to in sorted(names.items()):
        if to in kept and not to.endswith("_lem"):
            names[name] = to + "_lem"
    return names, places


def turned(m, code, names, path):
    """The word's new spelling. One that Rust may use too, and that only gets `_lem`, stays in Rust and in paths."""
    word = m[0]
    if "-" not in word and not CAMEL.search(word):
        if not path.endswith(".antt") or code[m.start() - 1 : m.start()] == "." or code[m.end() : m.end() + 1] == ".":
            return word
    return names.get(word, word)


def respelled(text, names, path):
    out = []
    for line in text.split("\n"):
        code, dash, comment = line, "", ""
        mark = "//" if path.endswith(".rt") else "--"
        at = line.find(mark)
        if path.endswith((".rt", ".antt")) and at >= 0 and (at == 0 or line[at - 1].isspace()):
            code, comment = line[:at], line[at:]
        code = WORD.sub(lambda m: turned(m, code, names, path), code)
        comment = WORD.sub(lambda m: names.get(m[0], m[0]) if CAMEL.search(m[0]) else m[0], comment)
        out.append(code + comment)
    return "\n".join(out)


def pages():
    for root in ("docs", "bench", "oracle", "bindings", "examples"):
        for folder, dirs, names in os.walk(root):
            for name in sorted(names):
                if name.endswith(".md"):
                    yield os.path.join(folder, name)
    yield "README.md"


def rust_names():
    found = collections.defaultdict(set)
    for path in files():
        if path.endswith(".rt"):
            text = open(path, encoding="utf-8").read()
            for kind, name in re.findall(r"\b(fn|const|let mut|let|mut)\s+([a-z_A-Z]\w*)", text):
                found[name].add(path)
            for name in re.findall(r"\b([a-z_]\w*):\s", text):
                found[name].add(path)
    return found


def main():
    names, places = table()
    new = collections.defaultdict(set)
    for old, to in names.items():
        new[to].add(old)
    rust = rust_names()
    if "--list" in sys.argv:
        for to, olds in sorted(new.items()):
            both = olds | ({to} if to in places else set())
            if len(both) > 1:
                print("falls together:", to, {o: sorted(places[o])[:3] for o in both})
            if to in rust:
                print("rust:", to, sorted(olds), sorted(rust[to])[:3], sorted(set().union(*(places[o] for o in olds)))[:3])
        for old, to in sorted(names.items()):
            print("table:", old, to)
        return
    for path in files():
        text = open(path, encoding="utf-8").read()
        after = respelled(text, names, path)
        if after != text:
            with open(path, "w", encoding="utf-8") as f:
                f.write(after)
    known = set()
    for path in files():
        known |= set(WORD.findall(open(path, encoding="utf-8").read()))
    heads = set()

    def in_page(w):
        word = w[0]
        if word in names and ("-" in word or CAMEL.search(word)):
            return names[word]
        plain = [s for s in (spell(word, heads), word.replace("-", "_")) if s in known]
        return plain[0] if word not in known and plain else word

    for path in pages():
        text = open(path, encoding="utf-8").read()
        spans = re.sub(r"`[^`\n]+`", lambda m: re.sub(r"[^\s(){}.;,@\"«»`/]+", in_page, m[0]), text)
        if spans != text:
            with open(path, "w", encoding="utf-8") as f:
                f.write(spans)
    print(len(names), "names")


if __name__ == "__main__":
    main()
