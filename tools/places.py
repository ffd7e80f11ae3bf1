#!/usr/bin/env python3
"""Counts the places of older forms in crates/*/src/*.rt, point by point of docs/DESIGN-PASS.md.

usage: python3 tools/places.py [POINT..] [--list]      at the top of the repository; --list prints each place

1  enums, numbers for kinds and refusals, flags beside values      2  twins: functions that differ only in types, sizes and constants
3  loops that count an index by hand                               4  equality, order, copying, conversion and printing by hand
5  facts and parameters that go through three functions or more    6  buffers with a length beside, parallel arrays, arenas
7  switches on which step to run                                   8  lemmas that no other line of the repository names
"""
import collections
import glob
import itertools
import re
import sys

KINDS = r"\b(?:u8|u16|u32|u64|usize|f32)\b"


def matching(text, at, opening, closing):
    depth = 0
    while at < len(text):
        if text.startswith("//", at):
            at = text.index("\n", at)
        elif text[at] == '"':
            at = re.compile(r'"(?:\\.|[^"\\])*"').match(text, at).end() - 1
        elif re.compile(r"b?'(?:\\.|[^'\\])'").match(text, at):
            at = re.compile(r"b?'(?:\\.|[^'\\])'").match(text, at).end() - 1
        elif text[at] == opening:
            depth += 1
        elif text[at] == closing:
            depth -= 1
            if depth == 0:
                return at
        at += 1
    raise ValueError("unbalanced")


class Function:
    def __init__(self, path, text, start):
        self.path, self.line = path, text.count("\n", 0, start) + 1
        self.name = re.compile(r"fn (\w+)").search(text, start).group(1)
        opening = text.index("(", start)
        end = matching(text, opening, "(", ")")
        self.params = [re.sub(r"\s+", " ", p).strip() for p in re.split(r",(?![^<(\[]*[>)\]])", text[opening + 1:end]) if p.strip()]
        at, self.clauses = end + 1, []
        arrow = re.compile(r"\s*->\s*([^{]*?)(?=\s*(?:requires|ensures|ghost|where|\{))", re.S).match(text, at)
        self.result = re.sub(r"\s+", " ", arrow.group(1)).strip() if arrow else ""
        at = arrow.end() if arrow else at
        while True:
            at = re.compile(r"(?:\s|//[^\n]*\n)*").match(text, at).end()
            clause = re.compile(r"(requires|ensures|ghost)\*?(?:\s+\w+:?)?\s*\{").match(text, at)
            if clause:
                close = matching(text, clause.end() - 1, "{", "}")
                self.clauses.append((clause.group(1), re.sub(r"\s+", " ", text[clause.end():close]).strip()))
                at = close + 1
            elif text[at] in "{;":
                break
            else:
                at += 1
        self.body = text[at:matching(text, at, "{", "}") + 1] if text[at] == "{" else ""
        self.start = at

    def place(self):
        return f"{self.path}:{self.line}: {self.name}"


def read():
    for path in sorted(glob.glob("crates/*/src/**/*.rt", recursive=True)):
        text = open(path).read()
        found = [Function(path, text, m.start()) for m in re.finditer(r"^ *(?:pub(?:\(crate\))? )?(?:const )?(?:extern \"C\" )?fn \w+", text, re.M)]
        yield path, text, found


def lines(texts, pattern):
    for path, text in texts:
        for number, line in enumerate(text.split("\n"), 1):
            code = line.split("//")[0]
            if re.search(pattern, code):
                yield f"{path}:{number}: {line.strip()}"


def kinds(texts, functions):
    yield "own enums", list(lines(texts, r"\benum \w+"))
    cause = [f.place() for f in functions if f.result in ("u32", "u64") and any(
        k == "ensures" and re.search(r"(?<!cause_of )result (?:≡|.*cause)", c) and re.search(r"cause|refus", c + f.name) for k, c in f.clauses)]
    yield "causes as numbers: functions that give one", cause
    yield "causes as numbers in a variant or a call", list(lines(texts, r"(?:Refused|Faulty)\((?:\d+|u32|number|cause|k)\)"))
    yield "kinds as numbers", list(lines(texts, r"words::(?:kind|below_kind)\(|\bkind: u(?:8|32|64)|\bkind ==|match kind\b"))
    yield "flags in a struct", list(lines(texts, r"^ +(?:pub )?\w+: bool,$"))


def twins(texts, functions):
    groups = collections.defaultdict(list)
    for f in functions:
        body = re.sub(r"//[^\n]*", "", f.body)
        if body.count("\n") < 3:
            continue
        key = re.sub(r"\b(?:0x[0-9a-f_]+|\d[\d_.]*(?:u8|u32|u64|usize|f32)?)\b", "N", re.sub(KINDS, "T", body))
        key = re.sub(r"\b[A-Z][A-Z_]+\b", "N", key).replace(f.name + "(", "self(")
        names = {}
        key = re.sub(r"\b[a-z_]\w*\b", lambda m: names.setdefault(m.group(0), f"v{len(names)}") if not re.match(
            r"(?:let|mut|while|for|in|if|else|return|match|as|loop|true|false|break|fn|self|len)$", m.group(0)) else m.group(0), key)
        groups[re.sub(r"\s+", " ", key)].append(f.place())
    yield "functions of one shape", [" ~ ".join(g) for g in groups.values() if len(g) > 1]


def loops(texts, functions):
    found, shape = [], []
    for path, text in texts:
        for m in re.finditer(r"^ *(?:'\w+: )?while ([^\n]*)\{$", text, re.M):
            body = text[m.end() - 1:matching(text, m.end() - 1, "{", "}")]
            if any(re.search(rf"\b{name} [+-]= 1;", body) for name in re.findall(r"\b[a-z_]\w*\b", m.group(1))):
                found.append(f"{path}:{text.count(chr(10), 0, m.start()) + 1}: while {m.group(1)}")
        for m in re.finditer(r"^ *for (\w+) in 0\.\.(\w+)\.len\(\) \{$", text, re.M):
            body = text[m.end() - 1:matching(text, m.end() - 1, "{", "}")]
            uses = re.findall(rf"\b{m.group(1)}\b", body)
            if len(uses) == len(re.findall(rf"\b{m.group(2)}\[{m.group(1)}\]", body)):
                shape.append(f"{path}:{text.count(chr(10), 0, m.start()) + 1}: {m.group(0).strip()}")
    yield "while loops that step by one", found
    yield "for loops whose index only reads the slice", shape


def by_hand(texts, functions):
    yield "equality and order", [f.place() for f in functions if re.match(r"(?:is_)?(?:same|equal|greater|lesser|less)(?:_|$)", f.name) and f.result == "bool"
                                 or f.name in ("greater", "lesser", "cheaper_of")]
    yield "conversion", [f.place() for f in functions if re.match(r"(?:wide|packed|unpacked|pattern|low_byte|code|.*_number|verdict_of|tagged)$", f.name)]
    copies = []
    for path, text in texts:
        for m in re.finditer(r"\b([A-Z]\w+) \{((?:\s*\w+: (\w+(?:\.\w+)*)\.\w+,?)+\s*)\}", text):
            pairs = re.findall(r"(\w+): ([\w.]+)\.(\w+)", m.group(2))
            if len(pairs) > 1 and all(a == c for a, b, c in pairs) and len({b for a, b, c in pairs}) == 1:
                copies.append(f"{path}:{text.count(chr(10), 0, m.start()) + 1}: {m.group(1)}")
    yield "a struct copied field by field", copies
    yield "slices copied or filled element by element", list(lines(texts, r"^\s*\w+\[(?:\w+ \+ )?(\w+)\] = (?:\w+\[(?:\w+ \+ )?\1\]|0|0\.0|x);$"))


def together(texts, functions):
    facts = collections.defaultdict(set)
    for f in functions:
        for kind, clause in f.clauses:
            if kind == "requires":
                for part in re.split(r" × ", clause.strip("() ")):
                    facts[(f.path.split("/")[1], part.strip("() "))].add(f.place())
    yield "facts required by three functions or more of a crate", [f"{c}: {p}  ({len(s)})" for (c, p), s in sorted(facts.items()) if len(s) > 2]
    groups = collections.defaultdict(list)
    for f in functions:
        names = sorted(p for p in f.params if ":" in p)
        for pair in itertools.combinations(names, 2):
            groups[pair].append(f)
    alone = collections.Counter(p for f in functions for p in set(f.params))
    pairs = [f"{a}, {b}  ({len(g)})" for (a, b), g in sorted(groups.items()) if len(g) > 2 and (alone[a] == len(g) or alone[b] == len(g))]
    yield "pairs of parameters that three functions or more take, one never without the other", pairs


def buffers(texts, functions):
    yield "a place beside a buffer that is written", [f.place() for f in functions if any(re.match(r"out: &mut \[u8\]", p) for p in f.params)
                                                      and any(p == "at: usize" for p in f.params)]
    yield "a stack with its depth beside", [f.place() for f in functions if any("[u64" in p and "stack" in p for p in f.params)
                                            and any(p.startswith("depth:") for p in f.params)]
    yield "decisions and costs side by side", [f.place() for f in functions if any(p.startswith("decisions:") for p in f.params)
                                               and any(p.startswith("costs:") for p in f.params)]
    yield "arrays with a count beside", [f.place() for f in functions if any(re.search(r"\[\w+(?:; 8\])", p) for p in f.params)
                                         and any(re.match(r"(?:n|count): ", p) for p in f.params)]


def switches(texts, functions):
    yield "a number or a flag that says which", list(lines(texts, r"match kind\b|^ *ordered: bool,|fits: bool,"))
    yield "function pointers, tables, dyn", list(lines(texts, r"\bdyn \w|: fn\("))


def uncited(texts, functions):
    words = collections.Counter()
    laws = []
    for path in glob.glob("crates/**/*.antt", recursive=True) + glob.glob("crates/**/*.rt", recursive=True) + glob.glob("docs/*.md") + ["README.md"]:
        if "/out/" in path or path.endswith(("DESIGN-PASS.md", "PORT.md", "PORT-NAMES.md")):
            continue
        text = open(path).read()
        words.update(re.findall(r"[^\s(){}.;,`|\[\]]+", re.sub(r"^ *--[^\n]*", "", text, flags=re.M).replace("::", " ")))
        if re.match(r"crates/\w+/proofs/\w+\.antt$", path):
            for m in re.finditer(r"^( *)pub ([\w'*◌≡≤<+\-]+) : ", text, re.M):
                own = re.findall(rf"(?m)^{m.group(1)}(?:pub )?{re.escape(m.group(2))} ", text)
                laws.append((path, m.group(2), len(own)))
    yield "laws of proofs/ that nothing else names", [f"{p}: {n}" for p, n, own in sorted(laws) if words[n] <= own]


POINTS = {"1": kinds, "2": twins, "3": loops, "4": by_hand, "5": together, "6": buffers, "7": switches, "8": uncited}


def main():
    chosen = [a for a in sys.argv[1:] if a in POINTS] or list(POINTS)
    contents = list(read())
    texts = [(path, text) for path, text, found in contents]
    functions = [f for path, text, found in contents for f in found]
    for point in chosen:
        for title, found in POINTS[point](texts, functions):
            print(f"{point}  {title}: {len(found)}")
            if "--list" in sys.argv:
                for place in found:
                    print(f"     {place}")


main()
