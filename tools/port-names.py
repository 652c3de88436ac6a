#!/usr/bin/env python3
"""Brings the names of this repository's definitions and lemmas to today's spelling, once, after port.py.

usage: python3 tools/port-names.py            at the top of the repository: rewrites crates/ in place
       python3 tools/port-names.py --look     lists what would be renamed and what falls together, and writes nothing

Words (definitions, lemmas, fields, what a proof binds) are in snake case, types in camel case. Names of the
library, of src/ and of what Rattle makes stay. Edits of definitions are turned with the definitions.
"""
import collections
import glob
import os
import re
import subprocess
import sys

ROOT = os.getcwd()

# what port.py garbled, and names that would fall together with another
GIVEN = {
    # what port.py garbled
    "Copy-is": "copy_is",
    "entry_IsPlace": "entry_place",
    "no_Walk": "no_walk",
    "get_d_map": "get_or_map",
    "getD-joined": "get_or_joined",
    "getD-list": "get_or_list",
    "shr_slice_at": "slice_at",
    "Reading-off": "ReadingOff",
    # names that an import or a pattern gives
    "weightOf": "weight_of",
    "counterOf": "counter_of",
    "pointerOf": "pointer_of",
    "noLine": "no_line",
    "at-hand": "at_hand",
    # a lemma or a local name that would have its definition's name
    "flip-out": "flip_out_lem",
    "if-lt": "if_lt_lem",
    "module-in": "module_in_lem",
    "moves-on": "moves_on_lem",
    "next-rank": "next_rank_lem",
    "of-digits": "of_digits_lem",
    "open-digit": "open_digit_lem",
    "rank-read": "rank_read_lem",
    "refused-at": "refused_at_shown",
    "setting-in": "setting_in_lem",
    "step-flip": "step_flip_lem",
    "tells-rank": "tells_rank_lem",
    "walk-look": "walk_look_lem",
    "walk-rank": "walk_rank_lem",
    "is-full": "is_full_lem",
    "next-setting": "next_setting_lem",
    # a definition that would have the name of a function of src/
    "entryPlace": "entry_place_lem",
    "goesOn": "goes_on_lem",
    "inByte": "in_byte_lem",
    "inEntry": "in_entry_lem",
    "lastDigit": "last_digit_lem",
    "lowestDigit": "lowest_digit_lem",
    "noWalk": "no_walk_lem",
    "refusedAt": "refused_at_lem",
    "runEnd": "run_end_lem",
    "stretchAt": "stretch_at_lem",
    "walkOf": "walk_of_lem",
}

# what port.py made of this repository's own names: for the edits and the pages, which it doesn't turn
PORTED = {
    "_+_": "◌+◌", "_-_": "◌-◌", "_*_": "◌*◌",
    "nOf": "n_of", "kOf": "k_of", "bytesOf": "bytes_of", "numberIn": "number_in", "firstOf": "first_of",
    "answerOf": "answer_of", "placeOf": "place_of", "rankOf": "rank_of", "orElse": "or_else", "symbolAt": "symbol_at",
    "countOf": "count_of", "moduleOf": "module_of", "settingOf": "setting_of", "listOf": "list_of", "rankAt": "rank_at",
    "numberOf": "number_of", "wordAt": "word_at", "offsetOf": "offset_of", "lineOf": "line_of", "lineAt": "line_at",
    "pairAt": "pair_at", "linesOf": "lines_of", "Reading-off": "ReadingOff",
}

TOKEN = re.compile(r"[^\s(){};,.«»`\"]+")
WORD = re.compile(r"^[A-Za-zℕμκ⊎][\w'₀₁₂₃-]*$")
DEFINED = re.compile(r"^\s*(?:abbrev |unfoldable |pub )*(?:record |data )?(?:pub )?([^\s:(){};,.]+)\s*((?:\([^()]*\)|\{[^{}]*\}|\s)*):(?:\s|$)")


def texts(ending):
    for folder, dirs, files in os.walk(os.path.join(ROOT, "crates")):
        dirs[:] = sorted(d for d in dirs if d != "out")
        for f in sorted(files):
            if f.endswith(ending):
                yield os.path.join(folder, f)


def read(path):
    with open(path, encoding="utf-8") as f:
        return f.read()


def uses(text):
    """The imports of a file: (module, names)."""
    for m in re.finditer(r"(?m)^\s*(?:ghost )?use ([^\s{;]+?)\.\{([^}]*)\}", text):
        yield m.group(1), [n.strip().split(" as ")[0].strip() for n in m.group(2).split(",")]


def code(line, mark):
    """A line up to its comment, and the comment."""
    i = line.find(mark)
    return (line, "") if i < 0 else (line[:i], line[i:])


def odd(name):
    return bool(WORD.match(name)) and bool(re.search(r"-|^[a-z]\w*[A-Z]", name))


def snake(name):
    if name in GIVEN:
        return GIVEN[name]
    name = re.sub(r"([a-z0-9])([A-Z])", r"\1-\2", name)
    return name.replace("-", "_").lower()


def bound(line):
    """The names that a line of a proof binds."""
    out = []
    m = DEFINED.match(line)
    if m:
        out.append(m.group(1))
    for m in re.finditer(r"λ([^.]*)\.", line):
        out += TOKEN.findall(m.group(1))
    for m in re.finditer(r"\blet\s+([^\s:=]+)", line):
        out.append(m.group(1))
    for m in re.finditer(r"[({]([^(){}:]+?):(?=\s)", line):
        out += TOKEN.findall(m.group(1))
    m = re.match(r"^\s*([^=:]*?)\s=(\s|$)", line)
    if m and "let" not in m.group(1):
        out += TOKEN.findall(m.group(1))
    for m in re.finditer(r"[\[|]\s*([^|\[\]↦]*?)↦", line):
        out += TOKEN.findall(m.group(1))
    return out


def main():
    look = "--look" in sys.argv[1:]
    borrowed, own, defined = set(), collections.Counter(), collections.defaultdict(set)
    tokens = collections.Counter()
    for p in texts(".antt"):
        t = read(p)
        for module, names in uses(t):
            if module.startswith("Rattle.") and os.path.isdir(os.path.join(ROOT, "crates", module.split(".")[1])):
                continue
            borrowed.update(names)
        for line in t.split("\n"):
            if re.match(r"^\s*use ", line):
                continue
            c, _ = code(line, "--")
            for n in TOKEN.findall(c):
                tokens[n] += 1
            for n in bound(c):
                if odd(n) or n in GIVEN:
                    own[n] += 1
                    defined[n].add(p)
    for p in texts(".rt"):
        for module, names in uses(read(p)):
            if not (module.startswith("Rattle.") and os.path.isdir(os.path.join(ROOT, "crates", module.split(".")[1]))):
                borrowed.update(names)
    names = {n: snake(n) for n in own if n not in borrowed} | GIVEN
    source = set()
    for p in texts(".rt"):
        for line in read(p).split("\n"):
            source.update(re.findall(r"\b(?:fn|let|mut|struct|enum|mod) ([a-z_0-9]+)", code(line, "//")[0]))
            source.update(re.findall(r"\b([a-z_0-9]+):", code(line, "//")[0]))
    if look:
        met = collections.defaultdict(list)
        for n, to in names.items():
            met[to].append(n)
        for to, ns in sorted(met.items()):
            if len(ns) > 1:
                print("two names:", ns, "->", to)
        for n, to in sorted(names.items()):
            if to in tokens and to not in own:
                print("stands already:", n, "->", to, tokens[to], sorted(x[len(ROOT) + 8:] for x in defined[n])[:2])
            if to in source:
                print("in src:", n, "->", to, sorted(x[len(ROOT) + 8:] for x in defined[n])[:2])
        for n in sorted(own):
            if n in borrowed:
                print("both own and the library's:", n, sorted(x[len(ROOT) + 8:] for x in defined[n])[:3])
        print(len(names), "names")
        return
    change = {"antt": 0, "rt": 0, "edit": 0, "md": 0}

    def turned(text):
        text = re.sub(r"(\w) \.(?=[a-z0-9])", r"\1.", text)
        text = TOKEN.sub(lambda m: PORTED.get(m.group(0), m.group(0)), text)
        return TOKEN.sub(lambda m: names.get(m.group(0), m.group(0)), text)

    def written(p, t, new):
        if new != t:
            with open(p, "w", encoding="utf-8") as f:
                f.write(new)
        return new != t

    def turn(line, mark):
        c, rest = code(line, mark)
        c = TOKEN.sub(lambda m: names.get(m.group(0), m.group(0)), c)
        rest = re.sub(r"`([^`]*)`", lambda m: "`" + TOKEN.sub(lambda k: names.get(k.group(0), k.group(0)), m.group(1)) + "`", rest)
        return c + rest

    for ending, mark in ((".antt", "--"), (".rt", "//")):
        for p in texts(ending):
            t = read(p)
            new = "\n".join(turn(l, mark) for l in t.split("\n") if l != "use denote.Slice.{shr_slice_at}")
            if new != t:
                change[ending[1:]] += 1
                with open(p, "w", encoding="utf-8") as f:
                    f.write(new)
    # edits of definitions, and what the pages name
    for p in sorted(glob.glob(os.path.join(ROOT, "crates", "*", "must-fail", "*.edit"))):
        t = read(p)
        lines = t.split("\n")
        if any(l.startswith("file: specs/") for l in lines):
            lines = [turned(l) if re.match(r"(old|new): ", l) else l for l in lines]
        change["edit"] += written(p, t, "\n".join(lines))
    for p in [os.path.join(ROOT, "README.md")] + sorted(glob.glob(os.path.join(ROOT, "docs", "**", "*.md"), recursive=True)):
        t = read(p)
        change["md"] += written(p, t, re.sub(r"`([^`\n]*)`", lambda m: "`" + turned(m.group(1)) + "`", t))
    for c in sorted(os.listdir(os.path.join(ROOT, "crates"))):
        subprocess.run(["rt", "fmt"], cwd=os.path.join(ROOT, "crates", c), check=True, stdout=subprocess.DEVNULL)
    print(len(names), "names;", change)


if __name__ == "__main__":
    main()
