#!/usr/bin/env python3
"""Counts in crates/*/src the places that have an older form, by point of docs/DESIGN-PASS.md, and lists them.

    python3 tools/forms.py [FOLDER]     FOLDER is a checkout; without it, the one that this file stands in
"""
import collections
import pathlib
import re
import sys

TOP = pathlib.Path(sys.argv[1]) if len(sys.argv) > 1 else pathlib.Path(__file__).resolve().parent.parent
INTEGERS = r"(?:u8|u16|u32|u64|usize)"


def sources():
    for path in sorted(TOP.glob("crates/*/src/**/*.rt")):
        yield str(path.relative_to(TOP / "crates")).replace("/src/", "/"), path.read_text()


def functions(text):
    """name, parameters, contract, body of each function"""
    for head in re.finditer(r"^(\s*)(?:pub(?:\(crate\))? )?(?:extern \"C\" )?fn (\w+)", text, re.M):
        indent = head.group(1).split("\n")[-1]
        start = re.compile(r"^" + indent + r"\{|\{\n", re.M).search(text, head.end())
        body = re.compile(r"^" + indent + r"\}", re.M).search(text, head.end())
        if not body:
            continue
        opened = re.compile(r"^" + indent + r"\{$|\) (?:-> [^\n]*)?\{$", re.M).search(text, head.end())
        yield head.group(2), text[head.end():opened.start()], text[opened.end():body.start()]


def code(line):
    return re.sub(r"//.*", "", line)


def matching(pattern):
    for name, text in sources():
        for number, line in enumerate(text.split("\n"), 1):
            if re.search(pattern, code(line)):
                yield f"{name}:{number}", line.strip()


def show(title, places):
    places = list(places)
    print(f"{title}: {len(places)}")
    for place, line in places:
        print(f"    {place}  {line}")


def tokens(body):
    """the shape of a body: names and numbers made one, in the order in which they first stand"""
    seen = {}
    words = re.findall(r"[A-Za-z_]\w*|\d+|[^\s\w]", "\n".join(code(x) for x in body.split("\n")))
    keep = {"if", "else", "while", "for", "in", "return", "let", "mut", "match", "as", "true", "false"}
    return [w if w in keep or not re.match(r"\w", w) else seen.setdefault(w, f"x{len(seen)}") for w in words]


def twins():
    shapes = collections.defaultdict(list)
    for name, text in sources():
        for fn, head, body in functions(text):
            shape = tokens(body)
            if len(shape) >= 16:
                shapes[" ".join(shape)].append(f"{name}::{fn}")
    for shape, names in sorted(shapes.items()):
        if len(names) > 1:
            yield names[0], "  ".join(names[1:])


def facts():
    """facts of a requires that three or more functions ask, with the buffer's or the room's own number as N"""
    asked = collections.defaultdict(set)
    for name, text in sources():
        for fn, head, body in functions(text):
            for clause in re.findall(r"requires(?: \w+)? \{(.*)\}", head):
                for fact in re.split(r" × ", clause):
                    fact = fact.strip()
                    while fact.startswith("(") and fact.endswith(")"):
                        fact = fact[1:-1].strip()
                    fact = re.sub(r"\.(now|old|new)\b", "", fact)
                    fact = re.sub(r"\b(\w+_most|length \(.*\)|length \w+|\d+)(?= ≤ (length out|N|65536)$)", "M", fact)
                    fact = re.sub(r"(length out|N|65536)$", "N", fact)
                    fact = re.sub(r"\s*\d+ \* M", " M", fact)
                    asked[fact].add(f"{name}::{fn}")
    for fact, names in sorted(asked.items()):
        if len(names) >= 3:
            yield fact, f"{len(names)}: " + " ".join(sorted(names))


def groups():
    """three or more parameters that three or more functions take side by side"""
    taken = collections.defaultdict(set)
    for name, text in sources():
        if name.startswith("limpet"):
            continue
        for fn, head, body in functions(text):
            found = re.match(r"(?:<.*?>)?\((.*?)\)\s*(?:->|requires|ensures|where|$|\n)", head, re.S)
            names = re.findall(r"(\w+):", found.group(1)) if found else []
            for size in range(3, len(names) + 1):
                for i in range(len(names) - size + 1):
                    taken[tuple(names[i:i + size])].add(f"{name}::{fn}")
    whole = {g: f for g, f in taken.items() if len(f) >= 3}
    for group, names in sorted(whole.items()):
        if not any(set(group) < set(other) and names == whole[other] for other in whole):
            yield ", ".join(group), f"{len(names)}: " + " ".join(sorted(names))


show("1a. own enums", matching(r"^\s*(pub )?enum \w+"))
show("1b. a verdict or a flag in a field beside a value", matching(r"^\s*(pub )?\w+: (Verdict|bool),$"))
show("1c. a number for a refusal", matching(r"(Refused|Unread|refused_at|refusal)\(\d+|: (Verdict::)?Bad\("))
show("1d. a verdict tested by hand", matching(r"\.refuses\(\)"))
show("1e. 0 or n where there is none", ((f"{n}::{f}", "") for n, t in sources() for f, h, b in functions(t)
     if re.search(r"ensures \{ \(?result (≡ lowest \(|\.slot)|Seated", h) and "-> Option" not in h))
show("2. twins", twins())
show("3. loops that count", matching(r"\b(while|loop)\b"))
show("4a. traits by hand", matching(r"\bimpl.* (PartialEq|Eq|PartialOrd|Ord|Clone|Copy|Default|From|Display)\b.* for "))
show("4b. a cast that can't lose", ((p, l) for p, l in matching(r"\bas " + INTEGERS)))
show("4c. equality by hand", ((f"{n}::{f}", "") for n, t in sources() for f, h, b in functions(t) if re.search(r"while .*\n\s*if \w+\[\w+\] != \w+\[\w+\]", b)))
show("4d. a number in decimal by hand", matching(r"% 10\b"))
show("5a. facts asked by three or more", facts())
show("5b. parameters that travel together", groups())
show("6a. a buffer with a place beside it", matching(r"out: &mut \[u8\], from: usize|^\s*from: usize,"))
show("6b. parallel arrays", ((f"{n}::{f}", "") for n, t in sources() for f, h, b in functions(t) if len(re.findall(r"&(?:mut )?\[u8\]|\[u8; \w+\]", h)) >= 3))
show("7. a table of steps, or a switch on one", matching(r"\bfn\(|\[fn\b|match (step|kind|which)\b(?!::)"))
