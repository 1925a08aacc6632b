#!/usr/bin/env python3
"""Brings this repository's own definitions and lemmas to snake case, once, after the kit's port.py.

usage: python3 tools/respell_names.py [--list]    at the top of the repository; --list shows the rows and writes nothing

It turns the names that files of specs/ and proofs/ declare: definitions, lemmas, record fields and constructors, as
`headAfter` to `head_after` and `pair-at` to `pair_at`. A name that begins with a capital is a type or a fact and stays.
A lemma that would have the name of a function of its crate gets `_lem`. Crates named as libraries of the kit get another name. What Rattle makes (goals, steps, loops) and what
src/ declares keeps its name, as do strings. Names turn in .antt and .rt files, in must-fail edits, and in the code spans
of README.md and docs/.
"""

import collections
import os
import re
import sys

WORD = re.compile(r"[^\s(){}.;,@\"«»]+")
DECLARES = re.compile(r"^(\s*)((?:abbrev\s+|unfoldable\s+)?(?:pub\s+)?(?:abbrev\s+)?)([^\s:(){}.;,@\"«»=|λ\[\]\\]+(?:\s+[^\s:(){}.;,@\"«»=|λ\[\]\\]+)*)\s+:\s+(.*)$")
KEYWORDS = {"abbrev", "pub", "unfoldable", "let", "in", "use", "data", "record", "where", "mod", "elim", "as", "infixr", "infixl", "infix", "if", "then", "else"}
# A lemma beside a definition whose name it would take, and names whose parts are words of the library.
SAYS = {
    "after-admission": "after_admission_lem",
    "after-dismissal": "after_dismissal_lem",
    "first-awaited": "first_awaited_lem",
    "handed-cut": "handed_cut_lem",
    "handed-first": "handed_first_lem",
    "is-promise": "is_promise_lem",
    "promised-worth": "promised_worth_lem",
    "bit-xor": "bit_xor_lem",
    "give-back": "give_back",
    "getD-repeated": "get_or_repeated",
}
# The same, where port.py had turned the lemma's name already. It turns where no dot stands before it.
TURNED = {
    "crates/drawer_image/proofs/Judges.antt": {"count_fits": "count_fits_lem"},
    "crates/drawer_fresh/proofs/Fresh.antt": {"is_free": "is_free_lem"},
}
# Names that port.py turned, which pages and edits still have as they were.
PORTED = """afterCall andThen bareCode callAt callsOf entryOf firstOf foundFrom isBare isEmpty isTaken kindOf lengthAt
lengthOf lineOf linesOf pairOf partsOf readOf secondOf slotOf stateOf tagAt turnOf valueOf withHead allFit""".split()
# Crates that had the name of a library of the kit.
CRATES = {"check": "frame_check", "hex": "hex_text"}
# Words that pages and comments have in plain prose, or print.
PROSE = {"give-back"}


def files(kinds):
    for top, dirs, names in os.walk("crates"):
        dirs[:] = sorted(d for d in dirs if d != "out")
        for name in sorted(names):
            if name.endswith(kinds):
                yield os.path.join(top, name)


def crate(path):
    return path.split(os.sep)[1]


def snake(name):
    if "-" in name:
        name = name.replace("-", "_")
    return re.sub(r"(?<=[a-z0-9])([A-Z])", lambda m: "_" + m.group(1).lower(), name)


def read(path):
    with open(path, encoding="utf-8") as f:
        return f.read()


def declared():
    """The rows old -> new, and where each old name is declared."""
    found = collections.defaultdict(set)
    for path in files(".antt"):
        made = path.endswith(("/Answers.antt", "/Invariants.antt"))
        for line in read(path).split("\n"):
            if line.lstrip().startswith("--"):
                continue
            m = DECLARES.match(line)
            if not m:
                continue
            if made and re.match(r"goal\b", m.group(4)):
                continue
            for name in m.group(3).split():
                if name in KEYWORDS or not re.match(r"[a-z]", name):
                    continue
                if re.search(r"[A-Z-]", name):
                    found[name].add(path)
    return found


def functions():
    by = collections.defaultdict(set)
    for path in files(".rt"):
        for m in re.finditer(r"\bfn\s+(\w+)", read(path)):
            by[crate(path)].add(m.group(1))
    return by


def table():
    found = declared()
    fns = functions()
    rows = {}
    for old, paths in sorted(found.items()):
        new = snake(old)
        homes = {crate(p) for p in paths}
        if "-" in old and any(new in fns[h] for h in homes):
            new += "_lem"
        rows[old] = SAYS.get(old, new)
    return rows, found


def turned(text, rows, after_dot=True):
    def one(m):
        if not after_dot and m.start() and text[m.start() - 1] == ".":
            return m.group(0)
        return rows.get(m.group(0), m.group(0))

    return WORD.sub(one, text)


def commented(text, rows):
    """A comment: names in camel case, and others in code spans."""
    spans = re.split(r"(`[^`]*`)", text)
    plain = {o: n for o, n in rows.items() if "-" not in o}
    return "".join(turned_span(s, rows) if s.startswith("`") else turned(s, plain) for s in spans)


def turned_span(span, rows):
    return "`" + turned(span[1:-1], {o: n for o, n in rows.items() if o not in PROSE}) + "`"


def turn_antt(text, rows):
    parts = re.split(r"((?:^|(?<=\s))--[^\n]*|\"[^\"\n]*\")", text, flags=re.M)
    out = []
    for k, part in enumerate(parts):
        out.append(part if part.startswith('"') else commented(part, rows) if k % 2 else turned(part, rows))
    return "".join(out)


def turn_rt(text, rows):
    parts = re.split(r"(//[^\n]*|b?\"(?:\\.|[^\"\\])*\")", text)
    out = []
    for k, part in enumerate(parts):
        if k % 2 and part.startswith("//"):
            out.append(commented(part, rows))
        else:
            out.append(part if k % 2 else turned(part, rows))
    return "".join(out)


def turn_page(text, rows):
    return re.sub(r"`[^`\n]*`", lambda m: turned_span(m.group(0), rows), text)


def write(path, old, new):
    if old != new:
        with open(path, "w", encoding="utf-8") as f:
            f.write(new)
        return 1
    return 0


def rename_crates():
    """Crates that are named as libraries of the kit: their folders, paths to them and their lines in crates.txt."""
    moved = 0
    for old, new in CRATES.items():
        if not os.path.isdir(f"crates/{old}"):
            continue
        os.rename(f"crates/{old}", f"crates/{new}")
        moved += 1
        for path in files((".antt", ".rt", ".edit")):
            text = read(path)
            changed = re.sub(rf"\bRattle\.{old}\.", f"Rattle.{new}.", text)
            if not path.endswith(".antt"):
                changed = re.sub(rf"(?<![\w:]){old}::", f"{new}::", changed)
            write(path, text, changed)
        text = read("crates.txt")
        write("crates.txt", text, re.sub(rf"(?<=\s){old}(?=[:\s])", new, text))
        for path in ["README.md", *sorted(os.path.join("docs", n) for n in os.listdir("docs") if n.endswith(".md"))]:
            text = read(path)
            changed = re.sub(rf"`{old}(?=/|`(?! is| then|'s))", f"`{new}", text)
            write(path, text, re.sub(rf"(?<![\w:]){old}::(?={old}|parse|table)", f"{new}::", changed))
    return moved


def main():
    rows, found = table()
    if "--list" in sys.argv:
        for old, new in rows.items():
            print(old, new, *sorted(found[old]), sep="\t")
        return 0
    changed = 0
    for path, early in TURNED.items():
        if rows and os.path.exists(path):
            text = read(path)
            changed += write(path, text, turned(text, early, after_dot=False))
    for path in files(".antt"):
        text = read(path)
        changed += write(path, text, turn_antt(text, rows))
    for path in files(".rt"):
        text = read(path)
        changed += write(path, text, turn_rt(text, rows))
    pages = rows | {o: snake(o) for o in PORTED}
    for path in files(".edit"):
        text = read(path)
        changed += write(path, text, turned(text, pages))
    for path in ["README.md", *sorted(os.path.join("docs", n) for n in os.listdir("docs") if n.endswith(".md"))]:
        text = read(path)
        changed += write(path, text, turn_page(text, pages))
    moved = rename_crates()
    print(f"respell_names: {len(rows)} names, {changed} files, {moved} crates renamed")
    return 0


raise SystemExit(main())
