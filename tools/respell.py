#!/usr/bin/env python3
"""Spells the repository's own definitions and lemmas in snake case, in crates/ and, between backticks, in docs/ and README.md.

usage: tools/respell.py [--say]      at the top of the repository; --say only lists what would change and which names would meet

A name is the repository's own where a file of specs/ or proofs/ declares it. Types, modules, what Rattle makes of a function (its goals, places and labels)
and names that a file imports from a library stay as they are, and so does every text in quotes. A label behind a dot changes only where it is a field of a
record here, or where what stands before the dot is a module of the repository.
"""

import glob
import os
import re
import sys

NAME = r"[^\s(){}.;,@\"«»⌜⌝]+"
WORDS = r"(?:pub|abbrev|unfoldable|private|opaque|instance)"
DECLARED = re.compile(rf"(?m)^( *)(?:{WORDS} )*({NAME})((?: \{{[^{{}}\n]*\}}| \([^()\n]*\))*) :(?= |$)")
SEVERAL = re.compile(rf"(?m)^( *)(?:{WORDS} )*((?:{NAME} )+{NAME}) :(?= |$)")
USE = re.compile(r"\buse ([^\s;{]+?)\.?(\{[^;{}]*\})?(?: as ([^\s;]+))?(?=;|[ \t]*$)", re.M)
MADE = re.compile(r"\.(?:Lts|Tie|Reads|Statement|Goals|Given|TheVariants|TheConstants)\b|\.declared\.")
# A name that would meet another one: what it is called instead.
INSTEAD = {
    name: name.replace("-", "_") + "_is"
    for name in (
        "add-level after-attributes as-level attributes-of axis-number bad-index bad-summary child-named elements-of field-bytes field_in frame-name "
        "frame-record frame-short le-bytes level-end level-of levels-in levels-of loops-of map-entries map_of no-frame no-planes number-of packed-type "
        "plane-at rational-bytes rest-of sample-format size-of slot-value slots-from slots-of slots_at span-in stop-of table-bytes text-units tree-named "
        "value-bytes value-from whole-number"
    ).split()
} | {"in_u64": "below_u64", "is-nan": "nan_is", "ownName": "own_name_at"}


def texts(kind):
    for path in sorted(glob.glob("crates/*/**/*" + kind, recursive=True)):
        if "/out/" not in path:
            yield path


def read(path):
    with open(path, encoding="utf-8") as f:
        return f.read()


def snake(name):
    words = re.sub(r"(?<=[a-z0-9])[A-Z]", lambda m: "_" + m[0].lower(), name)
    return INSTEAD.get(name, words.replace("-", "_"))


def bare(text):
    """The text without what stands in comments and quotes."""
    return re.sub(r'(?m)--.*$|"[^"\n]*"', "", text)


def gather():
    """The names that change, and those among them that are fields of records."""
    names, fields, declared = set(), set(), set()
    for path in texts(".antt"):
        inside = None
        for line in bare(read(path)).split("\n"):
            m = re.match(r"( *)(?:pub )?(?:record|data)\b.*\bwhere\b", line) or re.match(r"( *)(?:pub )?(record|data) ", line)
            if m:
                inside = (len(m[1]), "record" in line.split(":")[0].split())
                continue
            if line.strip() and inside and len(line) - len(line.lstrip()) <= inside[0] and not line.lstrip().startswith("where"):
                inside = None
            m = DECLARED.match(line)
            found = [m[2]] if m else []
            m = SEVERAL.match(line)
            if m and inside:
                found += m[2].split()
            for name in found:
                declared.add(name)
                if re.match(r"[a-z]", name) and snake(name) != name and not name.startswith("let"):
                    names.add(name)
                    if inside and inside[1]:
                        fields.add(name)
    names |= {n for n in INSTEAD if n in declared}
    fields |= {n for n in ("map_of", "in_u64")}
    return names, fields, declared


def own_crates():
    return {os.path.basename(os.path.dirname(p)) for p in glob.glob("crates/*/")} | set(os.listdir("crates"))


def is_own(path, crates):
    steps = path.split(".")
    return steps[0] == "Rattle" and len(steps) > 1 and steps[1] in crates and not MADE.search(path + ".")


def imports(text, crates):
    """What a file takes from elsewhere under its own name, and the short names of the repository's modules."""
    foreign, short = set(), set()
    for m in USE.finditer(text):
        own = is_own(m[1], crates)
        if m[2]:
            for item in re.split(r"[,\s]+", re.sub(r"\b\w+ as ", "", m[2].strip("{}"))):
                if item and not own:
                    foreign.add(item)
        elif m[3]:
            if own:
                short.add(m[3])
        elif not own:
            foreign.add(m[1].split(".")[-1])
    return foreign, short


TOKEN = re.compile(rf"(?P<text>\"[^\"\n]*\")|(?P<said>--[^\n]*|//[^\n]*)|(?P<dot>\.)?(?P<name>{NAME})")


def respell(text, path, names, fields, crates, met):
    foreign, short = imports(text, crates)
    before = {m["name"] for m in TOKEN.finditer(text) if m["name"] and not re.search(r"Rattle[\w.]*$", text[max(0, m.start() - 200) : m.start()])}

    def said(words):
        def one(m):
            inner = m[1]
            return "`" + (snake(inner) if inner in names and inner not in foreign else inner) + "`"

        words = re.sub(r"`([^`\s]+)`", one, words)
        return re.sub(r"(?<![\w`.'-])[a-z]+[a-z0-9]*(?:[A-Z][a-z0-9]*)+(?![\w`'-])", lambda m: snake(m[0]) if m[0] in names else m[0], words)

    def one(m):
        if m["text"]:
            return m[0]
        if m["said"]:
            return said(m["said"])
        name, dot = m["name"], m["dot"] or ""
        if name not in names:
            return m[0]
        if dot:
            head = re.search(rf"({NAME}(?:\.{NAME})*)$", text[: m.start()])
            steps = head[1] if head else ""
            last = steps.split(".")[-1]
            outside = steps.split(".")[0] in ("lib", "mathlib", "borrow", "native", "Prim", "Rattle")
            mine = bool(steps) and (steps in short or is_own(steps, crates) or last[:1].isupper() and not outside)
            if not mine and name not in fields:
                return m[0]
        elif name in foreign:
            return m[0]
        new = snake(name)
        if new in before:
            met.setdefault((name, new), set()).add(path)
        return dot + new

    return TOKEN.sub(one, text)


def respell_edit(text, names, fields, crates):
    """The lines old and new of an edit, as the file that they name is respelled."""
    lines = text.split("\n")
    about = next((l[6:].strip() for l in lines if l.startswith("file: ")), "")
    names = names if about.endswith(".antt") else {n for n in names if "_" not in n}
    for i, l in enumerate(lines):
        if re.match(r"(old|new): ", l):
            lines[i] = l[:5] + respell(l[5:], about, names, fields, crates, {})
    return "\n".join(lines)


def main(argv):
    names, fields, declared = gather()
    spelled = declared | {snake(n) for n in names}
    crates = own_crates()
    met, changed = {}, 0
    for kind in (".antt", ".rt"):
        # a clause cites no lemma, and Rust has names of its own
        mine = names if kind == ".antt" else {n for n in names if "_" not in n}
        for path in texts(kind):
            old = read(path)
            new = respell(old, path, mine, fields, crates, met)
            if new != old:
                changed += 1
                if "--say" not in argv:
                    with open(path, "w", encoding="utf-8") as f:
                        f.write(new)
    for path in texts(".edit"):
        old = read(path)
        new = respell_edit(old, names, fields, crates)
        if new != old:
            changed += 1
            if "--say" not in argv:
                with open(path, "w", encoding="utf-8") as f:
                    f.write(new)
    for path in sorted(glob.glob("docs/**/*.md", recursive=True)) + ["README.md", "CONTRIBUTING.md", "CHANGELOG.md"]:
        old = read(path)

        def one(m):
            ours = m[0] in names or m[0] not in declared | crates and snake(m[0]) in spelled
            return snake(m[0]) if ours else m[0]

        new = re.sub(r"(?<=`)([a-z][\w'-]*)(?=`)", one, old)
        if new != old and "--say" not in argv:
            with open(path, "w", encoding="utf-8") as f:
                f.write(new)
    print(f"{len(names)} names, {len(fields)} of them fields; {changed} files")
    for (a, b), where in sorted(met.items()):
        print(f"meet: {a} -> {b} in {', '.join(sorted(where)[:4])}{' ..' if len(where) > 4 else ''}")
    twice = {}
    for n in names:
        twice.setdefault(snake(n), set()).add(n)
    for b, a in sorted(twice.items()):
        if len(a) > 1:
            print(f"two: {b} of {', '.join(sorted(a))}")
    return 0


if __name__ == "__main__":
    sys.exit(main(sys.argv[1:]))
