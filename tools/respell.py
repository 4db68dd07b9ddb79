#!/usr/bin/env python3
"""Brings the repository's own definitions and lemmas to today's spelling, once, behind /opt/rattle/port/port.py.

usage: python3 tools/respell.py [--show]      at the top of the repository

Declared names in specs/ and proofs/ that begin with a small letter become snake case: `samePart` is `same_part`, `part-next`
`part_next`. Types, modules, names that Rattle makes, strings, and names of Rust (functions, exported symbols) stay. A dash before an
operator (`inv_mix-⊞`) and the dot of a refusal (`07·0A`) stay. Pages and must-fail edits follow. --show prints the table and writes nothing.
"""
import glob
import re
import sys

# A name of the library too.
KEEP = {"and-true"}
# Lemmas whose name has the snake form of a definition: where no path leads to it, such a name gets `_lem` behind it.
LEMMAS = {"has_other", "near_step", "other_key", "read_as", "same_tag", "with_value", "four_bytes"}
TOKEN = re.compile(r"[^\s(){}\[\];,.\"`@]+")
DECLARATION = re.compile(r"^\s*(?:(?:pub|abbrev|unfoldable|private)\s+)*((?:[^\s:(){}\"]+\s+)+):\s")
WORDS = {"let", "module", "use", "mod", "record", "data", "where", "unfolding", "rw", "in", "elim", "λ", "|", "--", "syntax", "infixl", "infixr", "open", "ruleset"}


def antt():
    return sorted(glob.glob("crates/*/specs/**/*.antt", recursive=True) + glob.glob("crates/*/proofs/**/*.antt", recursive=True))


def read(path):
    with open(path, encoding="utf-8") as f:
        return f.read()


def declared():
    """Each own name, with the files that declare it."""
    found = {}
    for path in antt():
        for line in read(path).splitlines():
            m = DECLARATION.match(line)
            if not m:
                m = re.match(r"^\s*(?:pub\s+)?(?:abbrev\s+)?ruleset\s+(\S+)()", line)
                if not m:
                    continue
            names = m[1].split()
            if WORDS & set(names) or any(re.search(r"[→≡=∷]", n) for n in names):
                continue
            for n in names:
                found.setdefault(n, set()).add(path)
    return found


def snake(name):
    if name in KEEP or not re.match(r"[a-z]", name):
        return name
    if re.match(r"(invariant|decreases|returns)\b", name) or name.endswith("_spec"):
        return name
    new = re.sub(r"(?<=[a-z])([A-Z])", lambda m: "_" + m[1].lower(), name)
    new = re.sub(r"-(?=[A-Za-z0-9])", "_", new)
    return new


def table():
    """Old to new. A lemma whose snake form is that of a definition gets `_lem` behind it."""
    own = declared()
    names = {n: snake(n) for n in own}
    plain = {new for n, new in names.items() if "-" not in n}
    for n, new in names.items():
        if "-" in n and new in plain:
            names[n] = new + "_lem"
    return {n: new for n, new in names.items() if new != n}


def turned(text, names, lemmas=False):
    def new(m):
        if lemmas and m[0] in LEMMAS and text[m.start() - 1 : m.start()] != ".":
            return m[0] + "_lem"
        return names.get(m[0], m[0])

    return TOKEN.sub(new, text)


def code_and_comment(line, mark):
    k = 0
    if mark == "--":
        m = re.search(r"(^|\s)--(\s|$)", line)
    else:
        m = re.search(r"//", line)
    return (line, "") if not m else (line[: m.start()], line[m.start() :])


def of_comment(text, names):
    """In comments and pages a name with a dash may be an English word: only what stands in backquotes is turned."""
    camel = {k: v for k, v in names.items() if re.search(r"[a-z0-9][A-Z]", k)}
    text = re.sub(r"[A-Za-z0-9_'-]+", lambda m: camel.get(m[0], m[0]), text)
    return re.sub(r"`[^`\n]*`", lambda m: turned(m[0][1:-1], names).join("``"), text)


def main():
    names = table()
    if "--show" in sys.argv:
        for k in sorted(names):
            print(k, names[k])
        return
    for path in antt() + sorted(glob.glob("crates/*/src/**/*.rt", recursive=True)):
        mark = "--" if path.endswith(".antt") else "//"
        old = read(path)
        new = []
        for line in old.split("\n"):
            code, comment = code_and_comment(line, mark)
            new.append((turned(code, names, True) if mark == "--" else of_rust(code, names)) + of_comment(comment, names))
        write(path, old, "\n".join(new))
    for path in sorted(glob.glob("crates/*/must-fail/*.edit")):
        old = read(path)
        write(path, old, turned(old, names))
    for path in ["README.md"] + sorted(glob.glob("docs/**/*.md", recursive=True)):
        old = read(path)
        write(path, old, of_comment(old, names))


def of_rust(code, names):
    return turned(code, names) if "\"" not in code else code


def write(path, old, new):
    if old != new:
        with open(path, "w", encoding="utf-8") as f:
            f.write(new)


main()
