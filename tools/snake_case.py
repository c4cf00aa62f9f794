#!/usr/bin/env python3
"""Brought the names of definitions and lemmas to snake case, once, after the toolchain's port.py (docs/PORT.md).

    python3 tools/snake_case.py            at the top of the repository; where all names are in snake case it does nothing

What is renamed is what the crates declare in specs/ and proofs/ with a small first letter: definitions, lemmas,
record fields, and helpers below `where`. Types keep their capital. Functions of src/ keep their names. The same
words are renamed where clauses of src/, imports, comments and the backticks of pages name them. Theorems
NAME-determined keep their dashes. Two names that would fall together, with each other or with a name that a file
imports from elsewhere, stop the run.
"""
import pathlib
import re
import sys

WORD = r"[A-Za-z0-9_'₀-₉◌ℓ→-]"
DECLARED = re.compile(
    r"^\s*(?:\|\s*)?(?:(?:unfoldable|abbrev|pub)\s+)*([a-z]" + WORD + r"*)(?: \{ℓ[^}]*\})? :(?: |$)", re.M
)
IMPORT = re.compile(r"^(?:ghost )?use ([^\s{;]+)(?:\.\{([^}]*)\})?", re.M)
# Where a library's word had changed its name, the older script left halves of the old one.
WORDS = {"get_d": "get_or"}


def snake(name: str) -> str:
    name = re.sub(r"(?<=[a-z0-9])([A-Z])", lambda m: "_" + m.group(1).lower(), name)
    name = name.replace("-", "_")
    for old, new in WORDS.items():
        name = re.sub(r"(?<![a-z])" + old + r"(?![a-z])", new, name)
    return name


def main() -> int:
    top = pathlib.Path(".")
    crates = sorted((top / "crates").iterdir())
    specs = [f for c in crates for f in sorted(c.glob("specs/*.antt")) + sorted(c.glob("proofs/*.antt"))]
    texts = [f for c in crates for f in sorted(c.rglob("*")) if f.suffix in (".antt", ".rt") and "out" not in f.parts]
    pages = [p for p in [top / "README.md", *sorted((top / "docs").glob("*.md"))] if p.exists()]

    declared: dict[str, set[str]] = {}
    for f in specs:
        for name in DECLARED.findall(f.read_text()):
            declared.setdefault(name, set()).add(str(f))
    renamed = {name: snake(name) for name in declared if snake(name) != name and not name.endswith("-determined")}

    if not renamed:
        print("0 names in 0 files")
        return 0

    clashes = []
    taken: dict[str, str] = {}
    for name in declared:
        new = snake(name)
        if new in taken and taken[new] != name:
            clashes.append(f"{taken[new]} and {name} would both be {new}")
        taken[new] = name
    for f in texts:
        text = f.read_text()
        for path, names in IMPORT.findall(text):
            if path.startswith("Rattle.") and path.split(".")[1] in {c.name for c in crates}:
                continue
            for name in filter(None, (n.strip() for n in names.split(","))):
                for old, new in renamed.items():
                    if new == name and re.search(r"(?<!" + WORD + r")" + re.escape(old) + r"(?!" + WORD + r")", text):
                        clashes.append(f"{f}: {old} would be {new}, which comes from {path}")
    if clashes:
        print("\n".join(clashes))
        return 1

    one = re.compile(
        r"(?<!" + WORD + r")(" + "|".join(sorted(map(re.escape, renamed), key=len, reverse=True)) + r")(?!" + WORD + r")"
    )
    changed = 0
    for f in texts:
        old = f.read_text()
        new = one.sub(lambda m: renamed[m.group(1)], old)
        if new != old:
            f.write_text(new)
            changed += 1
    for f in pages:
        old = f.read_text()
        new = re.sub(r"`[^`\n]*`", lambda m: one.sub(lambda w: renamed[w.group(1)], m.group(0)), old)
        if new != old:
            f.write_text(new)
            changed += 1
    print(f"{len(renamed)} names in {changed} files")
    for old in sorted(renamed):
        print(f"  {old} {renamed[old]}")
    return 0


sys.exit(main())
