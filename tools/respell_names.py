#!/usr/bin/env python3
"""Spells the repository's own definitions and lemmas in snake case, as `read-gate` to `read_gate`.

usage: python3 tools/respell_names.py [--check] [--list]     at the top of the repository

A name turns if a file of specs/ or proofs/ declares it with a dash (a definition, a lemma, a field, a constructor or a
variable that it binds), or if an import gives it. It turns in the code of .antt files, in .rt files outside comments and
strings (where Rust itself writes no name with a dash), and in code spans of comments and of pages but docs/PORT.md.
Goals that the checker names (`x : goal.x`) and names of libraries stay.
--check writes nothing; --list prints the names. A name that would meet another name of an .antt file is listed, and then
nothing is written.
"""

import pathlib
import re
import sys

ROOT = pathlib.Path(".")
NAME = r"[^\s(){}.;,@\"«»`\[\]|]+"
DASHED = re.compile(r"^[a-z][A-Za-z0-9_']*(?:-[A-Za-z0-9_']+)+$")
DECLARED = re.compile(rf"^ *(?:(?:abbrev|unfoldable|pub|data|record) +)*({NAME})(?: \{{[^{{}}\n]*\}})* : (.*)$", re.M)
LAMBDA = re.compile(r"λ ([^.]*)\.")
BINDER = re.compile(r"\(([^():]*) : ")
LET = re.compile(rf"\blet ({NAME}) ")
SPAN = re.compile(r"`[^`\n]*`")
# names of libraries that a file may bind too
LIBRARY = set("cond-true eqb-true leb-true eq-eqb length-set add-zero min-zero mod-mod pow-add shl-shr shr-shr".split())


def antt_files():
    for part in ("specs", "proofs"):
        yield from sorted(ROOT.glob(f"crates/*/{part}/**/*.antt"))


def code_of(text):
    """The text without its comments."""
    return re.sub(r"(?m)(^|\s)--(\s.*)?$", r"\1", text)


def own_names():
    names = set()
    for path in antt_files():
        code = code_of(path.read_text())
        for name, kind in DECLARED.findall(code):
            if not kind.startswith("goal."):
                names.add(name)
        for pattern in (LAMBDA, BINDER):
            for found in pattern.findall(code):
                names.update(found.split())
        names.update(LET.findall(code))
    # variables of a clause's left side
    for path in antt_files():
        for line in code_of(path.read_text()).split("\n"):
            left = line.split(" =")[0] if re.search(r" =( |$)", line) else ""
            names.update(re.findall(NAME, left))
    # names that an import gives
    for path in list(antt_files()) + sorted(ROOT.glob("crates/*/src/**/*.rt")):
        for line in path.read_text().split("\n"):
            if re.match(r"(ghost )?use ", line):
                names.update(re.findall(rf" as ({NAME})", line))
    return {n for n in names if DASHED.match(n)} - LIBRARY


def goals():
    """The names that the checker makes: they stay in the files that answer them."""
    made = set()
    for path in antt_files():
        if path.name in ("Answers.antt", "Invariants.antt"):
            made.update(re.findall(r"goal\.(\S+)", path.read_text()))
    return made


def turned(text, table):
    def word(match):
        return table.get(match[0], match[0])

    return re.sub(NAME, word, text)


def turned_antt(text, table):
    out = []
    for line in text.split("\n"):
        match = re.search(r"(^|\s)--(\s|$)", line)
        code, comment = (line[: match.start()], line[match.start() :]) if match else (line, "")
        out.append(turned(code, table) + SPAN.sub(lambda m: turned(m[0], table), comment))
    return "\n".join(out)


def turned_rust(text, table):
    out = []
    for line in text.split("\n"):
        at = line.find("//")
        code, comment = (line[:at], line[at:]) if at >= 0 else (line, "")
        pieces = re.split(r'("(?:[^"\\]|\\.)*")', code)
        pieces[::2] = [turned(p, table) for p in pieces[::2]]
        out.append("".join(pieces) + SPAN.sub(lambda m: turned(m[0], table), comment))
    return "\n".join(out)


def main():
    if set(sys.argv[1:]) - {"--check", "--list"}:
        print(__doc__.split("\n\n")[1], file=sys.stderr)
        return 2
    names = own_names() - goals()
    table = {n: n.replace("-", "_") for n in sorted(names)}
    present = {}
    for path in list(antt_files()):
        for word in re.findall(NAME, code_of(path.read_text())):
            present.setdefault(word, set()).add(str(path))
    fall = [n for n, new in table.items() if new in present]
    fall += [n for n, new in table.items() if [m for m in table if m != n and table[m] == new]]
    for name in fall:
        print(f"meets another: {name} in {sorted(present.get(table[name], []))}")
    print(f"{len(table)} names")
    if "--list" in sys.argv:
        print(" ".join(table))
    if fall or "--check" in sys.argv:
        return 1 if fall else 0
    pages = [p for p in sorted(ROOT.glob("docs/*.md")) + [ROOT / "README.md"] if p.name != "PORT.md"]
    snake = set(table.values()) | {w for w in present if re.fullmatch(r"[a-z][a-z0-9]*(_[a-z0-9]+)+", w)}
    for path in list(antt_files()) + sorted(ROOT.glob("crates/*/src/**/*.rt")) + pages:
        text = path.read_text()
        if path.suffix == ".antt":
            new = turned_antt(text, table)
        elif path.suffix == ".rt":
            new = turned_rust(text, table)
        else:
            # a page may name what another script has turned already
            words = {w for span in SPAN.findall(text) for w in re.findall(NAME, span) if DASHED.match(w)}
            known = {w: w.replace("-", "_") for w in words if w.replace("-", "_") in snake}
            new = SPAN.sub(lambda m: turned(m[0], known), text)
        if new != text:
            path.write_text(new)
    return 0


if __name__ == "__main__":
    sys.exit(main())
