#!/usr/bin/env python3
"""Spells this repository's definitions, lemmas and record fields as its Rattle does: words in snake case.

usage: python3 tools/respell.py [--dry]       at the top of the repository, once, after the kit's port.py

Lower camel case and dashes become underscores (`bayOf` and `bay-of` are `bay_of`); a constant's dashes too (`MOST-WORDS` is
`MOST_WORDS`); a type's dashes and a middle dot go. The crate `hex` becomes `hexes`, since the kit has a library of its name.
Names that come from src/, answers to goals that Rattle names, strings,
inputs and outputs keep their spelling. Where two names would fall together, OVERRIDES says what the second one is called.
"""
import os
import re
import sys

# A lemma that would have its definition's name ends in _lem; a definition that would have another name's, in a word of its own.
OVERRIDES = {
    "atRest": "rest_line",
    "by-word": "by_word_lem",
    "parts-in": "parts_in_lem",
    "at-byte": "at_byte_lem",
    "flags-of": "flags_of_lem",
    "found_as": "found_as_lem",
    "goesOn": "is_going_on",
    "no_write": "no_write_lem",
    "numbers_of": "numbers_of_lem",
    "ownRead": "own_read_byte",
    "ownWrite": "own_write_byte",
    "setOut": "set_out_of",
    "pulseTicks": "pulse_ticks_of",
    "sfrWritten": "after_sfr_write",
    "standsAt": "standing_at",
    "subsystemWritten": "after_subsystem_write",
    "waitTicks": "wait_ticks_of",
}
WORD = r"[\w'·-]"


def texts(*ends):
    for root, dirs, files in os.walk("crates"):
        dirs[:] = sorted(d for d in dirs if d != "out")
        for f in sorted(files):
            if f.endswith(ends):
                yield os.path.join(root, f)


def read(p):
    with open(p, encoding="utf-8") as f:
        return f.read()


def spelled(n):
    """The new spelling of a declared name."""
    if n in OVERRIDES:
        return OVERRIDES[n]
    if re.fullmatch(r"[A-Z0-9]+(-[A-Z0-9]+)*", n):
        return n.replace("-", "_")
    if re.match(r"[A-Z]", n):
        return "".join(p[:1].upper() + p[1:] for p in re.split(r"[-·]", n)) if re.search(r"[-·]", n) else n
    n = re.sub(r"(?<=[a-z0-9])([A-Z])(?=[a-z0-9]|$|['-])", lambda m: "_" + m.group(1).lower(), n)
    n = re.sub(r"(?<=[a-z0-9])([A-Z]+)", lambda m: "_" + m.group(1).lower(), n)
    return n.replace("-", "_").replace("·", "_")


DECL = re.compile(r"^(?:abbrev |unfoldable |pub |ruleset |private )*([^\s:{}()\[\]λ\"]+)\s*:(?!=)(.*)$")
FIELD = re.compile(r"^\s+(?:abbrev |unfoldable |pub )*([^\s:{}()\[\]λ\"]+)\s*:(?=\s|$)")
HEAD = re.compile(r"^(?:pub )?(?:data|record) (?:pub )?([^\s:{}()]+)")


def declared(p):
    """The names that a file declares: definitions, lemmas, fields, constructors, and the names that it gives to imports."""
    own = set()
    lines = read(p).split("\n")
    for i, line in enumerate(lines):
        if line.startswith("--") or not line.strip():
            continue
        if not line.startswith(" "):
            h = HEAD.match(line)
            if h:
                own.add(h.group(1))
                continue
            d = DECL.match(line)
            if d:
                answer = d.group(2).strip() or (lines[i + 1].strip() if i + 1 < len(lines) else "")
                if not answer.startswith(("tie.", "goal.")):
                    own.add(d.group(1))
        else:
            # A field or a constructor, or what stands inside a module or below a where.
            f = FIELD.match(line)
            if f:
                own.add(f.group(1))
    for m in re.finditer(r" as ([^\s,;{}()]+)", read(p)):
        own.add(m.group(1))
    return {n for n in own if re.search(r"[A-Za-z]", n)}


def source_words():
    words = set()
    for p in texts(".rt"):
        words.update(re.findall(r"\b[a-z][a-z0-9]*(?:_[a-z0-9]+)+\b", read(p)))
    return words


def rename(text, names):
    if not names:
        return text
    pattern = re.compile(r"(?<!" + WORD + ")(" + "|".join(sorted(map(re.escape, names), key=len, reverse=True)) + ")(?!" + WORD + ")")
    return pattern.sub(lambda m: names[m.group(1)], text)


def move_hex():
    """The kit has a library `hex`, so the crate of that name is `hexes`."""
    if not os.path.isdir("crates/hex"):
        return
    os.rename("crates/hex", "crates/hexes")
    for p in list(texts(".antt", ".rt", ".edit")):
        t = read(p)
        new = re.sub(r"\bRattle\.hex\.", "Rattle.hexes.", re.sub(r"\bhex::", "hexes::", t))
        if new != t:
            with open(p, "w", encoding="utf-8") as f:
                f.write(new)
    t = read("crates.txt")
    with open("crates.txt", "w", encoding="utf-8") as f:
        f.write("\n".join(re.sub(r"\bhex\b", "hexes", l) if not l.startswith("#") else l for l in t.split("\n")))


def main():
    dry = "--dry" in sys.argv
    names = {}
    for p in texts(".antt"):
        for n in declared(p):
            new = spelled(n)
            if new != n:
                names[n] = new
    for p in texts(".rt"):
        for m in re.finditer(r" as ([^\s,;{}()]+·[^\s,;{}()]+)", read(p)):
            names[m.group(1)] = m.group(1).lower().replace("·", "_")
    names.update(OVERRIDES)
    byNew = {}
    for o, n in names.items():
        byNew.setdefault(n, []).append(o)
    # A lemma and the definition that it is about.
    for n, olds in byNew.items():
        if len(olds) > 1:
            for o in olds:
                if "-" in o:
                    names[o] = n + "_lem"
    byNew = {}
    for o, n in names.items():
        byNew.setdefault(n, []).append(o)
    # A name of the source that a generated name held with dashes.
    sources = {w.replace("_", "-"): w for w in source_words()}
    clash = 0
    for n, olds in sorted(byNew.items()):
        if len(olds) > 1:
            print("together:", n, olds)
            clash += 1
    for p in texts(".antt"):
        t = "\n".join(l for l in read(p).split("\n") if not l.lstrip().startswith("--"))
        tokens = set(re.findall(r"(?<![\w'·.-])" + WORD + "+", t))
        own = declared(p)
        for o in tokens & set(names):
            if names[o] in tokens and names[o] != o:
                where = "declared here" if names[o] in own else "used"
                print(f"clash: {p}: {o} -> {names[o]} ({where})")
                clash += 1
    for p in texts(".rt"):
        t = read(p)
        ghost = set(re.findall(r"(?<!" + WORD + ")" + WORD + "+", " ".join(re.findall(r"ghost use [^;]*;", t))))
        for o in sorted(ghost & set(names)):
            if re.search(r"\b" + re.escape(names[o]) + r"\s*:(?!:)|let (mut )?" + re.escape(names[o]) + r"\b", t):
                print(f"clash: {p}: {o} -> {names[o]} (a parameter, a field or a variable)")
                clash += 1
    print(len(names), "names;", clash, "clashes")
    if dry:
        return
    for p in texts(".antt", ".rt", ".edit"):
        t = read(p)
        out = []
        for line in t.split("\n"):
            code = line
            if p.endswith(".antt") and line.lstrip().startswith("--") or p.endswith(".rt") and line.lstrip().startswith("//") or p.endswith(".edit") and line.startswith("#"):
                code = re.sub(r"`[^`]*`", lambda m: rename(m.group(0), names), line)
                camel = {o: n for o, n in names.items() if re.search(r"[a-z][A-Z]", o) and o[0].islower()}
                code = rename(code, camel)
            else:
                code = rename(line, names)
                if "/proofs/" in p and os.path.basename(p) in ("Proof.antt", "Answers.antt", "Invariants.antt"):
                    code = re.sub(r"(?<=\.)([a-z][a-z0-9]*(?:-[a-z0-9]+)+)(?!" + WORD + ")", lambda m: sources.get(m.group(1), m.group(1)), code)
            out.append(code)
        new = "\n".join(out)
        if new != t:
            with open(p, "w", encoding="utf-8") as f:
                f.write(new)
    move_hex()
    pages = ["README.md"] + [os.path.join(r, f) for r, _, fs in os.walk("docs") for f in fs if f.endswith(".md")]
    pages += [p for p in ("host/README.md", "tests/README.md") if os.path.exists(p)]
    for p in pages:
        t = read(p)
        new = re.sub(r"`[^`\n]*`|(?m:^    .*$)", lambda m: rename(m.group(0), names), t)
        if new != t:
            with open(p, "w", encoding="utf-8") as f:
                f.write(new)


main()
