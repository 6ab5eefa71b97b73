#!/usr/bin/env python3
"""Brings this repository's own names to the spelling of today's Rattle: definitions, fields, lemmas and variables in snake case.

usage: python3 tools/respell.py        at the top, once, after the kit's port.py

Types, facts and modules keep upper camel case; functions of src/, exported C names, strings, inputs and outputs aren't touched. Where a
lemma would have the name of a definition it gets `_lem` behind it. Edits of must-fail/ follow the files that they change. What it did is
printed: each name with its new spelling.
"""

import collections
import glob
import re

WORD = r"[A-Za-z_][\w'₀₁₂₃₄₅₆₇₈₉-]*"
TOKEN = re.compile(r"(?<![\w'₀-₉-])" + WORD)
DECLARED = re.compile(r"(\s*)(?:(?:unfoldable|abbrev|pub|rec)\s+)*(" + WORD + r")\s*:\s")
GENERATED = re.compile(r"proofs/(?:[a-z_+]\w*/)+Proof\.antt$")

# Lemmas that the kit's script had turned to snake case already, and that fall together with a definition now.
TURNED = ["as_read", "goes_on", "held_in", "none_found", "size_in", "word_byte"]

# What the kit's script had turned in the files, but not in the edits.
PORTED = """
    allFit allFrom allOf anyOf asBit baseOf bitsAt bytesOf cellOf cellsOf countOf entryAt
    firstOf getD-at getD-default heldOf inWord isReached isRefused lastOf layoutOf leftOf letGo lineFor
    lineOf linkIn linkOf nextAt nextFrom nextOf noNode numberAt numberIn ofBytes offsetOf oneOf
    outOf passedAt placeIn placeOf roomLeft rowLow rowOf runOf sameList startsWith stateOf sumTo
    symbolOf tableOf topOf totalOf valuesOf wordLine
""".split()


def snake(name):
    name = name.replace("-", "_")
    name = re.sub(r"([a-z0-9])([A-Z])", lambda m: m.group(1) + "_" + m.group(2).lower(), name)
    return name


def proofs_of_functions(path):
    return GENERATED.search(path) is not None


def camel(name):
    return re.match(r"^[a-z]", name) and re.search(r"[a-z0-9][A-Z]", name) is not None and not name.startswith("is_Is")


def main():
    files = sorted(set(glob.glob("crates/*/specs/**/*.antt", recursive=True) + glob.glob("crates/*/proofs/**/*.antt", recursive=True)))
    declared = collections.defaultdict(set)
    for path in files:
        with open(path, encoding="utf-8") as f:
            for line in f:
                m = DECLARED.match(line)
                if m and not line.lstrip().startswith(("--", "use ", "mod ", "let ")):
                    declared[m.group(2)].add(path)
    table = {}
    for name in declared:
        if not re.match(r"[a-z]", name):
            continue
        if camel(name):
            table[name] = snake(name)
        elif "-" in name and not all(proofs_of_functions(p) for p in declared[name]):
            table[name] = snake(name)
    # Variables in camel case.
    for path in files:
        with open(path, encoding="utf-8") as f:
            for name in TOKEN.findall(f.read()):
                if camel(name) and name not in table and "-" not in name:
                    table[name] = snake(name)
    by_new = collections.defaultdict(set)
    for name, new in table.items():
        by_new[new].add(name)
    for name in list(table):
        if "-" in name and not camel(name):
            others = (by_new[table[name]] - {name}) | ({table[name]} & set(declared))
            if others:
                table[name] += "_lem"
    for name in TURNED:
        if name in declared:
            table[name] = name + "_lem"
    for name, new in sorted(table.items()):
        print(f"{name} {new}")

    fields = {n for n in table if "-" in n and any(re.search(r"(?m)^\s+(?:pub )?" + re.escape(n) + r" :", open(p, encoding="utf-8").read()) for p in declared[n])}

    ported = {name: snake(name) for name in PORTED}

    def turn(text, path, table=table):
        aliases = set(re.findall(r"(?m)^(?:pub )?use Rattle\.[\w.+]+ as ([\w-]+)$", text))
        out = []
        for line in text.split("\n"):
            code, mark, remark = line, "", ""
            cut = re.search(r"(^|\s)--(\s|$)" if path.endswith(".antt") else r"//", line)
            if cut:
                code, mark, remark = line[: cut.start()], line[cut.start() : cut.end()], line[cut.end() :]
            use = re.match(r"\s*(?:pub |ghost )*use ", code) is not None

            def one(m):
                name = m.group(0)
                if name not in table:
                    return name
                if path.endswith(".rt") and not camel(name):
                    return name
                before = code[: m.start()]
                if before.endswith("."):
                    head = re.search(r"([\w'₀-₉-]+)(?:\.[\w'₀-₉-]+)*\.$", before)
                    head = head.group(1) if head else ""
                    if camel(name):
                        return table[name]
                    if use:
                        return name
                    if head in aliases and before.endswith(head + "."):
                        return table[name]
                    if name in fields and not proofs_of_functions(path) and head not in ("tie", "c"):
                        return table[name]
                    return name
                return table[name]

            pieces = []
            for i, piece in enumerate(re.split(r'("(?:[^"\\]|\\.)*")', code)):
                code = piece
                pieces.append(piece if i % 2 else TOKEN.sub(one, piece))
            code = "".join(pieces)
            remark = TOKEN.sub(lambda m: table[m.group(0)] if m.group(0) in table and camel(m.group(0)) else m.group(0), remark)
            out.append(code + mark + remark)
        return "\n".join(out)

    for path in files + sorted(glob.glob("crates/*/src/**/*.rt", recursive=True)):
        with open(path, encoding="utf-8") as f:
            text = f.read()
        new = turn(text, path)
        if new != text:
            with open(path, "w", encoding="utf-8") as f:
                f.write(new)
    for path in sorted(glob.glob("crates/*/must-fail/*.edit")):
        with open(path, encoding="utf-8") as f:
            lines = f.read().split("\n")
        kind = "src/lib.rt"
        for i, line in enumerate(lines):
            if line.startswith("file:"):
                kind = line[5:].strip()
            elif line.startswith(("old:", "new:")):
                lines[i] = line[:4] + turn(line[4:], kind, table | ported)
        new = "\n".join(lines)
        with open(path, "w", encoding="utf-8") as f:
            f.write(new)


if __name__ == "__main__":
    main()
