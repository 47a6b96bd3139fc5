#!/usr/bin/env python3
"""Spells the names of this repository as the language now does.

usage: tools/respell.py           at the top of the repository, once, on files whose names still have the older spelling
       tools/respell.py --table   prints each old name, a tab and the new one, and writes nothing

What a definition, a law or a field is called changes from one_Two or oneTwo to one_two; a type or a constructor keeps its capital.
A dash stays where it joins two names, as in digit-union, the digit of a union; a plain word is joined by an underscore, as in digit_cases.
A fact's fields and the constructors of a type have underscores alone.
Turned are the files of specs/ and proofs/, the clauses of the code, and the names in backquotes of comments and pages. A name that would fall together
with another one keeps its spelling, and is told.
"""
import collections
import os
import re
import sys

WORD = re.compile(r'[^\s(){}.;,@"«»\[\]]+')
HEAD = re.compile(r"^( *)((?:(?:pattern|unfoldable|abbrev|pub)\s+)*)([^\s(){}:=.;,]+)(?:\s*\{[^}]*\})?\s+:\s+(.*)$")
BLOCK = re.compile(r"^ *(?:(?:pub|abbrev|unfoldable)\s+)*(record|data)\s+(\S+)")
# Words of an operator or of a list, as the library spells them in a law's name.
OPERATORS = """eq ne le lt ge gt mem add sub mul div mod pow suc zero min max and or not cond map length append take drop get_or set nil cons
eqb leb ltb So Bool List Unit""".split()
# Names that would fall together with another one, by hand.
CHOSEN = {
    "allIn": "all_in'",
    "allRead": "all_read'",
    "andThen": "look_then",
    "cutLine": "cut_line'",
    "first-alone-breaks": "first_alone_breaks",
    "firstAlone-breaks": "first_alone-breaks",
    "inOrder": "in_order'",
    "leftIn": "left_in'",
    "node-count": "number_of_nodes",
    "nodeAt": "node_at'",
    "oneMore": "one_more'",
    "toldOf": "told_of'",
}
USE = re.compile(r"\buse Rattle\.[^;{\n]*\{([^}]*)\}|\buse [^;{\n]*\{([^}]*)\}")


def files(*ends):
    for top in ("crates", "docs"):
        for folder, dirs, names in os.walk(top):
            dirs[:] = sorted(d for d in dirs if d not in ("out", "target", ".git"))
            for name in sorted(names):
                if name.endswith(ends):
                    yield os.path.join(folder, name)
    for name in sorted(os.listdir(".")):
        if name.endswith(ends):
            yield name


def read(path):
    with open(path, encoding="utf-8") as f:
        return f.read()


def plain(name):
    return re.sub(r"(?<=[a-z0-9])([A-Z]+)", lambda m: "_" + m[1].lower(), name)


def declared():
    """Each name that these files declare, with where it stands: 'specs' or 'proofs', and 'field' for a label of a record or a constructor."""
    out = collections.defaultdict(set)
    for path in files(".antt"):
        block = None
        for line in read(path).split("\n"):
            m = BLOCK.match(line)
            if m:
                block = (len(line) - len(line.lstrip()), m[1])
                out[m[2]].add(("specs" if "/specs/" in path else "proofs", "type"))
                continue
            m = HEAD.match(line)
            if line.strip() and block and len(line) - len(line.lstrip()) <= block[0]:
                block = None
            # a goal of a function, which the language names
            if m and not re.match(r"(tie|goal)\.", m[4]) and not m[3].startswith("--") and "statement M" not in m[4]:
                out[m[3]].add(("specs" if "/specs/" in path else "proofs", "field" if block else "item"))
    return out


def table():
    names = declared()
    heads = {plain(n) for n, places in names.items() if "-" not in n and ("specs", "item") in places or "-" not in n and ("specs", "type") in places}
    heads |= set(OPERATORS)
    taken = set(names)
    for path in files(".antt", ".rt"):
        for m in USE.finditer(read(path)):
            taken |= set(WORD.findall(m[1] or m[2]))
    rows, back = {}, collections.defaultdict(list)
    for name, places in sorted(names.items()):
        if not re.search(r"-|[a-z0-9][A-Z]", name) or name.startswith("-") or not re.match(r"[^\W\d]", name):
            continue
        if "-" not in name and name[:1].isupper():
            continue
        parts = [plain(p) if not (p[:1].isupper()) else p for p in name.split("-")]
        if "" in parts:
            continue
        if name in CHOSEN:
            rows[name] = CHOSEN[name]
            back[CHOSEN[name]].append(name)
            continue
        field = all(kind == "field" for _, kind in places)
        new = parts[0]
        for a, b in zip(parts, parts[1:]):
            joins = not field and (a in heads and b in heads or new == parts[0] and a[:1].isupper())
            new += ("-" if joins else "_") + b
        if new != name:
            rows[name] = new
            back[new].append(name)
    for new, olds in back.items():
        if len(olds) == 1 and new not in taken:
            continue
        # a definition and a law of one name: the law is the definition's lemma; all else keeps its spelling
        first = [old for old in olds if "-" not in old]
        for old in olds:
            if len(first) == 1 and new not in taken and old == first[0]:
                continue
            lem = new + "_lem"
            if "-" in old and all(place == ("proofs", "item") for place in names[old]) and lem not in taken and len(olds) - len(first) == 1:
                rows[old] = lem
            else:
                del rows[old]
                print(f"kept: {old}: {new} is another name too", file=sys.stderr)
    return rows


def turn(text, rows):
    return WORD.sub(lambda m: rows.get(m[0], m[0]), text)


def outside(text, pattern, at, between):
    out, end = [], 0
    for m in pattern.finditer(text):
        out += [between(text[end : m.start()]), at(m[0])]
        end = m.end()
    return "".join(out + [between(text[end:])])


SPAN = re.compile(r"`[^`\n]+`")
COMMENT = re.compile(r'"(?:[^"\\\n]|\\.)*"|(?<![^\s(){}.;,@"«»])--[^\n]*')
RUST = re.compile(r'//[^\n]*|b?"(?:[^"\\\n]|\\.)*"')


def spans(text, rows):
    return SPAN.sub(lambda m: turn(m[0][1:-1], rows).join("``"), text)


def aside(text, rows):
    return text if text[:1] in "b\"" else spans(text, rows)


def main(argv):
    rows = table()
    if argv == ["--table"]:
        for row in rows.items():
            print(*row, sep="\t")
        return 0
    if argv:
        print(__doc__)
        return 2
    for path in files(".antt", ".rt", ".md"):
        old = read(path)
        if path.endswith(".md"):
            new = spans(old, rows)
        else:
            new = outside(old, COMMENT if path.endswith(".antt") else RUST, lambda t: aside(t, rows), lambda t: turn(t, rows))
        if new != old:
            with open(path, "w", encoding="utf-8") as f:
                f.write(new)
    print(f"respell: {len(rows)} names")
    return 0


if __name__ == "__main__":
    raise SystemExit(main(sys.argv[1:]))
