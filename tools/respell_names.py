#!/usr/bin/env python3
"""Brings the names of the repository's own definitions, lemmas and fields to today's spelling, in crates/ and in the pages.

usage: python3 tools/respell_names.py [--check]      at the top of the repository, once, right after the kit's port.py

Words become snake case (`isBytes` -> `is_bytes`, `field-byte` -> `field_byte`); types and modules keep their capitals. What is a type
and began with a small letter gets a capital (GIVEN). A name that a file imports from the kit's library stays in that file, as do the
names that Rattle makes in a function's walk (proofs/F/Proof.antt): fields behind a dot that no record here declares, and the goals
themselves. In a .rt file only names of clauses can be spelled so, since Rust's own are in snake case already; literals stay. Where a
new name would meet another of the same file, the pair is printed and nothing is written.
"""

import os
import re
import sys

# Three types, and two lemmas that port.py gave the name of what they speak of.
GIVEN = {"walkedBy": "WalkedBy", "judgedBy": "JudgedBy", "read_by": "ReadBy", "held_on": "held_on_lem", "left_out": "left_out_lem"}
# What is proved of a definition and would have its name: today's spelling puts `_lem` behind it.
LEMMAS = set(
    """accepted-answer accepts-purge block-right command-right commands-sized compose-code content-right counts-right deliver-code
    dependencies-right drafted-message floor-number floors-in header-bytes image-size index-from layout-right line-size log-count
    message-with messages-start number-on numbers-right offset-after offsets-right origin-in origin-past origin-right priority-right
    log-message log-offset purge-code purged-after read-record read-records read-steps sequence-size sizes-right text-part-size tops-right values-size""".split()
)
WORD = re.compile(r'[^\s(){}.;,@"«»\[\]|]+')
MODS = r"(?:(?:abbrev|pub|unfoldable) )*"
DECLARED = re.compile(rf"^( *)({MODS})((?:[^\s(){{}}.;,@\"«»:=]+ )*?)([^\s(){{}}.;,@\"«»:=]+)((?: [({{][^(){{}}\n]*[)}}])*) :(?: (.*))?$")
HEAD = re.compile(rf"^( *){MODS}(?:data|record) ([^\s(){{}}]+)")
USE = re.compile(r"^\s*(?:pub )?(?:ghost )?use ([^\s;{]+?)\.?(?:\{([^}]*)\})?(?: as ([^\s;]+))?;?$", re.M)
KIT = re.compile(r"Rattle\.(?:core|std|std_\w+|io|os|libc)\b|Prim\b|mathlib\b|native\b|lib\b|borrow\b|heap\b|denote\b")


def texts(root):
    for folder, dirs, files in os.walk(os.path.join(root, "crates")):
        dirs[:] = sorted(d for d in dirs if d != "out")
        for name in sorted(files):
            if name.endswith((".antt", ".rt")):
                yield os.path.join(folder, name)


def snake(name):
    if name in GIVEN:
        return GIVEN[name]
    if name in LEMMAS:
        return name.replace("-", "_") + "_lem"
    parts = []
    for part in name.split("-"):
        if part[:1].isupper() and len(part) > 1:
            parts.append(part)
        else:
            parts.append(re.sub(r"(?<=[a-z0-9₀-₉])([A-Z])", lambda m: "_" + m[1].lower(), part))
    return "_".join(parts)


def bare(text):
    """The code of an antt file, without comments."""
    return re.sub(r'(?<![^\s(){}.;,@"«»])--[^\n]*', "", text)


def declarations(text):
    """Each declared name of an antt file: the name, whether it stands at the margin, and whether its type is a goal of the walk."""
    inside = None
    for line in bare(text).split("\n"):
        if m := HEAD.match(line):
            yield m[2], True, False
            inside = len(m[1])
            continue
        m = DECLARED.match(line)
        if not m or re.match(r" *(?:let|in|elim|where|use|λ)\b", line):
            continue
        names = m[3].split() + [m[4]]
        goal = (m[6] or "").startswith("tie.")
        if len(m[1]) == 0:
            inside = None
        for name in names:
            yield name, len(m[1]) == 0 or "pub " in m[2] or (inside is not None and len(m[1]) > inside), goal


def imported(text, kit):
    """The names that a file imports, from the kit's library or from this repository."""
    names = set()
    for path, items, alias in USE.findall(text):
        if bool(KIT.match(path)) != kit:
            continue
        for item in (items or "").split(","):
            item = item.strip()
            if " as " in item:
                names.update(item.split(" as ") if kit else [item.split(" as ")[0]])
            elif item:
                names.add(item)
    return names


def collect(root):
    """The table of names that are seen in other files, and each file's own."""
    shared, local = {}, {}
    for path in texts(root):
        if not path.endswith(".antt"):
            continue
        with open(path, encoding="utf-8") as f:
            text = f.read()
        walk = os.path.basename(path) == "Proof.antt"
        mine = {}
        for name, outer, goal in declarations(text):
            if goal or snake(name) == name:
                continue
            mine[name] = snake(name)
            if outer and not walk:
                shared[name] = snake(name)
        local[path] = mine
    return shared, local


def aliases(text):
    """Own names for imported items: `a as bC`."""
    return {b: snake(b) for _, b in re.findall(r"(\S+) as ([^\s,;{}]+)", text) if snake(b) != b}


QUIET = re.compile(r'"(?:[^"\\\n]|\\.)*"|(?<![^\s(){}.;,@"«»])--[^\n]*|(?<![:\w])//[^\n]*')
HUMP = re.compile(r"[a-z0-9][A-Z]")


def turn(text, table, fields, heads, walk):
    """The text with each word of the table turned; in a comment only what can be no English word, or stands in a code span."""

    def word(m):
        name = m[0]
        if m.start() and m.string[m.start() - 1] == ".":
            before = re.search(r"([^\s(){}.;,@\"«»]+)\.$", m.string[: m.start()])
            head = before[1] if before else ""
            if not (name in fields or head[:1].isupper() or head in heads):
                return name
            if walk and name not in fields and not head[:1].isupper():
                return name
        return table.get(name, name)

    def code(part):
        return WORD.sub(word, part)

    def quiet(m):
        if m[0][0] == '"':
            return m[0]
        humps = {a: b for a, b in table.items() if HUMP.search(a)}
        prose = re.sub(r"[\w'?]+(?:-[\w'?]+)*", lambda w: humps.get(w[0], w[0]), m[0])
        return re.sub(r"`[^`\n]*`", lambda s: WORD.sub(lambda w: table.get(w[0].strip("`"), w[0].strip("`")).join(["`" if w[0].startswith("`") else "", "`" if w[0].endswith("`") else ""]) if w[0].strip("`") in table else w[0], s[0]), prose)

    out, at = [], 0
    for m in QUIET.finditer(text):
        out += [code(text[at : m.start()]), quiet(m)]
        at = m.end()
    return "".join(out + [code(text[at:])])


def main(check):
    root = "."
    shared, local = collect(root)
    fields = set()
    for path in texts(root):
        if path.endswith(".antt") and os.path.basename(path) != "Proof.antt":
            with open(path, encoding="utf-8") as f:
                fields |= {n for n, outer, goal in declarations(f.read()) if outer}
    said, new = [], {}
    for path in texts(root):
        with open(path, encoding="utf-8") as f:
            text = f.read()
        table = {**shared, **local.get(path, {}), **aliases(text)}
        for name in imported(text, True):
            table.pop(name, None)
        heads = {alias or p.split(".")[-1] for p, items, alias in USE.findall(text) if not items and not KIT.match(p)} - {"tie"}
        walk = os.path.basename(path) in ("Proof.antt", "Answers.antt", "Invariants.antt")
        code = QUIET.sub(" ", text)
        words = set(re.findall(r'(?<![^\s(){};,@"«»\[\]|])[^\s(){}.;,@"«»\[\]|]+', code))
        olds = {w for w in words if w in table}
        for old in sorted(olds):
            rivals = [w for w in olds if table[w] == table[old] and w != old]
            if rivals or table[old] in words and table[old] not in table and not path.endswith(".rt"):
                said.append(f"{path}: {old} -> {table[old]} meets {rivals or 'a name that stands there'}")
        turned = turn(text, table, fields, heads, walk)
        if path.endswith(".rt"):
            rust = re.sub(r"\b(?:ghost use[^;]*;|(?:requires|ensures)\*?(?: \w+)? \{[^\n]*|ghost [^\n]*)", " ", QUIET.sub(" ", turned))
            variables = set(re.findall(r"(?:\(|, |let |mut )(\w+)(?=: | = |;)", rust))
            for name in imported(turned, False) & variables - imported(text, False):
                said.append(f"{path}: {name} is an item or a variable of the code too")
        if turned != text:
            new[path] = turned
    print("\n".join(said))
    print(f"{len(shared)} names, {len(new)} files, {len(said)} meetings")
    if check or said and "--force" not in sys.argv:
        return bool(said)
    for path, text in new.items():
        with open(path, "w", encoding="utf-8") as f:
            f.write(text)
    return 0


if __name__ == "__main__":
    sys.exit(main("--check" in sys.argv[1:]))
