#!/usr/bin/env python3
"""Brings the repository's own definitions and lemmas to today's spelling, once, behind port.py.

usage: tools/spelling.py            at the top of the repository, right behind port.py
       tools/spelling.py --words    behind that: every word in camel case that is left, constructors and variables among them

Words in camel case become snake case (readNumber: read_number); types, records and modules keep their capitals. In the name of a lemma a
dash stays where it joins the name of a definition (bind-found) and is an underscore elsewhere (unless_met). Goals' names in proofs/F/ and
names of src/ stay. A lemma that would have the name of another thing gets _lem, and is printed.
"""
import os
import re
import sys

WORD = re.compile(r"(?<![\w'\\-])[^\W\d][\w'-]*")
HEAD = re.compile(
    r"^[ ]*(?:(?:pub|abbrev|unfoldable)[ ]+)*((?:data|record)[ ]+)?([^\W\d][\w'-]*)[ ]*(?:[({][^:]*:[^:]*[)}][ ]*)*:(?!=)", re.M)
SKIP = ("out", ".git", "target")
# Fields of two types that may have one name.
FREE = ("present_count", "normal_blocks_at", "normal_recording", "normal_track", "read_recording", "read_track", "write_message")


def files(ends):
    for top in ("crates", "docs", "README.md", "scripts", "second/README.md"):
        if os.path.isfile(top):
            yield top
        for folder, dirs, names in os.walk(top):
            dirs[:] = sorted(d for d in dirs if d not in SKIP)
            for n in sorted(names):
                if n.endswith(ends):
                    yield os.path.join(folder, n)


def read(path):
    with open(path, encoding="utf-8") as f:
        return f.read()


def own(path):
    """A file of definitions or of lemmas; what proofs/F/ names are goals."""
    return re.fullmatch(r"crates/\w+/(specs|proofs)/\w+\.antt", path) is not None


def snake(part):
    if not part[:1].islower():
        return part
    return re.sub(r"(?<=[a-z0-9])([A-Z])", lambda m: "_" + m.group(1).lower(), part)


def turned(name, known):
    parts = [snake(p) for p in name.split("-")]
    text = parts[0]
    for p in parts[1:]:
        text += ("-" if p in known else "_") + p
    return text


def words():
    used, camel, edits = set(), set(), set()
    lemmas = {m.group(2) for p in files(".antt") for m in HEAD.finditer(read(p))}
    for p in files((".antt", ".rt", ".edit")):
        text = re.sub(r"(--|//)[^\n]*", "", read(p))
        found = set(WORD.findall(text))
        in_camel = {w for w in found if re.fullmatch(r"[a-z][a-z0-9]*(?:[A-Z]+[a-z0-9]*)+", w)}
        if p.endswith(".edit"):
            edits |= in_camel
        else:
            used |= found
            camel |= in_camel
    table = {}
    for w in sorted(camel):
        new = snake(w).lower()
        if new in used and new in lemmas:
            table[new] = new + "_lem"
            print(f"look: {new} is {new}_lem")
        table[w] = new
    # port.py turns no edit: what it turned elsewhere is turned there now
    table.update((w, snake(w).lower()) for w in edits - camel if snake(w).lower() in used)
    return table


def main():
    if sys.argv[1:] == ["--words"]:
        return turn(words())
    defined, local = {}, set()
    for p in files(".antt"):
        for m in HEAD.finditer(read(p)):
            (defined.setdefault(m.group(2), set()).add(p) if own(p) else local.add(m.group(2)))
    used = set()
    for p in files(".antt"):
        text = re.sub(r"--[^\n]*", "", read(p))
        used |= {m.group() for m in WORD.finditer(text) if text[m.start() - 1:m.start()] != "."}
    specs = {n for n, ps in defined.items() if any("/specs/" in p for p in ps)}
    known = {snake(n) for n in specs if "-" not in n}
    table, taken = {}, set(FREE)
    camel = [n for n in sorted(defined) if re.search("[a-z0-9][A-Z]", n)]
    for name in camel + [n for n in sorted(defined) if n not in camel]:
        new = turned(name, known)
        if new == name or name in table:
            continue
        if new in used and new not in taken:
            if name not in camel or new not in defined and new not in local:
                new += "_lem"
            elif new not in table:
                table[new] = new + "_lem"
        elif new in table.values():
            new += "_lem"
        if new in table.values():
            print(f"stays: {name} (as {new} it falls together with another)")
            continue
        table[name] = new
        if new.endswith("_lem"):
            print(f"look: {name} is {new}")
    for n in sorted(table):
        if table[n] == n + "_lem":
            print(f"look: {n} is {table[n]}")
    turn(table)


def turn(table):
    for p in files((".antt", ".rt", ".edit", ".md")):
        text = read(p)
        if p.endswith(".md"):
            new = re.sub(r"`[^`\n]*`", lambda s: respelled(s.group(), table), text)
        elif p.endswith(".rt"):
            new = in_clauses(text, table)
        else:
            new = respelled(text, table)
        if new != text:
            with open(p, "w", encoding="utf-8") as f:
                f.write(new)
    print(f"{len(table)} names turned", file=sys.stderr)


def respelled(text, table):
    def one(m):
        new = table.get(m.group(), m.group())
        behind_dot = text[m.start() - 1:m.start()] == "."
        return m.group() if behind_dot and new == m.group() + "_lem" else new

    return WORD.sub(one, text)


def in_clauses(text, table):
    """Of a .rt file: its ghost items, and its clauses, which stand between a signature and a line that is a brace alone."""
    lines, inside = text.split("\n"), False
    for i, line in enumerate(lines):
        if re.match(r"\s*(requires|ensures)\b", line):
            inside = True
        elif re.match(r"\s*\{\s*$", line):
            inside = False
        if inside or line.lstrip().startswith("ghost ") or line.lstrip().startswith("//"):
            lines[i] = respelled(line, table if not line.lstrip().startswith("//") else {n: w for n, w in table.items() if re.search("[A-Z-]", n)})
    return "\n".join(lines)


if __name__ == "__main__":
    main()
