#!/usr/bin/env python3
"""Brings the repository's own definitions and lemmas to today's spelling: words in snake case, types in camel case.

usage: python3 tools/respell.py          at the top of a repository on which port.py ran; rewrites crates/*/{src,specs,proofs} in place
       python3 tools/respell.py --list   only prints what falls together

A name counts as the repository's own if a file of specs/ or proofs/ declares it (a line 'NAME : ..', also a local one) and it has a dash.
The names of goals (a declaration 'NAME : goal.NAME') are Rattle's own and stay.
A name that a file imports from std stays in that file.
"""
import os
import re
import sys

WORD = r"[A-Za-z_'][\w'≢≡₀-₉]*"
KEBAB = re.compile(r"(?<![\w'.-])(" + WORD + r"(?:-[\w'≢≡₀-₉]+)+)(?![\w'-])")
DOTTED = re.compile(r"(?<=\.)(" + WORD + r"(?:-[\w'≢≡₀-₉]+)+)(?![\w'-])")
DECLARED = re.compile(r"^\s*(?:pub |abbrev |unfoldable |data |record |module |infix\w* \d+ )*(" + WORD + r"(?:-[\w'≢≡₀-₉]+)+)\s+:\s*(.*)$", re.M)
# parameters that stand for a field of src/, and names that a `let`, a `λ` or a clause's pattern binds
ALSO = """version-hint note-hint waited-on at-Q at-R at-k in-answers in-calls in-set inside-range low-a low-j met-it not-ser on-j
    shorter-too there-n told-so validated-with"""
RECORD = re.compile(r"^\s*(?:pub )?(?:record|data) (" + WORD + r"(?:-[\w'≢≡₀-₉]+)+)[\s:]", re.M)
# a type that port.py took for a word
TYPES = {"Goes_on": "GoesOn"}


def respelled(name, is_type):
    parts = name.split("-")
    if is_type:
        return parts[0] + "".join(p[:1].upper() + p[1:] for p in parts[1:])
    return "_".join(parts)


def files():
    for crate in sorted(os.listdir("crates")):
        for part in ("src", "specs", "proofs"):
            for folder, dirs, names in os.walk(os.path.join("crates", crate, part)):
                dirs.sort()
                for n in sorted(names):
                    if n.endswith((".rt", ".antt")):
                        yield os.path.join(folder, n)


def read(p):
    with open(p, encoding="utf-8") as f:
        return f.read()


def goal(name, statement):
    return statement.startswith("goal.") or statement.startswith("need.")


def own():
    """The table: old name to new. A name with a capital whose signature ends in a universe is a type; any other is a word."""
    names, goals, types = set(), set(), set()
    for p in files():
        if p.endswith(".antt"):
            for m in DECLARED.finditer(read(p)):
                (goals if goal(m.group(1), m.group(2)) else names).add(m.group(1))
                if m.group(1)[0].isupper() and m.group(2).rstrip().endswith("Type 0"):
                    types.add(m.group(1))
            for m in RECORD.finditer(read(p)):
                names.add(m.group(1))
                types.add(m.group(1))
    return {n: respelled(n, n in types) for n in names - goals}


def imported(text):
    out = set()
    for m in re.finditer(r"use Rattle\.(?:std|borrow)[\w.]*\.\{([^}]*)\}", text):
        out |= {w.strip().split(" as ")[0] for w in m.group(1).split(",")}
    return out


def locals_of(text):
    return {m.group(1) for m in DECLARED.finditer(text)}


def turn(text, table, path, said):
    stay = imported(text) - locals_of(text)
    turned = set()

    def one(m):
        n = m.group(1)
        if n in table and n not in stay:
            turned.add(n)
            return table[n]
        return n

    new = KEBAB.sub(one, text)
    # a dotted use is a field or an item of a module: fields of Rattle's own (c.in-Some) are not in the table
    new = DOTTED.sub(one, new)
    for word, name in TYPES.items():
        new = re.sub(r"(?<![\w'-])" + word + r"(?![\w'-])", name, new)
    words = set(re.findall(r"[\w'≢≡₀-₉]+(?:-[\w'≢≡₀-₉]+)*", text))
    for n in sorted(turned):
        if table[n] in words:
            said.append(f"{path}: {n} and {table[n]}")
    return new


def main():
    table = own()
    table.update({n: respelled(n, False) for n in ALSO.split()})
    said = []
    by = {}
    for old, new in table.items():
        by.setdefault(new, []).append(old)
    for new, olds in sorted(by.items()):
        if len(olds) > 1:
            said.append(f"{', '.join(sorted(olds))} all become {new}")
    changed = 0
    for p in files():
        text = read(p)
        new = turn(text, table, p, said)
        if new != text and "--list" not in sys.argv:
            with open(p, "w", encoding="utf-8") as f:
                f.write(new)
            changed += 1
    print("\n".join(said))
    print(f"respell: {len(table)} names, {changed} files, {len(said)} to look at")


main()
