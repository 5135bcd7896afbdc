#!/usr/bin/env python3
"""Brings the names of definitions and lemmas to today's spelling: words in snake case, types and modules in camel case.

usage: tools/respell.py [--list] [FOLDER]

Run once, after the toolchain's port.py, at the top of the checkout (or of FOLDER). It renames what specs/*.antt and proofs/*.antt declare, there, in
proofs of functions, in the clauses and ghost imports of src/, in must-fail edits, whose other spelling it turns too, and between backquotes in README.md
and docs/PROMISES.md and docs/DECISIONS.md. Functions of src/, exported C names and strings keep their names. --list prints the renamings and what they would clash with, and writes nothing.
"""
import collections
import os
import re
import sys

DECLARED = re.compile(r"^(\s*)((?:(?:abbrev|unfoldable|pub|data|record) )*)([^\s:(){}]+)\s*(?:\{[^}]*\}|\([^)]*\)|\s)*:(?!=)\s")
TOKEN = re.compile(r"[^\s(){}\[\],;.«»\"`]+")
# Names that would fall together: two definitions with a field or a claim, six lemmas with a definition.
OTHER = {
    "twiceArea": "area_twice",
    "onEdge": "is_on_edge",
    "entry_in": "entry-in",
    "filled_in": "filled-in",
    "held_in": "held-in",
    "in_order": "in-order",
    "one_line": "one-line",
    "sum_below": "sum-below",
}


def snake(name):
    name = name.replace("′", "'").replace("getD", "get_or")
    return re.sub(r"(?<=[a-z0-9'₀-₉])([A-Z])", lambda m: "_" + m.group(1), name).lower()


def files(root):
    for folder, dirs, names in os.walk(os.path.join(root, "crates")):
        dirs[:] = sorted(d for d in dirs if d != "out")
        for name in sorted(names):
            if name.endswith((".antt", ".rt", ".edit")):
                path = os.path.join(folder, name)
                with open(path, encoding="utf-8") as f:
                    yield path, os.path.relpath(path, root).split(os.sep), f.read()


def of_function(parts):
    return parts[2] == "proofs" and len(parts) > 4


def renamings(root):
    out = {}
    for _, parts, text in files(root):
        if not parts[-1].endswith(".antt") or of_function(parts):
            continue
        for line in text.splitlines():
            m = DECLARED.match(line)
            name = m and m.group(3)
            if not name or not re.search(r"[a-zA-Z]", name) or name in ("use", "pub"):
                continue
            if parts[-1] == "Claims.antt" and line[0] == " " and name in OTHER:
                continue
            if name in OTHER or "′" in name or re.search(r"[a-z0-9][A-Z]", name) and name[0].islower():
                out[name] = OTHER.get(name, snake(name))
    return out


def in_text(text, names, hyphens=True):
    def turn(m):
        word = m.group(0)
        return word if "-" in word and not hyphens else names.get(word, word)

    return TOKEN.sub(turn, text)


def antt(text, names, inner):
    lines = []
    for line in text.splitlines(keepends=True):
        code, dash, comment = (line, "", "") if not line.lstrip().startswith("--") else ("", "", line)
        if " -- " in code:
            code, dash, comment = code.partition(" -- ")
        # In the proof of a function a path's hyphenated parts are the checker's names.
        parts = re.split(r"((?<=[\w'\])])\.[^\s(){}\[\],;.]+)", code) if inner else [code]
        code = "".join(in_text(p, names, not (inner and p.startswith("."))) for p in parts)
        lines.append(code + dash + in_text(comment, names, False))
    return "".join(lines)


def rust(text, names):
    lines = []
    depth = 0
    for line in text.splitlines(keepends=True):
        ghost = depth > 0 or re.match(r"\s*(ghost use|requires|ensures|ghost \w+:)", line)
        if ghost:
            depth += line.count("{") - line.count("}")
        lines.append(in_text(line, names) if ghost else line)
    return "".join(lines)


def edit(text, names):
    lines = []
    for line in text.splitlines(keepends=True):
        m = re.match(r"(old|new): (.*)$", line.rstrip("\n"))
        if m:
            body = m.group(2)
            body = re.sub(r"(?<=[\w'\])₀-₉]) \.(?=[a-z0-9«])", ".", body)
            body = re.sub(r"Rattle·(\w+)·(?:specs\.specs|proofs\.proofs)", lambda k: f"Rattle.{k.group(1)}." + ("specs" if "specs" in k.group(0) else "proofs"), body)
            body = re.sub(r"Rattle·", "Rattle.", body)
            body = re.sub(r"(?<![\w'])_([^\w\s]+)_(?![\w'])", r"◌\1◌", body)
            body = re.sub(r"\bgetD\b", "get_or", body)
            line = f"{m.group(1)}: {in_text(body, names)}\n"
        lines.append(line)
    return "".join(lines)


def main(words):
    listing = "--list" in words
    rest = [w for w in words if w != "--list"]
    root = os.path.realpath(rest[0] if rest else ".")
    names = renamings(root)
    if listing:
        show(root, names)
        return
    for path, parts, text in files(root):
        if path.endswith(".edit"):
            new = edit(text, names)
        elif path.endswith(".rt"):
            new = rust(text, names)
        else:
            new = antt(text, names, of_function(parts))
        write(path, text, new)
    for name in ("README.md", "docs/PROMISES.md", "docs/DECISIONS.md"):
        path = os.path.join(root, name)
        with open(path, encoding="utf-8") as f:
            text = f.read()
        write(path, text, page(text, names))


def write(path, text, new):
    if new != text:
        with open(path, "w", encoding="utf-8") as f:
            f.write(new)


def page(text, names):
    return re.sub(r"`[^`\n]+`", lambda m: in_text(m.group(0), names), text)


def show(root, names):
    by_new = collections.defaultdict(set)
    for old, new in names.items():
        by_new[new].add(old)
    for new, olds in sorted(by_new.items()):
        if len(olds) > 1:
            print("together:", new, *sorted(olds))
    for path, parts, text in files(root):
        if path.endswith(".edit"):
            continue
        if path.endswith(".rt"):
            words = set(TOKEN.findall(text))
        else:
            words = set(TOKEN.findall("\n".join(l for l in text.splitlines() if not l.lstrip().startswith("--"))))
        for old in sorted(words & names.keys()):
            if names[old] in words:
                print("clash:", "/".join(parts), old, "->", names[old])


if __name__ == "__main__":
    main(sys.argv[1:])
