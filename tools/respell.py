#!/usr/bin/env python3
"""Brings the names of this repository's own definitions and lemmas to snake case, and those of types and facts to camel case.

usage: python3 tools/respell.py [--dry]     at the top of the repository, once, after the toolchain's port.py

A name is ours if a file of specs/ or proofs/ gives it a signature, or declares it as a type, and it has a dash. Answers to goals
(`name : goal.name`) keep their names, since the check made them. Code, strings and plain words in comments stay; a name between
backticks is turned in comments and pages too. Names that would fall together with another stop the script.
"""
import os
import re
import sys

NAME = re.compile(r"[^\s(){}\[\];,.\"`·⌜⌝]+")
SIGNATURE = re.compile(r"^\s*(?:(?:abbrev|unfoldable|pub)\s+)*([^\s(){}:;,.]+)\s*:\s+(.*)$")
DECLARED = re.compile(r"^\s*(?:pub )?(?:data|record)\s+([^\s(){}:;,.]+)")
IMPORT = re.compile(r"^\s*(?:ghost )?(?:pub )?use ([^\s{]+)\.\{(.*)\}")
FUNCTION = re.compile(r"\bfn ([a-z_0-9]+)")
# two types whose new names would be those of the modules that they stand in
OTHERWISE = {"Round-trips": "TextsRoundTrip", "Lines-back": "LinesComeBack"}


def texts(*ends):
    for folder, dirs, files in os.walk("crates"):
        dirs[:] = sorted(d for d in dirs if d != "out")
        for f in sorted(files):
            if f.endswith(ends):
                yield os.path.join(folder, f)


def read(path):
    with open(path, encoding="utf-8") as f:
        return f.read()


def turned(name, functions):
    if name in OTHERWISE:
        return OTHERWISE[name]
    parts = name.split("-")
    if name[0].isupper() and len(name.split("-")[0]) > 1:
        return parts[0] + "".join(p[:1].upper() + p[1:] for p in parts[1:])
    new = "_".join(parts)
    # a definition or lemma with a function's name gets a suffix
    return new + "_lem" if new in functions else new


def own_names():
    found = set()
    for path in texts(".antt"):
        for line in read(path).splitlines():
            m = DECLARED.match(line)
            if m:
                found.add(m.group(1))
                continue
            m = SIGNATURE.match(line)
            if m and not m.group(2).startswith("goal.") and m.group(1) not in ("in",):
                found.add(m.group(1))
    functions = {f for path in texts(".rt") for f in FUNCTION.findall(read(path))}
    return {n: turned(n, functions) for n in found if "-" in n[1:-1] and re.match(r"[\w]", n)}


def imported(own_crates, names):
    """Names of ours that some file imports from the library: that file's plain uses are the library's."""
    out = {}
    for path in texts(".antt", ".rt"):
        for line in read(path).splitlines():
            m = IMPORT.match(line)
            if not m:
                continue
            root = m.group(1).split(".")
            ours = root[0] == "Rattle" and len(root) > 1 and root[1] in own_crates
            if ours:
                continue
            for item in m.group(2).split(","):
                for n in item.split():
                    if n in names:
                        out.setdefault(path, set()).add(n)
    return out


def pieces(line, comment):
    """The line cut at its comment."""
    at = 0
    while True:
        i = line.find(comment, at)
        if i < 0:
            return line, ""
        if i == 0 or line[i - 1].isspace():
            if '"' in line[:i] and line[:i].count('"') % 2:
                at = i + 1
                continue
            return line[:i], line[i:]
        at = i + 1


def turn_code(code, names, kept):
    out, last = [], 0
    quoted = [m.span() for m in re.finditer(r'"(?:[^"\\]|\\.)*"', code)]
    for m in NAME.finditer(code):
        w = m.group()
        if w in names and not any(a <= m.start() < b for a, b in quoted):
            # after a dot it is a field, and a field is ours
            field = m.start() > 0 and code[m.start() - 1] == "."
            if w in kept and not field:
                continue
            out.append(code[last:m.start()] + names[w])
            last = m.end()
    return "".join(out) + code[last:]


def turn_ticked(text, names):
    return re.sub(r"`([^`]*)`", lambda m: "`" + NAME.sub(lambda k: names.get(k.group(), k.group()), m.group(1)) + "`", text)


def main(argv):
    own_crates = set(os.listdir("crates"))
    names = own_names()
    words = {}
    for path in texts(".antt", ".rt"):
        for w in set(NAME.findall(read(path))):
            words.setdefault(w, set()).add(path)
    together = {}
    for old, new in sorted(names.items()):
        together.setdefault(new, []).append(old)
    clash = [(new, olds) for new, olds in together.items() if len(olds) > 1]
    taken = [(old, new, sorted(words[new] & words[old])) for old, new in sorted(names.items()) if new in words and words[new] & words[old]]
    library = imported(own_crates, names)
    if "--dry" in argv:
        print("fall together:", clash)
        print("already a word of the same file:")
        for old, new, where in taken:
            print("  ", old, "->", new, where[:4])
        print("new name stands elsewhere:", [(o, n, sorted(words[n])[:2]) for o, n in sorted(names.items()) if n in words and not (words[n] & words[o])])
        print("the library's name too:")
        for path, ns in sorted(library.items()):
            print("  ", path, sorted(ns))
        return 0
    if clash:
        print("names fall together:", clash)
        return 1
    for path in texts(".antt", ".rt"):
        comment = "--" if path.endswith(".antt") else "//"
        out = []
        for line in read(path).split("\n"):
            code, rest = pieces(line, comment)
            m = IMPORT.match(code)
            kept = library.get(path, set())
            if m:
                root = m.group(1).split(".")
                ours = root[0] == "Rattle" and len(root) > 1 and root[1] in own_crates
                kept = set() if ours else set(names)
            out.append(turn_code(code, names, kept) + turn_ticked(rest, names))
        with open(path, "w", encoding="utf-8") as f:
            f.write("\n".join(out))
    for folder in (".", "docs"):
        for f in sorted(os.listdir(folder)):
            if f.endswith(".md"):
                path = os.path.join(folder, f)
                text = turn_ticked(read(path), names)
                with open(path, "w", encoding="utf-8") as g:
                    g.write(text)
    print(len(names), "names turned")
    return 0


if __name__ == "__main__":
    raise SystemExit(main(sys.argv[1:]))
