#!/usr/bin/env python3
"""Brings the repository's own definitions and lemmas to snake case, once, right after the toolchain's port.py.

usage: tools/port_names.py [FOLDER]     rewrites crates/, README.md, CONTRIBUTING.md and docs/ of FOLDER ('.' if none is given)

A definition noWorse becomes no_worse, a lemma no-worse-at no_worse_at. Where a lemma would fall together with a definition it ends in _lem.
Types keep their names, as do functions of src/, names made from the source (steps, goals), strings, and names of the toolchain.
The map is printed as lines 'OLD<tab>NEW'.
"""
import collections
import os
import re
import sys

TOKEN = re.compile(r"[^\s(){}\[\];,.\"λ⟦⟧@`]+")
MODIFIERS = r"(?:(?:abbrev|unfoldable|private|pub|record|data|instance|opaque) )*"
DECLARED = re.compile(r"^(\s*)(" + MODIFIERS + r")([^\s:(){}]+(?: [^\s:(){}=]+)*) :(?![=:])\s*(.*)$")
USE = re.compile(r"\s*(?:pub )?use (\S+?)\.\{(.*)\}")
LINE = re.compile(r"\s*(?:pub )?(?:use|mod) ")


def files(root, ends):
    for folder, below, names in os.walk(os.path.join(root, "crates")):
        below[:] = sorted(d for d in below if d != "out")
        for name in sorted(names):
            if name.endswith(ends):
                yield os.path.join(folder, name)


def read(path):
    with open(path, encoding="utf-8") as it:
        return it.read()


def snake(name):
    name = re.sub(r"\bgetD\b", "get_or", name)
    return re.sub(r"([a-z0-9])([A-Z])", lambda m: m.group(1) + "_" + m.group(2).lower(), name).replace("-", "_")


def is_dashed(name):
    return re.search(r"[A-Za-z0-9'_]-", name) is not None


def is_camel(name):
    return name[0].islower() and re.search("[a-z0-9][A-Z]", name) is not None


def declared(root):
    """Names that the repository declares, with whether each is a record's field or a constructor, and names that it imports from the toolchain."""
    crates = set(os.listdir(os.path.join(root, "crates")))
    own, members, foreign = set(), set(), set()
    for path in files(root, ".antt"):
        answers = path.endswith("Proof.antt")
        inside = None
        for line in read(path).split("\n"):
            if line.strip().startswith("--"):
                continue
            use = USE.match(line)
            if use:
                crate = re.match(r"Rattle\.(\w+)", use.group(1))
                if not (crate and crate.group(1) in crates):
                    foreign.update(n for it in use.group(2).split(",") for n in it.strip().split(" as "))
                continue
            if LINE.match(line):
                continue
            depth = len(line) - len(line.lstrip())
            if line.strip() and inside is not None and depth <= inside:
                inside = None
            m = DECLARED.match(line)
            if m and not (answers and "tie." in m.group(4)):
                own.update(m.group(3).split())
                if inside is not None:
                    members.update(m.group(3).split())
            if re.match(r"\s*(?:abbrev |unfoldable |private |pub )*(?:record|data) ", line):
                inside = depth
    return own, members, foreign


def mapping(root):
    own, members, foreign = declared(root)
    wanted = {n for n in own if n not in foreign and (is_dashed(n) or is_camel(n))}
    camel = {snake(n): n for n in sorted(wanted) if not is_dashed(n)}
    stay = own - wanted
    out = {}
    for name in sorted(wanted):
        to = snake(name)
        if is_dashed(name) and (to in camel or to in stay):
            to += "_lem"
        out[name] = to
    for name in sorted(stay):
        if name in camel and name not in foreign:
            out[name] = name + "_lem"
    seen = collections.Counter(out.values())
    clash = sorted(n for n, k in seen.items() if k > 1)
    clash += sorted(n for n in out.values() if n in foreign or (n in stay and n not in out))
    if clash:
        raise SystemExit("names that fall together: " + " ".join(clash))
    # names that port.py turned already, as the toolchain has them too: for the pages
    turned = {n for n in stay if "_" in n and n not in out}
    return out, members, turned


def turn_line(line, names, members):
    """A word behind a dot is a member, a name of a module, or a step that is named after a function of the source."""

    def one(m):
        at, word = m.start(), m.group(0)
        new = names.get(word, word)
        behind = at and line[at - 1] == "." and not line.lstrip().startswith(("use ", "pub use "))
        step = behind and re.search(r"(?:^|[\s(])(?:c|s|at-[\w-]+)(?:\.before)*\.$", line[:at])
        return new if not step or word in members else word


    return TOKEN.sub(one, line)


def turn_comment(text, names):
    def one(m):
        word = m.group(0)
        quoted = m.start() and text[m.start() - 1] == "`"
        return names.get(word, word) if is_camel(word) or word.count("-") > 1 or quoted else word

    return TOKEN.sub(one, text)


def turn_antt(text, names, members):
    out = []
    for line in text.split("\n"):
        at = re.search(r"(?:^|\s)--(?=\s|$)", line)
        code, said = (line, "") if not at else (line[: at.start()], line[at.start() :])
        parts = re.split(r'("(?:[^"\\]|\\.)*")', code)
        code = "".join(p if i % 2 else turn_line(p, names, members) for i, p in enumerate(parts))
        out.append(code + turn_comment(said, names))
    return "\n".join(out)


def turn_source(text, names, members):
    """Comments, `ghost use` items, clauses and ghost fields; the code itself stays."""
    out, at = [], 0
    spot = re.compile(r"//[^\n]*|\"(?:[^\"\\]|\\.)*\"|\bghost use [^;]*;|\b(?:requires|ensures)\*?(?: \w+)? \{|\bghost \w+: \{|\btactic\([^\n]*")
    while True:
        m = spot.search(text, at)
        if not m:
            return "".join(out) + text[at:]
        out.append(text[at : m.start()])
        word, end = m.group(0), m.end()
        if word.startswith("//"):
            out.append(turn_comment(word, names))
        elif word.startswith('"'):
            out.append(word)
        elif word.startswith("ghost use"):
            out.append(turn_line(word, names, members))
        elif word.startswith("tactic("):
            out.append(re.sub(r"[\w'-]+", lambda w: names.get(w.group(0), w.group(0)), word))
        else:
            depth = 1
            while depth:
                depth += (text[end] == "{") - (text[end] == "}")
                end += 1
            out.append(turn_line(text[m.start() : end], names, members))
        at = end


def turn_page(text, names, turned, kept):
    def turn(m):
        word = m.group(0)
        to = snake(word)
        return word if word in kept else names.get(word, to if to in turned and (is_dashed(word) or is_camel(word)) else word)

    text = re.sub(r"`([^`\n]+)`", lambda m: "`" + TOKEN.sub(turn, m.group(1)) + "`", text)
    return TOKEN.sub(lambda m: turn(m) if is_camel(m.group(0)) else m.group(0), text)


def main():
    root = sys.argv[1] if len(sys.argv) > 1 else "."
    names, members, turned = mapping(root)
    for path in files(root, (".antt", ".rt")):
        text = read(path)
        new = (turn_antt if path.endswith(".antt") else turn_source)(text, names, members)
        if new != text:
            with open(path, "w", encoding="utf-8") as it:
                it.write(new)
    kept = set(re.findall(r"[\w-]+", read(os.path.join(root, "Makefile"))))
    pages = ["README.md", "CONTRIBUTING.md"]
    for folder, _, found in os.walk(os.path.join(root, "docs")):
        pages += [os.path.relpath(os.path.join(folder, f), root) for f in found if f.endswith(".md") and not f.startswith("PORT")]
    for page in pages:
        path = os.path.join(root, page)
        if os.path.exists(path):
            text = read(path)
            with open(path, "w", encoding="utf-8") as it:
                it.write(turn_page(text, names, turned, kept))
    for old, new in sorted(names.items()):
        print(f"{old}\t{new}")


if __name__ == "__main__":
    main()
