#!/usr/bin/env python3
"""respell.py: brings the repository's own names to the spelling of today's Rattle. Run once, after port.py, at the top.

Words are in snake case: a definition `orderInForceOf` is `order_in_force_of`, a setter `with-h` is `with_h`, a constant
`d1·2e-6` is `d1_2e_6`. Types, modules and facts keep their capitals; the dash of a lemma's name, which joins two names,
stays. A lemma that would fall together with a definition gets `_lem`. Functions of src/, exported names, strings,
inputs and outputs keep theirs: of an .rt file only the clauses, the `ghost use` items and the comments are read.
"""
import os
import re

TOKEN = re.compile(r'[^\s(){}\[\].;,:@"«»`|]+')
CAMEL = re.compile(r"(?<![A-Za-z'])[a-z][a-z0-9]*[A-Z]")
DECLARED = re.compile(r"^\s*(?:(?:unfoldable|abbrev|pub|record|data) )*([^\s(){}.;,@\"«»:]+)(?:\s+[({].*)?\s+:(?:\s|$)")
GHOST = re.compile(r"ghost use [^;]*;|(?:requires|ensures|ghost)\b[^{;]*\{", re.S)
DOCUMENTS = ("README.md", "CONTRIBUTING.md", "CHANGELOG.md")


def files(kind, top="crates"):
    for folder, folders, names in os.walk(top):
        folders[:] = sorted(f for f in folders if f != "out")
        yield from (os.path.join(folder, n) for n in sorted(names) if n.endswith(kind))


def snake(word):
    """Each part between dashes that begins in lower case, in snake case."""
    def part(p):
        return re.sub(r"(?<=[a-z0-9])([A-Z])", lambda m: "_" + m[1].lower(), p) if p[:1].islower() else p
    return "-".join(part(p) for p in word.split("-"))


def table():
    """What each name becomes."""
    specs, words = set(), set()
    for path in files(".antt"):
        text = open(path).read()
        for line in text.splitlines():
            found = None if line.lstrip().startswith("--") else DECLARED.match(line)
            if found and "/specs/" in path:
                specs.add(found[1])
        words.update(TOKEN.findall(re.sub(r"--[^\n]*", "", text)))
    turned = {w: snake(w) for w in words if CAMEL.search(w) and "/" not in w}
    for w in specs:
        if re.match(r"[a-z]", w) and re.search("[-·]", w):
            turned[w] = re.sub("[-·]", "_", snake(w))
    for w in words:
        if w[:1].islower() and "·" in w and w not in turned:
            turned[w] = re.sub("[-·]", "_", snake(w))
    turned["first-modified"] = "first_modified_run"
    return {o: n for o, n in turned.items() if o != n}


def lemmas(text, names):
    """The names for one file: there a lemma that a definition would fall together with gets `_lem`."""
    words = set(TOKEN.findall(re.sub(r"--[^\n]*", "", text)))
    new = {names[w] for w in words if w in names}
    own = {m[1] for m in map(DECLARED.match, text.splitlines()) if m}
    return names | {w: w + "_lem" for w in own & new if w not in names}


def turn(text, names):
    return TOKEN.sub(lambda m: names.get(m[0]) or names.get(m[0].rstrip("'"), m[0].rstrip("'")) + "'" * (
        len(m[0]) - len(m[0].rstrip("'"))), text)


def turn_rt(text, names):
    """The clauses, the `ghost use` items and the comments."""
    out, at = [], 0
    for m in re.finditer(r'"(?:[^"\\\n]|\\.)*"|//[^\n]*|' + GHOST.pattern, text, re.S):
        if m.start() < at or m[0].startswith('"'):
            continue
        end = m.end()
        if m[0].endswith("{") and not m[0].startswith(("ghost use", "//")):
            depth = 1
            while depth:
                depth += {"{": 1, "}": -1}.get(text[end], 0)
                end += 1
        out += [text[at:m.start()], turn(text[m.start():end], names)]
        at = end
    return "".join(out) + text[at:]


def main():
    names = table()
    for path in files(".antt"):
        text = open(path).read()
        write(path, turn(text, lemmas(text, names)))
    for path in files(".rt"):
        write(path, turn_rt(open(path).read(), names))
    for path in files(".edit"):
        write(path, turn(open(path).read(), names))
    spelled = {o: n for o, n in names.items() if CAMEL.search(o) or "·" in o}
    for path in [*DOCUMENTS, *files(".md", "docs")]:
        write(path, re.sub(r"`[^`\n]+`", lambda m: turn(m[0], spelled), open(path).read()))


def write(path, text):
    if open(path).read() != text:
        with open(path, "w") as out:
            out.write(text)


if __name__ == "__main__":
    main()
