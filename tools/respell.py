#!/usr/bin/env python3
"""Brings the definitions and lemmas of this repository to snake case, by the list in respell.tsv: once, on what the kit's port.py left.

usage: tools/respell.py [-n]    at the top of the repository; -n only says where a new name stands already in a file, for something else

A name that a file imports from the kit keeps its spelling there, and so does what a function's proof takes from the record of its goal.
"""
import os
import re
import sys

HERE = os.path.dirname(os.path.abspath(__file__))
ROOT = os.path.dirname(HERE)
NAMES = dict(l.rstrip("\n").split("\t") for l in open(os.path.join(HERE, "respell.tsv"), encoding="utf-8"))
WORD = re.compile(r"[^\s(){}\[\],;.λ→×≡:|«»\"?]+")
USE = re.compile(r"^(?:ghost )?use ([^\s{;]+?)\.?(?:\{([^}]*)\})?(?: as (\S+?))?;?$")
CRATES = sorted(os.listdir(os.path.join(ROOT, "crates")))
OWN = tuple(f"Rattle.{c}." for c in CRATES)


def files(kinds):
    for folder, dirs, names in os.walk(os.path.join(ROOT, "crates")):
        dirs[:] = sorted(d for d in dirs if d != "out")
        for n in sorted(names):
            if n.endswith(kinds):
                yield os.path.join(folder, n)


def imports(text):
    """The names that a file takes from the kit or from what Rattle makes, and the words that stand for modules in it."""
    kit, modules = set(), set()
    for line in text.split("\n"):
        m = USE.match(line.strip())
        if not m:
            continue
        module, items, alias = m.groups()
        if items is None:
            modules.add(alias or module.split(".")[-1])
        elif not module.startswith(OWN) or ".declared." in module:
            kit |= {i.split(" as ")[0].strip() for i in items.split(",")}
    return kit, modules - {"tie"}


def respell(text, walks):
    kit, modules = imports(text)
    heres = set(WORD.findall(text))
    clash = sorted(n for n in heres if n in NAMES and n not in kit and NAMES[n] in heres)
    out = []
    for line in text.split("\n"):
        if line.lstrip().startswith("--"):
            code, rest = "", line
        elif " -- " in line:
            code, rest = line.split(" -- ", 1)
            rest = " -- " + rest
        else:
            code, rest = line, ""
        use = code.strip().startswith("use ")

        def turn(m):
            n, before = m.group(0), code[: m.start()]
            if n not in NAMES or n in kit and not (use and code.strip().startswith(tuple("use " + o for o in OWN))):
                return n
            if walks and not use and before.endswith("."):
                head = re.search(r"([^\s(){}\[\],;.]+)\.$", before)
                if (not head or head.group(1) not in modules) and not re.search("[a-z][A-Z]", n):
                    return n
            return NAMES[n]

        code = WORD.sub(turn, code)
        rest = re.sub(r"`([^`]*)`", lambda m: "`" + WORD.sub(lambda w: NAMES.get(w.group(0), w.group(0)), m.group(1)) + "`", rest)
        out.append(code + rest)
    return "\n".join(out), clash


def in_source(text):
    """A clause has no name with a dash; in a .rt file only names in camel case are turned."""
    return re.sub(r"[A-Za-z_][A-Za-z0-9_']*", lambda m: NAMES.get(m.group(0), m.group(0)) if re.search(r"[a-z][A-Z]", m.group(0)) else m.group(0), text)


def main(argv):
    only_look = argv == ["-n"]
    turned = 0
    for path in files((".antt", ".rt", ".edit")):
        with open(path, encoding="utf-8") as f:
            text = f.read()
        if path.endswith(".antt"):
            new, clash = respell(text, path.endswith("/Proof.antt"))
            for n in clash:
                print(f"look: {os.path.relpath(path, ROOT)}: {n} becomes {NAMES[n]}, which stands there already")
        elif path.endswith(".edit") and "file: src" not in text:
            new, _ = respell(text, False)
        else:
            new = in_source(text)
        if new != text and not only_look:
            turned += 1
            with open(path, "w", encoding="utf-8") as f:
                f.write(new)
    print(f"respell: {turned} files")
    return 0


if __name__ == "__main__":
    raise SystemExit(main(sys.argv[1:]))
