#!/usr/bin/env python3
"""Spells this repository's own definitions and lemmas in snake case, after port.py and once: a dash in such a name becomes an underscore.

usage: python3 tools/spelling.py        at the top of the repository

Own names are those that specs/ and proofs/ declare or bind, and that come from no library of the kit. Names that Rattle makes of the
source (goals, steps) are not touched, nor Rust's text, strings, or comments outside code spans. Two names that would fall together stop the run.
"""

import os
import re
import sys

WORD = re.compile(r"[^\s(){}.;,@\"«»]+")
QUIET = re.compile(r'"(?:[^"\\\n]|\\.)*"|--[^\n]*', re.S)
SPAN = re.compile(r"`[^`\n]*`")
USE = re.compile(r"use (Rattle\.(\w+)|[\w]+)[^\s;{]*\.?\{([^}]*)\}")
# A dashed name of a proof that walks a function's code is made of the source, where its type is one of these.
MADE = re.compile(r"(?:tie|goal)\.|\{M : Type 1\}")
TOP = re.compile(r"/specs/|/proofs/[A-Z]\w*\.antt$")
# A library's name that is only cited behind its module.
CITED = {"not-nil"}


def files(ending):
    for folder, dirs, names in os.walk("crates"):
        dirs[:] = sorted(d for d in dirs if d != "out")
        for name in sorted(names):
            if name.endswith(ending):
                yield os.path.join(folder, name)


def code(text):
    return QUIET.sub(lambda m: " " * len(m.group(0)), text)


def spelled(name):
    return re.sub(r"(?<=[^\W\d])-(?=\w)|(?<=ℤ)-(?=\w)|(?<=\d)-(?=\w)", "_", name)


def own_names(texts):
    crates = set(os.listdir("crates"))
    kit, own = set(), set()
    for text in texts.values():
        for use in USE.finditer(text):
            if use.group(2) not in crates:
                kit |= {item.split(" as ")[0].strip() for item in use.group(3).split(",")}
    for path, text in texts.items():
        if TOP.search(path):
            body = code(text)
            own |= {m.group(0) for m in WORD.finditer(body)}
        else:
            for line in code(text).split("\n"):
                m = re.match(r"(?:(?:abbrev|pub|unfoldable|data|record) )*(\S+) :(.*)", line)
                if m and not MADE.search(m.group(2)) and not m.group(1).endswith("-spec"):
                    own.add(m.group(1))
    return {n for n in own - kit - CITED if re.search(r"[^\W\d_]", n) and "-" in n and spelled(n) != n}


def turned(text, names):
    return WORD.sub(lambda m: spelled(m.group(0)) if m.group(0) in names else m.group(0), text)


def turn(text, names, comment):
    out, at = [], 0
    for m in re.finditer(r'"(?:[^"\\\n]|\\.)*"|' + comment + r"[^\n]*", text):
        out.append(turned(text[at : m.start()], names))
        quiet = m.group(0)
        out.append(quiet if quiet.startswith('"') else SPAN.sub(lambda s: "`" + turned(s.group(0)[1:-1], names) + "`", quiet))
        at = m.end()
    return "".join(out) + turned(text[at:], names)


def main():
    texts = {path: open(path, encoding="utf-8").read() for path in files(".antt")}
    names = own_names(texts)
    for path, text in texts.items():
        words = {m.group(0) for m in WORD.finditer(re.sub(r"[^\s{}]+\.", " ", code(text)))}
        for name in sorted(words & names):
            if spelled(name) in words:
                sys.exit(f"{path}: {name} and {spelled(name)} would fall together")
    for path, text in texts.items():
        with open(path, "w", encoding="utf-8") as f:
            f.write(turn(text, names, "--"))
    for path in files(".rt"):
        with open(path, encoding="utf-8") as f:
            text = f.read()
        with open(path, "w", encoding="utf-8") as f:
            f.write(turn(text, names, "//"))
    print(f"{len(names)} names: " + ", ".join(sorted(names)))


if __name__ == "__main__":
    main()
