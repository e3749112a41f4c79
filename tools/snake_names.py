#!/usr/bin/env python3
"""Spells this repository's own definitions and lemmas with underscores: is-before becomes is_before.

usage: python3 tools/snake_names.py        at the top of the repository, once, over all crates

A name is turned where it is the repository's own: defined in a file of specs/ or in a file of lemmas, or given there
or in a `ghost use` line of a source file by `as`. Names of the library, and names that the toolchain makes (goals,
loops) or that answers to goals have, stay. Comments and strings stay. It says each name that would fall together with another one and then writes nothing.
"""
import os
import re
import sys

NAME = r"[A-Za-z_][A-Za-z0-9_']*"
TOKEN = re.compile(rf"(?<![A-Za-z0-9_'\u25cc-]){NAME}(?:-[A-Za-z0-9][A-Za-z0-9_']*)+(?![A-Za-z0-9_'-])")
PLAIN = re.compile(rf"(?<![A-Za-z0-9_'-]){NAME}(?![A-Za-z0-9_'-])")
USE = re.compile(r"^\s*(?:ghost )?(?:pub )?use (\S+?)\.?\{(.*?)\}?;?\s*$")
HEAD = re.compile(r"^\s*(?:pub |abbrev |unfoldable |opaque )*(?:data |record )?(?:pub |abbrev |unfoldable )*([^\s:({\u03bb]+)(?:\s*\{[^}]*\}|\s*\([^)]*\))*\s*:(?!=)")
KIND = re.compile(r"^\s*(?:pub )?(?:data|record)\s+([^\s:({]+)")
AS = re.compile(rf"\bas ({NAME}(?:-[A-Za-z0-9][A-Za-z0-9_']*)+)")
ANSWERS = ("Answers.antt", "Choices.antt", "Invariants.antt", "Proof.antt")
LIBRARY = ("Rattle.std", "Prim", "mathlib", "lib.")


def files(ending):
    for folder, dirs, names in os.walk("crates"):
        dirs[:] = sorted(d for d in dirs if d != "out")
        for name in sorted(names):
            if name.endswith(ending):
                yield os.path.join(folder, name)


def parts(path, text):
    """The text cut into pieces, each with whether its names may be turned: comments and strings may not."""
    if path.endswith(".antt"):
        cut = re.compile(r'--(?= |$)[^\n]*|"(?:[^"\\\n]|\\.)*"', re.M)
    else:
        cut = re.compile(r'//[^\n]*|b?"(?:[^"\\]|\\.)*"', re.S)
    at = 0
    for m in cut.finditer(text):
        yield text[at:m.start()], True
        yield m.group(0), False
        at = m.end()
    yield text[at:], True


def code(path):
    with open(path, encoding="utf-8") as f:
        return "".join(t if free else re.sub(r"[^\n]", " ", t) for t, free in parts(path, f.read()))


def own_and_taken():
    own, library, plain = set(), set(), set()
    for path in list(files(".antt")) + list(files(".rt")):
        text = code(path)
        for line in text.splitlines():
            use = USE.match(line)
            if use:
                if use.group(1).startswith(LIBRARY):
                    library.update(re.sub(r" as .*", "", w.strip()) for w in use.group(2).split(","))
                own.update(AS.findall(line))
                continue
            if path.endswith(".antt") and os.path.basename(path) not in ANSWERS:
                for pattern in (HEAD, KIND):
                    m = pattern.match(line)
                    if m:
                        (own if "-" in m.group(1) else plain).add(m.group(1))
        if os.path.basename(path) in ANSWERS:
            continue
        for m in re.finditer(rf"\(({NAME}(?:-[A-Za-z0-9][A-Za-z0-9_']*)+(?: {NAME}(?:-[A-Za-z0-9][A-Za-z0-9_']*)*)*) :", text):
            own.update(w for w in m.group(1).split() if "-" in w)
    return {w for w in own if "-" in w} - library, library, plain


def main():
    own, library, plain = own_and_taken()
    turned = {w: w.replace("-", "_") for w in own}
    together = sorted(w for w, to in turned.items() if to in plain or to in library)
    if together:
        print("these fall together with another name: " + ", ".join(together))
        return 1
    count = 0
    for path in list(files(".antt")) + list(files(".rt")):
        with open(path, encoding="utf-8") as f:
            text = f.read()
        new = "".join(TOKEN.sub(lambda m: turned.get(m.group(0), m.group(0)), t) if free else t for t, free in parts(path, text))
        if new != text:
            with open(path, "w", encoding="utf-8") as f:
                f.write(new)
            count += 1
    print(f"{len(turned)} names, {count} files")
    return 0


if __name__ == "__main__":
    sys.exit(main())
