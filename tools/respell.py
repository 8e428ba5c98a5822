#!/usr/bin/env python3
"""Spells this repository's own definitions and lemmas as today's Rattle does: words in snake case.

usage: python3 tools/respell.py     at the top of the repository, once, right after the toolchain's own script for a port

A name that specs/ or proofs/ declare loses its capitals inside and its dashes: `effectiveMode` is `effective_mode`, `told-apart` is `told_apart`. In
Contracts.antt a name is the path of a function, with a dash between its parts, as `Access-is_machine`. Names of code, types, modules, facts and of the
toolchain's libraries stay. A line that begins `meets:` says which two names would fall together in a file.
"""
import os
import re
import sys

DELIMITERS = r"\s(){}\[\];,.@«»"
TOKEN = re.compile(rf"[^{DELIMITERS}]+")
DECLARED = re.compile(r"^(\s*)((?:(?:unfoldable|abbrev|pub|data|record)\s+)*)([^\s:(){},;.]+)((?:\s*\([^()]*\)|\s*\{[^{}]*\})*)\s+:\s+(.*)")
USE = re.compile(r"\buse ([^\s;{]+)\.\{([^}]*)\}")
# A lemma that would have its function's name.
LEMMAS = {
    "crates/mmu/proofs/Again.antt": {"in_frame": "in_frame_lem"},
    "crates/mmu/proofs/Barred.antt": {"page-of": "page_of_lem"},
    "crates/mmu/proofs/Demand.antt": {"walk-answer": "walk_answer_lem"},
    "crates/mmu/proofs/Sound.antt": {"next-epoch": "next_epoch_lem"},
}
STRONG = re.compile(r"Strong _ fn\.([\w.]+)\.Kinds\.ps ")


def texts():
    for top, dirs, names in os.walk("crates"):
        dirs[:] = sorted(d for d in dirs if d != "out")
        for name in sorted(names):
            if name.endswith((".antt", ".rt")):
                yield os.path.join(top, name)


def snake(name):
    return re.sub(r"(?<=[a-z0-9])[A-Z]", lambda m: "_" + m[0].lower(), name).replace("-", "_")


def lines_of(text):
    """The lines that may declare: no comment, and nothing inside a term."""
    for line in text.split("\n"):
        if not line.lstrip().startswith(("--", "let ", "in ", "λ", "|")):
            yield line


def of_library(path, crates):
    parts = path.split(".")
    return not (parts[0] == "Rattle" and len(parts) > 1 and parts[1] in crates)


def main():
    crates = set(os.listdir("crates"))
    text = {}
    for path in texts():
        with open(path, encoding="utf-8") as f:
            text[path] = f.read()

    respelled, own = {}, {}
    for path, t in text.items():
        if not path.endswith(".antt"):
            continue
        for line in lines_of(t):
            m = DECLARED.match(line)
            if not m:
                continue
            name, kind = m[3], m[5]
            strong = STRONG.search(kind)
            if strong:
                own.setdefault(path, {})[name] = strong[1].replace(".", "-")
            elif name[0].islower() and snake(name) != name:
                respelled[name] = snake(name)

    changed = 0
    for path, t in text.items():
        libraries = set()
        for m in USE.finditer(t):
            if of_library(m[1], crates):
                libraries |= {w.split(" as ")[-1].strip() for w in m[2].split(",")}
        names = {k: v for k, v in respelled.items() if k not in libraries} | own.get(path, {}) | LEMMAS.get(path, {})
        here = set(TOKEN.findall(t))
        for old, new in sorted(names.items()):
            if old in here and new in here and old != new:
                print(f"meets: {path}: {old} and {new}")

        def word(m):
            w = m[0]
            if path.endswith(".rt"):
                # In code only capitals tell a definition's name: what stands in code has none.
                return re.sub(r"(?<![\w'])[a-z]\w*", lambda k: names.get(k[0], k[0]) if re.search("[A-Z]", k[0]) else k[0], w)
            return names.get(w, w)

        new = TOKEN.sub(word, t)
        if new != t:
            changed += 1
            with open(path, "w", encoding="utf-8") as f:
                f.write(new)
    print(f"{len(respelled)} names, {changed} files")
    with open(sys.argv[1], "w", encoding="utf-8") if len(sys.argv) > 1 else open(os.devnull, "w") as f:
        f.writelines(f"{old}\t{new}\n" for old, new in sorted(respelled.items()))


if __name__ == "__main__":
    main()
