#!/usr/bin/env python3
"""Writes a ghost value that a `requires` pins, as a `let` in each clause that speaks of it. Run once, after respell.py."""

import os
import re

HEAD = re.compile(r"(?m)^( +)ghost (\w+): \{ Table \}\n")


def clauses(text, at):
    """The clauses from a place on: (start, end, kind, name, fact)."""
    out = []
    while True:
        m = re.compile(r"\n? +(requires|ensures)(?: (\w+))? \{").match(text, at)
        if not m:
            return out
        depth, i = 1, m.end()
        while depth:
            depth += {"{": 1, "}": -1}.get(text[i], 0)
            i += 1
        out.append((m.start(), i, m.group(1), m.group(2), text[m.end():i - 1].strip()))
        at = i


def main():
    n = 0
    for folder, dirs, names in os.walk("crates"):
        dirs[:] = [d for d in dirs if d != "out"]
        for f in names:
            if not f.endswith(".rt"):
                continue
            path = os.path.join(folder, f)
            with open(path, encoding="utf-8") as src:
                text = src.read()
            while True:
                m = HEAD.search(text)
                if not m:
                    break
                all_of = clauses(text, m.end())
                t = m.group(2)
                pin = next(c for c in all_of if c[2] == "requires" and re.search(r"≡ " + t + "$", c[4]))
                value = pin[4][: pin[4].rindex("≡")].strip()
                rest = [c for c in all_of if c is not pin]
                lone = {k: sum(c[2] == k for c in rest) == 1 for k in ("requires", "ensures")}
                lines = []
                for _, _, kind, name, fact in rest:
                    said = re.search(r"(?<![\w.'])" + t + r"(?![\w'])", fact)
                    body = f"let {t} = {value} in {fact}" if said else fact
                    lines.append(f"{m.group(1)}{kind}{'' if lone[kind] or not name else ' ' + name} {{ {body} }}")
                text = text[: m.start()] + "\n".join(lines) + text[all_of[-1][1]:]
                n += 1
            with open(path, "w", encoding="utf-8") as to:
                to.write(text)
    print(n, "functions")


main()
