#!/usr/bin/env python3
"""Brings the repository's own definitions and lemmas to today's spelling, once, right after port.py.

usage: python3 tools/respell.py          at the top of the repository; files are rewritten in place

A word is in snake case, a type in camel case. Names of src/, of modules, of the kit and those that Rattle makes stay.
What would fall together is printed, and nothing is written then.
"""

import os
import re
import sys

TOKEN = re.compile(r"[^\s(){}\[\];,.\"⟦⟧«»]+")
HEAD = re.compile(r"^\s*(?:abbrev |unfoldable )?(?:pub )?(?:abbrev |unfoldable )?(?:pub )?(?:data |record |ruleset )?(?:pub )?([^\s(){}\[\];,.\"⟦⟧«»◌]+)(?:\s*(?:\{[^}]*\}|\([^)]*\)))*\s*:(?=\s|$)")
USE = re.compile(r"(?:ghost )?use ([^\s{;]+?)(?:\.\{([^}]*)\})?(?: as ([^\s;]+))?;?\s*$")
MADE = re.compile(r"\.(declared|contracts)\.|\.(Tie|Statement|Reads|Kinds|Goals|Given|Lts[\w-]*|Met|Code)$")
# fields that a definition's name would hide
CHOSEN = {"to-confirm": "zc_formed", "to-propagate": "zp_formed", "well-formed": "is_well_formed"}
# generated in the folder of a function's proof: the names that Rattle gives goals and steps
FIXED = {"loop-init", "invariant-loop", "decreases-loop"}
# what port.py respelled, and a name of the repository's has now or gets
FIRST = [
    ("steps/proofs/Shelves.antt", "is_name", "is_name_lem"),
    ("steps/proofs/Conditions.antt", "is_name", "is_name_lem"),
    ("steps/proofs/PointChecks.antt", "is_name", "is_name_lem"),
    ("steps/proofs/Steps.antt", "step_in", "step_in_lem"),
    ("steps/proofs/Examples.antt", "step_in", "step_in_lem"),
    ("machine/proofs/Opened.antt", "step_in", "step_in_lem"),
    ("theorems/proofs/Reached.antt", "step_in", "step_in_lem"),
    ("labs/proofs/Run.antt", "step_in", "step_in_lem"),
    ("acting/proofs/Performs.antt", "set_key", "set_key_lem"),
    ("labs/proofs/Actions.antt", "to-confirm", "keys-to-confirm"),
    ("labs/proofs/Acting.antt", "to-confirm", "keys-to-confirm"),
    ("theorems/proofs/OfferViews.antt", "newer-there", "newer-there-below"),
]


def files(root):
    for folder, dirs, names in os.walk(os.path.join(root, "crates")):
        dirs[:] = sorted(d for d in dirs if d != "out")
        for f in sorted(names):
            if f.endswith((".antt", ".rt")):
                yield os.path.join(folder, f)


def respelled(name):
    if name[0].isupper():
        parts = name.split("-")
        return parts[0] + "".join(p[:1].upper() + p[1:] for p in parts[1:])
    name = name.replace("-", "_")
    return re.sub(r"(?<=[a-z0-9])([A-Z])(?=[a-z0-9_']|$)", lambda m: "_" + m.group(1).lower(), name)


def main(root):
    texts = {p: open(p, encoding="utf-8").read() for p in files(root)}
    own = {c for c in os.listdir(os.path.join(root, "crates"))}
    steps = {os.path.dirname(p) for p in texts if p.endswith("Proof.antt")}
    for end, old, new in FIRST:
        p = os.path.join(root, "crates", end)
        texts[p] = re.sub(r"(?<![\w'.-])" + old + r"(?![\w'-])", new, texts[p])
    names, fields, plain = {}, set(), set()
    for p, t in texts.items():
        if not p.endswith(".antt") or os.path.dirname(p) in steps:
            continue
        record = None
        for line in t.split("\n"):
            deep = len(line) - len(line.lstrip())
            if line.strip() and record is not None and deep <= record:
                record = None
            within = record is not None
            if re.match(r"\s*(pub )?record .*where$", line):
                record = deep
            m = HEAD.match(line)
            if m and not line.lstrip().startswith(("use ", "--")):
                n = m.group(1)
                if within:
                    fields.add(n)
                plain |= {n} if "_" in n and "-" not in n else set()
                if ("-" in n.strip("-") or re.search(r"[a-z0-9][A-Z]", n) and n[0].islower()) and re.match(r"[A-Za-z]", n) and "ℕ" not in n:
                    names.setdefault(n, p)
    turn = {n: respelled(n) for n in names if respelled(n) != n and n not in FIXED}
    # a lemma that would have its function's name
    taken = {to for n, to in turn.items() if "-" not in n} | plain
    turn = {n: to + "_lem" if "-" in n and n[0].islower() and n not in fields and to in taken else to for n, to in turn.items()}
    turn |= {n: to for n, to in CHOSEN.items() if n in names}
    # aliases of imports
    for p, t in texts.items():
        for m in re.finditer(r" as ([a-z][A-Za-z0-9]*[a-z0-9][A-Z][A-Za-z0-9]*)\b", t):
            turn.setdefault(m.group(1), respelled(m.group(1)))
    back = {}
    for n, to in turn.items():
        back.setdefault(to, []).append(n)
    bad = 0
    for to, ns in back.items():
        if len(ns) > 1:
            for p, t in texts.items():
                if set(ns) <= set(TOKEN.findall(t)):
                    print("fall together:", ns, "->", to, os.path.relpath(p, root))
                    bad += 1
    out = {}
    for p, t in texts.items():
        foreign = set()
        for line in t.split("\n"):
            m = USE.match(line.strip())
            if not m:
                continue
            path, items, alias = m.groups()
            parts = path.split(".")
            mine = parts[0] == "Rattle" and len(parts) > 1 and parts[1] in own and not MADE.search(path + ("" if items is None else "."))
            if not mine and items:
                for it in items.split(","):
                    foreign.add(it.strip().split(" as ")[0])
        here = {n: to for n, to in turn.items() if n not in foreign}
        tokens = set(TOKEN.findall(t))
        for n, to in here.items():
            if n not in tokens or to not in tokens or not p.endswith(".antt"):
                continue
            bare = re.search(r"(?<![\w.'-])" + re.escape(to) + r"(?![\w.'-])", t)
            if bare:
                print("both in", os.path.relpath(p, root), n, to, "|", t[t.rfind("\n", 0, bare.start()) + 1:t.find("\n", bare.start())][:90])
                bad += 1

        def swap(m, line):
            s = m.group(0)
            # what Rattle makes has the names of functions: c.place-of
            dotted = m.start() > 0 and line[m.start() - 1] == "." and os.path.dirname(p) in steps
            if s in here and (not dotted or s in fields):
                return here[s]
            return s

        # in a comment a name with a dash may be a plain word
        lines = []
        for line in t.split("\n"):
            m = re.search(r"(^|\s)(--|//)(\s|$)", line)
            cut = m.start() if m else len(line)
            lines.append(TOKEN.sub(lambda x: swap(x, line), line[:cut]) + TOKEN.sub(lambda x: x.group(0) if "-" in x.group(0) else swap(x, line[cut:]), line[cut:]))
        out[p] = "\n".join(lines)
    print(len(turn), "names,", bad, "that need a look")
    if "--list" in sys.argv:
        for n, to in sorted(turn.items()):
            print(n, to, os.path.relpath(names.get(n, "?"), root))
    if "--look" in sys.argv:
        return
    for p, t in out.items():
        if t != texts[p]:
            with open(p, "w", encoding="utf-8") as f:
                f.write(t)


main(os.getcwd())
