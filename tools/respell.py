#!/usr/bin/env python3
"""Brings the definitions of crates/*/specs to snake case, wherever they are cited: is-soft becomes is_soft.

Lemmas keep their names: a dash there stands between a call and its argument, as in has-none.
Run once, at the top of the repository. It says where a new name stands already.
"""
import glob, re

DECLARED = re.compile(r"^(?:  )?(?:(?:pub|abbrev|unfoldable|data|record) )+([A-Za-z][\w'-]*)(?= [:({]|:)", re.M)
CONSTRUCTOR = re.compile(r"^  ([a-z][\w'-]*) :", re.M)
NAME = re.compile(r"(?<![\w'◌·-])([A-Za-z][\w'-]*)(?![\w'◌·-])")

sources = [f for f in glob.glob("crates/**/*", recursive=True) if f.endswith((".antt", ".rt")) and "/out/" not in f]
texts = {f: open(f, encoding="utf-8").read() for f in sources}
names = set()
for f, t in texts.items():
    if "/specs/" in f:
        names |= set(DECLARED.findall(t)) | set(CONSTRUCTOR.findall(t))
new = {n: n.replace("-", "_") for n in names if "-" in n}
every = {m for t in texts.values() for m in NAME.findall(t)}
clash = sorted(n for n in new if new[n] in every)
for n in clash:
    print(f"note: {n} becomes {new[n]}, a name that stands already")
for f, t in texts.items():
    r = NAME.sub(lambda m: new.get(m.group(1), m.group(1)), t)
    if r != t:
        open(f, "w", encoding="utf-8").write(r)
print(f"{len(new)} names respelled")
