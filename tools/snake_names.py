#!/usr/bin/env python3
"""Respells the repository's own names of specs/ and proofs/ in snake case, as the library spells its own.

usage: python3 tools/snake_names.py [FOLDER]     FOLDER has crates/; rewrites its .antt and .rt files in place

A name is the repository's own if a file of specs/ or proofs/ declares it: a definition, a lemma, a field, a
constructor or a module's parameter. Names that the check makes (goals, steps of a function) are left as they are,
and so are names of the library. Of a .rt file only clauses, ghost members and imports are read; a comment is
respelled between backticks alone. It was run once, after the kit's own script for older repositories.
"""
import os
import re
import sys

ROOT = sys.argv[1] if len(sys.argv) > 1 else "."
WORD = r"(?:[^\W\d_]|_)[\w'₀-₉]*"
DASHED = re.compile(rf"(?<![\w'\-◌₀-₉]){WORD}(?:-[\w'₀-₉]+)+(?![\w'\-◌])")
DECLARED = re.compile(rf"^\s*(?:pub )?(?:abbrev |unfoldable |data |record )?(?:pub )?({WORD}(?:-[\w'₀-₉]+)*) :(?= )", re.M)
BOUND = re.compile(rf"[({{]({WORD}(?:-[\w'₀-₉]+)*(?: {WORD}(?:-[\w'₀-₉]+)*)*) : ")
LET = re.compile(rf"\blet ({WORD}(?:-[\w'₀-₉]+)+)[ :]")
LAMBDA = re.compile(r"λ ([^.λ]*)\. ")
COMMENT = re.compile(r"(?:^|(?<= ))--(?= |$).*", re.M)
USE = re.compile(r"^use ([\w.]+)(?:\.\{([^}]*)\})?.*$", re.M)
# Names that would fall together with a word of the library, and what they are called instead.
APART = {"bit-xor": "bit_of_xor", "getD-masked": "get_or_masked"}


def snake(name):
    return APART.get(name) or name.replace("-", "_")


def files():
    for folder, folders, names in os.walk(os.path.join(ROOT, "crates")):
        folders[:] = sorted(f for f in folders if f != "out")
        for n in sorted(names):
            if n.endswith((".antt", ".rt")):
                yield os.path.join(folder, n)


def answers(path):
    return os.path.basename(path) in ("Answers.antt", "Invariants.antt", "Proof.antt")


def read(path):
    with open(path, encoding="utf-8") as f:
        return f.read()


def own_names(texts):
    """The snake spellings of what specs/ and proofs/ declare, and of the variables that they bind."""
    own = set()
    for path, text in texts.items():
        if not path.endswith(".antt"):
            continue
        body = USE.sub("", COMMENT.sub("", text))
        if not answers(path):
            own |= {snake(m[1]) for m in DECLARED.finditer(body)}
        else:
            own |= {snake(m[1]) for m in DECLARED.finditer(body) if f"goal.{m[1]}" not in body}
        own |= {snake(n) for m in BOUND.finditer(body) for n in m[1].split() if "-" in n}
        own |= {snake(m[1]) for m in LET.finditer(body)}
        own |= {snake(n) for m in LAMBDA.finditer(body) for n in re.split(r"[ (),:]+", m[1]) if "-" in n and DASHED.fullmatch(n)}
    return own


def library_names(text):
    """What a file takes from the library under a dashed name."""
    found = set()
    for m in USE.finditer(text):
        if m[1].startswith(("Rattle.std.", "Rattle.core.", "borrow.", "Prim.", "native.", "lib.", "mathlib.")) and m[2]:
            found |= {w.strip() for w in m[2].split(",") if "-" in w}
    return found


def respell(text, own, kept):
    return DASHED.sub(lambda m: snake(m[0]) if snake(m[0]) in own and m[0] not in kept else m[0], text)


def respell_ticked(comment, own):
    return re.sub(r"`[^`\n]*`", lambda m: respell(m[0], own, set()), comment)


def turned(path, text, own):
    kept = library_names(text)
    lines = []
    for line in text.split("\n"):
        mark = re.search(r"(?:^|(?<= ))(?:--|//)(?= |$)", line)
        code, comment = (line[: mark.start()], line[mark.start() :]) if mark else (line, "")
        lines.append(respell(code, own, kept) + respell_ticked(comment, own))
    return "\n".join(lines)


def main():
    texts = {p: read(p) for p in files()}
    own = own_names(texts)
    for path, text in texts.items():
        new = turned(path, text, own)
        if new != text:
            with open(path, "w", encoding="utf-8") as f:
                f.write(new)


if __name__ == "__main__":
    main()
