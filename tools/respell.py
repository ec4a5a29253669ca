#!/usr/bin/env python3
"""Spells this repository's own definitions and lemmas as today's Rattle spells a word: in snake case.

usage: tools/respell.py            at the top, once, after port.py
       tools/respell.py FILE ..    these files alone (a paper that cites names)

port.py turns the names that it knows. This turns every other word of specs/, proofs/, clauses and edit files that begins in
lower case and has a capital inside, part by part where dashes join parts: bodyWritten is body_written, length-bigBits is
length-big_bits, withP is with_p. A part that begins with a capital is a fact or a type and keeps its spelling, and so does
what stands in a string or a number, and the name of a wrong answer. getD within a lemma's name is get_or, as port.py calls the
function. A lemma that would get its definition's name gets _lem (LEMMAS).

It stops, and writes nothing, where two names would fall together in a file.
"""

import glob
import re
import sys

KEEP = {"dB"}
# lemmas with the name that a definition gets, and the files that cite them
LEMMAS = {
    "too_long": ("aes3_hunt/proofs/Meaning", "aes3_hunt/proofs/Turns"),
    "word_after": ("line/proofs/PreambleLaws", "aes3_write/proofs/Writing", "aes3_read/proofs/read_subframe/"),
    "laid_out": ("anc/proofs/Enclosing", "hd_control/proofs/write_control/"),
    "frame_row": ("madi/proofs/ReadWritten", "madi/proofs/WriteBack", "madi_write/proofs/Frames"),
}
TOKEN = re.compile(
    r"""b?"(?:[^"\\\n]|\\.)*"|0x[0-9A-Fa-f_]+|[0-9][0-9_]*|[A-Za-zℕ_][A-Za-z0-9_'₀-₉ℕ]*(?:-[A-Za-zℕ_0-9][A-Za-z0-9_'₀-₉ℕ]*)*"""
)


def part(p):
    if p in KEEP or not re.match(r"[a-z]", p):
        return p
    if p == "getD":
        return "get_or"
    return re.sub(r"([a-z0-9_'])([A-Z])", lambda m: m[1] + ("" if m[1] == "_" else "_") + m[2].lower(), p).replace("__", "_")


def word(w):
    if w[0] in '"0123456789' or w.startswith('b"'):
        return w
    return "-".join(part(p) for p in w.split("-"))


def lemma(path, w):
    return w + "_lem" if any(f in path for f in LEMMAS.get(w, ())) else w


def turned(path, text):
    """The text respelled. Names of wrong answers stay."""
    lines = []
    for line in text.split("\n"):
        if path.endswith(".edit") and re.match(r"(wrong|of): ", line):
            lines.append(line)
            continue
        line = TOKEN.sub(lambda m: m[0] if line[: m.start()].endswith((".", "/")) else lemma(path, m[0]), line)
        lines.append(TOKEN.sub(lambda m: word(m[0]), line))
    return "\n".join(lines)


def names(path, text):
    """The names that a file defines, binds or imports, without comments, fields and paths."""
    out = set()
    for line in text.split("\n"):
        line = re.sub(r"(--|//).*", "", line)
        for m in TOKEN.finditer(line):
            if not line[: m.start()].endswith("."):
                out.add(m[0])
    return out


def main(argv):
    files = argv or sorted(
        glob.glob("crates/**/*.antt", recursive=True) + glob.glob("crates/**/*.rt", recursive=True) + glob.glob("crates/*/must-fail/*.edit")
    )
    files = [f for f in files if "/out/" not in f]
    texts = {f: open(f, encoding="utf-8").read() for f in files}
    bad, count = 0, set()
    for f, t in texts.items():
        if not f.endswith(".antt"):
            continue
        here = names(f, t)
        made = {}
        for w in here:
            n = word(lemma(f, w))
            made.setdefault(n, set()).add(w)
        for n, olds in made.items():
            if len(olds) > 1:
                print(f"{f}: fall together as {n}: {', '.join(sorted(olds))}")
                bad += 1
    for f, t in texts.items():
        if f.endswith(".rt"):
            for m in re.finditer(r"[(,]\s*(?:mut )?([a-z_][a-z0-9_]*)\s*:", t):
                for w in {w for w in names(f, t) if word(w) != w}:
                    if word(w) == m[1]:
                        print(f"{f}: a parameter hides {w} as {m[1]}")
                        bad += 1
    if bad:
        return 1
    for f, t in texts.items():
        new = turned(f, t)
        count |= {w for w in names(f, t) if word(w) != w}
        if new != t:
            with open(f, "w", encoding="utf-8") as out:
                out.write(new)
    print(f"respell: {len(count)} names in {len(files)} files")
    return 0


if __name__ == "__main__":
    raise SystemExit(main(sys.argv[1:]))
