#!/usr/bin/env python3
"""Turns the names of this repository's own definitions and lemmas to the spelling of its Rattle.

usage: python3 tools/spell_names.py [--list]     at the top of the repository, after port.py, once

A name in camel case that begins small, or with a dash between words, is written in snake case: `sat16Of` becomes
`sat16_of`, `cosF32-at` becomes `cos_f32_at`. Own names are those that specs/ and the lemma files of proofs/
declare. A file that imports such a name from a library keeps it. Names that functions of src/, C, programs and
Rattle itself give stay. Contracts, proofs, must-fail edits and code spans of comments and pages are turned alike.
--list prints the names, old and new, and writes nothing.
"""
import collections
import glob
import re
import sys

WORD = r"[\w'ℤℕ]+(?:-[\w'ℤℕ]+)*"
TOKEN = re.compile(rf"(?<![\w'◌-])({WORD})(?![\w'◌]|-[\w])")
HEAD = re.compile(rf"^[ \t]*(?:pub |abbrev |unfoldable |record |data )*({WORD}) (?:[({{][^\n]*)?: ", re.M)
USE = re.compile(r"^\s*(?:pub |ghost )?use ([\w.'ℤℕ·-]+)\.\{([^}]*)\}", re.M)
# Names that fall together with another, or with a word of the library, and their own new spellings.
APART = {
    "pllF32": "pll_of_f32",
    "pllQ15": "pll_of_q15",
    "decoderF32": "decoder_of_f32",
    "decoderQ15": "decoder_of_q15",
    "summaryF32": "summary_of_f32",
    "summaryQ15": "summary_of_q15",
    "is-nan": "nan_only",
    "nan-bits": "nan_bits_lem",
    "block-bits": "block_bits_lem",
}


def read(path):
    with open(path, encoding="utf-8") as f:
        return f.read()


def spelled(name):
    """The name in snake case."""
    if name in APART:
        return APART[name]
    parts = []
    for part in name.split("-"):
        part = re.sub(r"(?<=[a-z0-9])([A-Z])", r"_\1", part) if part[:1].islower() else part
        part = re.sub(r"(?<=[a-z])([ℤℕ])", r"_\1", part)
        parts.append(part if part[:1].isupper() and "_" not in part else part.lower())
    return "_".join(parts)


def own_names():
    names = set()
    for path in sorted(glob.glob("crates/*/specs/**/*.antt", recursive=True) + glob.glob("crates/*/proofs/*.antt")):
        names.update(head[1] for head in HEAD.finditer(read(path)))
    names = {n for n in names if n[:1].islower() and ("-" in n or re.search("[a-z0-9][A-Z]", n))}
    # A law that would have its function's name gets `_lem`.
    words = {spelled(n) for n in names if "-" not in n}
    return {n: spelled(n) + ("_lem" if "-" in n and spelled(n) in words else "") for n in names}


def library_names(text):
    """The names that a file imports from elsewhere than the repository's crates."""
    own = OWN_CRATES
    found = set()
    for use in USE.finditer(text):
        if use[1].split(".")[:1] != ["Rattle"] or use[1].split(".")[1:2][0] not in own:
            found.update(re.split(r"[\s,]+", use[2].strip()))
    return found


def turned(text, table, kept):
    def one(m):
        before = text[max(0, m.start() - 5):m.start()]
        if m[1] in kept or re.search(r"(?<![\w.])(goal|c|w|l|g)\.$", before):
            return m[0]
        return table.get(m[1], m[0])
    return TOKEN.sub(one, text)


def spans(text, table):
    """A comment or a page: its code spans alone."""
    return re.sub(r"`[^`\n]+`", lambda m: turned(m[0], table, set()), text)


def antt(text, table):
    kept = library_names(text)
    lines = []
    for line in text.split("\n"):
        at = re.search(r"(?:^|(?<=\s))--", line)
        code, note = (line[:at.start()], line[at.start():]) if at else (line, "")
        lines.append(turned(code, table, kept) + spans(note, table))
    return "\n".join(lines)


def rust(text, table):
    """A source file: clauses, ghost items and comments' code spans. No name here is a word of Rust's."""
    kept = library_names(text)
    out = []
    for piece in re.split(r'("(?:\\.|[^"\\])*"|//[^\n]*)', text):
        if piece.startswith("//"):
            out.append(spans(piece, table))
        elif piece.startswith('"'):
            out.append(piece)
        else:
            out.append(turned(piece, table, kept))
    return "".join(out)


def edit(text, table):
    lines = []
    for line in text.split("\n"):
        lines.append(turned(line, table, set()) if line[:5] in ("old: ", "new: ") else spans(line, table))
    return "\n".join(lines)


OWN_CRATES = {p.split("/")[1] for p in glob.glob("crates/*/")}


def main():
    table = own_names()
    if "--list" in sys.argv:
        for old in sorted(table):
            print(f"{old}\t{table[old]}")
        return
    files = collections.Counter()
    for pattern, turn in (("crates/*/*/**/*.antt", antt), ("crates/*/src/**/*.rt", rust), ("crates/*/must-fail/*.edit", edit), ("*.md", spans), ("docs/*.md", spans)):
        for path in sorted(glob.glob(pattern, recursive=True)):
            text = read(path)
            new = turn(text, table)
            if new != text:
                with open(path, "w", encoding="utf-8") as f:
                    f.write(new)
                files[pattern] += 1
    print(f"{len(table)} names; files: {dict(files)}")


if __name__ == "__main__":
    main()
