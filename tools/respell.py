#!/usr/bin/env python3
# SPDX-License-Identifier: BSD-2-Clause OR GPL-2.0-or-later
"""Brings the repository's own names in specs/ and proofs/ to snake case: definitions, fields, constructors, lemmas and locals.

usage: tools/respell.py [--check]      at the top of the repository, once, after port.py

A word of a file of specs/, of a lemma file of proofs/, of a clause or of a `ghost use` item turns where it begins with a small letter and
has a capital or a dash inside, unless it is the library's (it stands in an import of another library) or stands in KEEP. Each part
between dashes that begins with a small letter is turned; a part that begins with a capital is the name of a fact and stays. In
proofs/F/Proof.antt, in must-fail/*.edit and in comments and pages the same words turn, if a file of specs/ or a lemma file declares them.
Words that would fall together with another have their new spelling in OTHERWISE. --check writes nothing and lists words that fall
together. It is run once.
"""
import collections
import glob
import os
import re
import sys

WORD = re.compile(r'[^\s(){}.;,@"«»]+')
COMMENT = re.compile(r'(?:(?<=[\s(){},;])|^)--[^\n]*', re.M)
USE = re.compile(r'^(?:pub )?use ([^\n{]*)(?:\{([^}]*)\})?', re.M)
CLAUSE = re.compile(r"(?:requires|ensures)\s*\*?\s*(?:\w+\s*)?\{|ghost\s*(?:\w+\s*(?::\s*)?)?\{|ghost\s+use\b[^;]*;")
KEEP = set()
# Words whose plain spelling another word has already in some file that has both.
OTHERWISE = {
    "node-words": "words_of_nodes",
    "prop-words": "words_of_props",
    "nodes-after": "nodes_then",
    "props-after": "props_then",
    "no-cluster": "not_cluster",
    "strings-at": "strings_begin",
}
# A lemma that would have its function's name.
for word in """
allowed-under behind-zero-in bits_below board-hash board-in board-of cell-bytes cpu-count cpu-index cpu-phandle cpu-reg found-at has-parent
hash-of index-of is-property key-for kind-from leaf-count leaf-cpu map_of number-of reg-cells reg-number root-tally row-at row-slot row_number
slot-at slot-by slot-guarded slot-table survey-fault topology-name value-sized with-row with-words with_second
""".split():
    OTHERWISE[word] = word.replace("-", "_") + "_lem"
PAGES = ["README.md", "CONTRIBUTING.md", "CHANGELOG.md", "tests/README.md"]


def files(pattern):
    return sorted(f for f in glob.glob(pattern, recursive=True) if "/out/" not in f)


def read(path):
    with open(path, encoding="utf-8") as f:
        return f.read()


def own(line):
    head = line.split("{")[0].split(" as ")[0].strip()
    return head.startswith("Rattle.") and not head.startswith("Rattle.std.") and not head.startswith("Rattle.core.")


def turned(word):
    if word in OTHERWISE:
        return OTHERWISE[word]
    if word in KEEP or not re.match(r"[a-z]", word) or not re.search(r"[A-Z-]", word) or word.startswith("--"):
        return word
    parts = []
    for part in word.split("-"):
        if re.match(r"[a-z]", part):
            part = re.sub(r"(?<=[a-z0-9'])([A-Z])(?=[a-z]|$)", lambda m: "_" + m[1].lower(), part)
            part = re.sub(r"(?<=[a-z0-9'])([A-Z]+)", lambda m: "_" + m[1].lower(), part)
        parts.append(part)
    return "_".join(parts)


def library(text):
    """The words that a file takes from other libraries, and those that are made of a source's names."""
    words = set()
    for m in USE.finditer(text):
        if not own(m[1]):
            for w in WORD.findall((m[2] or "") + " " + m[1].replace(".", " ")):
                words.add(w)
    return words


def code_words(text):
    return [w for w in WORD.findall(COMMENT.sub(" ", text))]


def lemma_files():
    return [f for f in files("crates/*/specs/**/*.antt") + files("crates/*/proofs/**/*.antt") if os.path.basename(f) not in ("Proof.antt", "Invariants.antt", "Answers.antt")]


def declared():
    """All words that a file of specs/ or a lemma file has and that turn."""
    table = {}
    for f in lemma_files():
        text = read(f)
        not_ours = library(text)
        for w in code_words(text):
            if w not in not_ours and turned(w) != w and not w.startswith("0x"):
                table[w] = turned(w)
    return table


def turn(text, table, but=(), steps=()):
    """The text with its words turned, but for those of `but` and, right behind a dot, those of `steps`."""

    def one(m):
        behind_dot = text[m.start() - 1 : m.start()] == "."
        if m[0] not in table or m[0] in but or behind_dot and m[0] in steps:
            return m[0]
        return table[m[0]]

    return WORD.sub(one, text)


def prose(text, table):
    """Comments and pages: words inside code spans, and bare words that no English text has."""
    def word(m):
        bare = m[0].rstrip(":'`")
        lead = len(m[0]) - len(m[0].lstrip("`"))
        core = bare[lead:]
        if core in table and ("-" not in core or lead):
            return m[0][:lead] + table[core] + m[0][lead + len(core):]
        return m[0]
    return WORD.sub(word, text)


def antt(text, table, but, steps):
    out, at = [], 0
    for m in COMMENT.finditer(text):
        out.append(turn(text[at : m.start()], table, but, steps))
        out.append(prose(m[0], table))
        at = m.end()
    out.append(turn(text[at:], table, but, steps))
    return "".join(out)


def called():
    """The functions of src/, as an older proof file spells the steps that call them."""
    names = set()
    for f in files("crates/*/src/**/*.rt"):
        names.update(w.replace("_", "-") for w in re.findall(r"\bfn (\w+)", read(f)))
    return names


def block_end(text, at):
    depth = 1
    while depth:
        depth += {"{": 1, "}": -1}.get(text[at], 0)
        at += 1
    return at


def source(text, table):
    out, at = [], 0
    for m in CLAUSE.finditer(text):
        if m.start() < at:
            continue
        end = m.end() if m[0].endswith(";") else block_end(text, m.end())
        out.append(re.sub(r"//[^\n]*", lambda c: prose(c[0], table), text[at:m.start()]))
        out.append(turn(text[m.start():end], table))
        at = end
    out.append(re.sub(r"//[^\n]*", lambda c: prose(c[0], table), text[at:]))
    return "".join(out)


def edit(text, table):
    lines, where = [], ""
    for line in text.split("\n"):
        if line.startswith("file: "):
            where = line
        if re.match(r"(old|new): ", line):
            if where.endswith(".antt"):
                line = line[:5] + turn(line[5:], table)
            else:
                line = line[:5] + re.sub(r"\{ .* \}|ghost use .*", lambda m: turn(m[0], table), line[5:])
        lines.append(line)
    return "\n".join(lines)


def together(table):
    """Words of one file that would fall together."""
    found = collections.defaultdict(set)
    for f in lemma_files() + files("crates/*/proofs/**/Proof.antt"):
        text = read(f)
        not_ours = library(text)
        words = set(code_words(text))
        news = collections.defaultdict(set)
        for w in words:
            news[table[w] if w in table and w not in not_ours else w].add(w)
        for new, olds in news.items():
            if len(olds) > 1:
                found[" ".join(sorted(olds))].add(f)
    for f in files("crates/*/src/**/*.rt"):
        text = read(f)
        words = set(re.findall(r"\w+", re.sub(r"//[^\n]*", "", text)))
        for m in CLAUSE.finditer(text):
            end = m.end() if m[0].endswith(";") else block_end(text, m.end())
            for w in WORD.findall(text[m.start():end]):
                if w in table and table[w] in words:
                    found[w + " " + table[w] + " (source)"].add(f)
    return found


def main():
    check = "--check" in sys.argv
    table = declared()
    if check:
        for words, where in sorted(together(table).items()):
            print(words, "|", " ".join(sorted(where)[:6]))
        print(len(table), "words turn")
        return
    steps = called()
    for f in files("crates/**/*.antt"):
        text = read(f)
        save(f, text, antt(text, table, library(text), steps if os.path.basename(f) == "Proof.antt" else ()))
    for f in files("crates/*/src/**/*.rt"):
        text = read(f)
        save(f, text, source(text, table))
    for f in files("crates/*/must-fail/*.edit"):
        text = read(f)
        save(f, text, edit(text, table))
    for f in PAGES + files("docs/**/*.md") + files("docs/**/*.txt"):
        text = read(f)
        save(f, text, prose(text, table))


def save(path, old, new):
    if old != new:
        with open(path, "w", encoding="utf-8") as f:
            f.write(new)


main()
