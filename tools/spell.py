#!/usr/bin/env python3
"""Spells the project's own definitions, lemmas and their variables in snake case, as the library's words are.

usage: tools/spell.py [ROOT]      in the folder ROOT, or here: rewrites specs/, proofs/, clauses and edits of every crate

Run once, on what the toolchain's port.py left. A word that begins in lower case loses its dashes and inner capitals:
`at-maxPos` becomes `at_max_pos`. Words that a file takes from a library keep their spelling, as do strings, comments,
functions of src/ and what follows `tie.`, a name that the prover makes. `Some-number` and `Cells-of`, which port.py
capitalised, and the function G become words again. It stops where two words of one file would fall together.
"""
import os
import re
import sys

WORD = re.compile(r'[^\s(){}\[\].;:,@"|⦃⦄«»\\◌λ]+')
USE = re.compile(r"^\s*(?:ghost )?(?:pub )?use ([^\s{;]+?)\.?(?:\{(.*)\})?(?: as ([\w'-]+))?;?\s*$")
CAPITAL = {"Some-number": "some_number", "Cells-of": "cells_of"}
# Words that would fall together with a definition, by the folder below crates/ where they do: lemmas and fields about it.
TWINS = {
    "": {"afterStart": "lies_after_start", "beforeEnd": "lies_before_end", "first-of": "first_of_two"},
    "cell/": {"cell-with-sign": "cell_with_sign_says", "top-cell": "top_cell_says", "empty-word": "empty_word_says", "end-cell": "end_cell_says"},
    "code/proofs/": {"code-value": "code_value_says"},
    "code/proofs/QuotientCode.antt": {"word-of": "word_of_says"},
    "file/": {"bytes-of-steps": "bytes_of_steps_says"},
    "posit/proofs/ScalePlace.antt": {"read_back": "read_back_says"},
    "range/": {"empty-word": "empty_word_says"},
    "reading/": {"top-cell": "top_cell_says", "is-infinity": "is_infinity_says", "zero-cell": "zero_cell_says"},
    "signs/": {
        "top-cell": "top_cell_says", "end-cell": "end_cell_says", "is_member": "is_member_iff",
        "last-above": "last_above_says", "turned-cells": "turned_cells_says",
    },
    "text/proofs/ExampleText.antt": {"example-text": "example_text_says"},
    "text/proofs/inner/fields/put_ends/": {"end-fields": "end_fields_says"},
    "tiles/": {
        "top-cell": "top_cell_says", "end-cell": "end_cell_says", "start_cell": "start_cell_says", "empty-word": "empty_word_says",
        "start-edge": "start_edge_says", "end-edge": "end_edge_says",
    },
    "tiles/proofs/AcrossResults.antt": {"last-from": "last_from_says"},
    "word/": {
        "top-cell": "top_cell_says", "end-cell": "end_cell_says", "start_cell": "start_cell_says", "empty-word": "empty_word_says",
        "is_member": "is_member_iff",
    },
    "word/proofs/Words.antt": {"mark-of": "mark_of_says", "posit-of": "posit_of_says"},
}
# Definitions of bound, over any grid, that have a namesake in word or signs over posits.
BOUND = {
    "start_cell": "start_cell_in", "end-cell": "end_cell_in", "low-cell": "low_cell_in", "high-cell": "high_cell_in",
    "start-of": "start_of_bound", "end-of": "end_of_bound", "zero-if": "zero_extent_if",
}
# A step of a function's code, told by what is asked of it.
STEP = re.compile(r"\.(ensures|result|requires|branch|true|false|new|args|auto)(?![\w-])")
# The negation of whole numbers, which is neg_ℤ today, stands in the names of laws about it.
PARTS = (("negℤ", "neg_ℤ"), ("leZ", "le_z"))


def spelled(word):
    """The word in snake case, or itself."""
    if word in CAPITAL:
        return CAPITAL[word]
    if re.match(r"G-\w", word):
        word = "g" + word[1:]
    if not re.match(r"[^\W\d_A-Z]|[^\w\s]", word) or re.match(r"[A-Zℕℤ]", word):
        return word
    for old, new in PARTS:
        word = word.replace(old, new)
    word = re.sub(r"(?<=[a-z0-9])([A-Z])", lambda m: "_" + m.group(1).lower(), word)
    return re.sub(r"(?<=[^\s])-(?=[^\s])", "_", word)


def is_named(word):
    """Whether the word is a name that could be respelled, and no operator such as -ᶠ or <=."""
    return bool(re.search(r"\w", word)) and spelled(word) != word


def code_of(line, mark):
    """The line without its comment, and the comment."""
    found = re.search(r"(^|\s)" + re.escape(mark) + r"(\s|$)", line)
    return (line[: found.start()], line[found.start() :]) if found else (line, "")


def crates(root):
    return sorted(os.listdir(os.path.join(root, "crates")))


def foreign(text, own):
    """The words that the file takes from a library, and the names that it gives library modules."""
    words, modules = set(), set()
    for line in text.splitlines():
        m = USE.match(line)
        if not m or m.group(1).split(".")[0] in ("super", "crate") or "::" in m.group(1):
            continue
        path = m.group(1).split(".")
        if path[0] == "Rattle" and len(path) > 1 and path[1] in own:
            continue
        for item in (m.group(2) or "").split(","):
            names = item.split(" as ")
            words.add(names[0].strip())
            words.add(names[-1].strip())
        if m.group(3):
            modules.add(m.group(3))
    return {w for w in words if w}, modules


def is_path(before):
    """Whether what stands before a word is a path of modules that ends in a dot."""
    return bool(re.search(r"(?:^|[\s(])(?:[A-Z]\w*|mathlib|lib|native|mir|borrow|denote)(?:\.[\w]+)*\.$", before))


def twins_of(place, text):
    """The words of this file that have a spelling of their own, and those of bound that stand bare in it."""
    table = {}
    for folder in sorted(TWINS, key=len):
        if place.startswith(folder):
            table.update(TWINS[folder])
    if place.startswith("bound/"):
        return {**table, **BOUND}, set(BOUND)
    bound = set()
    for m in re.finditer(r"use Rattle\.bound\.[\w.]+\.\{(.*?)\}", text):
        bound.update(w.strip() for w in m.group(1).split(",") if w.strip() in BOUND)
    return table, bound


def turn(text, place, mark, own, fields, seen, kept):
    """The text with its words respelled. Fields are the words that the project's own files define."""
    words, modules = foreign(text, own)
    twins, bound = twins_of(place, text)

    def of_line(line):
        if re.match(r"\s*(ghost )?(pub )?use ", line):
            m = USE.match(line)
            if m and not (m.group(1).startswith("Rattle.") and m.group(1).split(".")[1] in own):
                return line
        code, comment = code_of(line, mark)
        pieces = re.split(r'("(?:[^"\\]|\\.)*")', code)
        for i in range(0, len(pieces), 2):
            piece = pieces[i]

            def put(m):
                word, before, after = m.group(0), piece[: m.start()], piece[m.end() :]
                field = before.endswith(".")
                if word in bound and (not field or place.startswith("bound/")):
                    seen.setdefault(BOUND[word], set()).add(word)
                    return BOUND[word]
                if word in twins and not STEP.match(after) and not re.search(r"\bRattle\.[\w.]+\.$", before):
                    seen.setdefault(twins[word], set()).add(word)
                    return twins[word]
                if not is_named(word) or word in words:
                    kept.add(word)
                    return word
                if before.endswith("tie."):
                    return word
                if before.endswith("."):
                    holder = re.search(r"([\w'-]+)\.$", before)
                    if holder and holder.group(1) in modules:
                        return word
                    if word not in fields and word not in CAPITAL:
                        return word
                new = spelled(word)
                seen.setdefault(new, set()).add(word)
                return new

            pieces[i] = WORD.sub(put, piece)
        return "".join(pieces) + comment

    return "\n".join(of_line(line) for line in text.split("\n"))


def files(root, *endings):
    for folder, dirs, names in os.walk(os.path.join(root, "crates")):
        dirs[:] = sorted(d for d in dirs if d != "out")
        for name in sorted(names):
            if name.endswith(endings):
                yield os.path.join(folder, name)


def read(path):
    with open(path, encoding="utf-8") as file:
        return file.read()


def main():
    root = sys.argv[1] if len(sys.argv) > 1 else "."
    own = set(crates(root))
    fields = set()
    for path in files(root, ".antt"):
        for line in read(path).splitlines():
            code = code_of(line, "--")[0]
            for m in re.finditer(r"(?:^|[(\s{|;])((?:[^\s(){}\[\].;:,@\"|]+\s+)*[^\s(){}\[\].;:,@\"|]+)\s*:(?=\s)", code):
                fields.update(m.group(1).split())
            m = re.match(r"\s*(?:abbrev |unfoldable |pub |record )*([^\s(){}:]+)", code)
            if m:
                fields.add(m.group(1))
    all_seen, faults = {}, 0
    for path in files(root, ".antt", ".rt", ".edit"):
        text = read(path)
        seen, kept = {}, set()
        mark = {".antt": "--", ".edit": "#"}.get(os.path.splitext(path)[1], "//")
        place = os.path.relpath(path, os.path.join(root, "crates"))
        new = turn(text, place, mark, own, fields, seen, kept)
        for word, olds in seen.items():
            fallen = olds | ({word} & kept)
            if len(fallen) > 1:
                print(f"{path}: {' and '.join(sorted(fallen))} fall together")
                faults += 1
            all_seen.setdefault(word, set()).update(olds)
        if new != text:
            with open(path, "w", encoding="utf-8") as file:
                file.write(new)
    for word, olds in sorted(all_seen.items()):
        if len(olds) > 1:
            print(f"everywhere: {' and '.join(sorted(olds))} became {word}")
    print(f"{sum(len(o) for o in all_seen.values())} words respelled, {faults} files where two fall together")


if __name__ == "__main__":
    main()
