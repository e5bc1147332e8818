#!/usr/bin/env python3
"""Respells this repository's own definitions and lemmas in snake case, after the kit's port.py has turned the rest.

usage: python3 tools/respell_names.py        at the top of the repository, once; --check writes nothing and prints the names

    theBounds -> the_bounds, lead-le -> lead_le, sizeB -> size_b; a word that begins with a capital is a type and stays (OnRun-keeps -> OnRun_keeps).

It takes the names that specs/ and the lemma files of proofs/ declare, and turns each only in the files that declare it or import it from a crate of
this repository, fields and constructors among them; in comments, documents and must-fail edits it turns every such name. Functions of src/, exported C
names, strings, inputs and outputs hold no such name. Two names that would fall together stop it, unless the table APART tells them apart.
"""

import collections
import glob
import os
import re
import sys

NAME = r"[^\s(){}.;,@\"«»\[\]\\:]+"
TOKEN = re.compile(NAME)
# Names that would fall together with another of the same crate, and what they become.
APART = {
    "checkpoint-length": "checkpoint_length_lem",
    "not_yet": "not_yet_lem",
    "by-tag": "by_tag_lem",
    "by-sort": "by_sort_lem",
    "expr-byte": "expr_byte_lem",
    "stmt-byte": "stmt_byte_lem",
    "leaf-fold": "leaf_fold_lem",
    "leaf-size": "leaf_size_lem",
    "leg-on": "leg_on_lem",
    "of_one": "of_one_lem",
    "of_two": "of_two_lem",
    "slice-refused": "slice_refused_lem",
    "two-of": "two_of_lem",
    "with-condition": "with_condition_lem",
    "with-verify": "with_verify_lem",
}

# Names that port.py has turned in code, but in no edit and no document.
BY_PORT = set(
    """
    add-wide after-is after-last all-append all-map all-told all-words as-many as-one at-item at-none atoms-are behind-test below-top bit-past
    bit-shifted bits-back block-within body-at body-below by-count by-flag byTag bytes-drop bytes-take check-done chosen-less code-is codeOf
    comes-back count-cut count-fits counted-spec cut-spec digits-step each-append else-is end-refused endedOf entered-on enum-told factsOf few-words
    fieldOf fields-at fields-within find-spec first-some first-stops firstOf fits-after fits-count fits-iff fits-mask fits-next fits-on fitsS fold-is
    fork-at four-bytes getD-map goes-on going-start head-few head-spec headOf held-at held-fits high-fits in-map indexOf isOver items-at items-more
    joined-length keep-spec keeps-on kept-here kept-result leaf-room least-on left-far left-is length-at limit-is lines-more load-spec look-stop
    mask-lt mid-at minus-one no-found no-room no-value nodeOf none-beside none-found none-is none-left none-over none-told not-yet number-cut
    number-is number-of numberOf of-one of-two one-at one-more one-of one-place one-size op-room openedOf operand-at operand-below partOf path-room
    place-is placeIn placeOf planOf putS read-as read-back read-done read-head read-is read-left read-spec result-as right-far right-is right-operand
    room-in room-mid room-out row-at row-is row-same rowOf rows-same run-spec saidOf same-bits same-end same-length set-before sets-more sets-over
    sets-same shapeOf sightOf size-below size-fits size-is size-ok slice-fits slice-kept slice-over some-more start-is start-spec step-spec tag-of
    tagAt take-spec takes-at the-end the-second tied-at told-at told-line too-many top-below trial-on turn-on two-at two-back two-ends two-size
    under-first upto-all valueAt valuesOf was-read whole-is within-block wordOf write-kept writes-more writtenOf zero-a
    """.split()
)


def respelled(name):
    if name in APART:
        return APART[name]
    parts = []
    for part in name.split("-"):
        if re.match(r"[a-z]", part):
            part = re.sub(r"(?<=[a-z0-9'])([A-Z])", lambda m: "_" + m.group(1).lower(), part)
        parts.append(part)
    return "_".join(parts)


def wants(name):
    return name in APART or bool(re.match(r"[^\W\d]", name)) and respelled(name) != name and "◌" not in name


def read(path):
    with open(path, encoding="utf-8") as f:
        return f.read()


def lemma_files():
    for crate in sorted(glob.glob("crates/*/")):
        for part in ("specs", "proofs"):
            for path in sorted(glob.glob(f"{crate}{part}/**/*.antt", recursive=True)):
                inside = os.path.relpath(path, crate + part)
                # A file below proofs/F/ is a function's own: its names are those of its goals.
                if part == "specs" or "/" not in inside:
                    yield path


DECLARED = re.compile(
    r"^ *(?:(?:unfoldable|abbrev|pub|data|record|mutual) +)*(" + NAME + r")(?: +(?:\([^()]*\)|\{[^{}]*\}))* : ",
    re.M,
)


def code(text):
    return re.sub(r"--[^\n]*", "", text)


def declared(text):
    return {m.group(1) for m in DECLARED.finditer(code(text))}


def imported(text):
    out = set()
    crates = "|".join(os.path.basename(c[:-1]) for c in glob.glob("crates/*/"))
    for m in re.finditer(r"use Rattle\.(?:" + crates + r")\.(?:specs|proofs)\.([^{;\n]*)\{([^}]*)\}", text):
        for item in m.group(2).split(","):
            out.update(w for w in item.split() if w != "as")
    return out


def main():
    check = "--check" in sys.argv
    names, fields = collections.defaultdict(set), set()
    for path in lemma_files():
        text = read(path)
        for name in declared(text):
            if wants(name):
                names[name].add(path)
        for block in re.findall(r"^ *(?:pub )?record .*?where\n((?:(?: +[^\n]*)?\n)*)", code(text), re.M):
            fields.update(m for m in re.findall(r"^ +pub (" + NAME + r") : ", block, re.M) if wants(m))
    every = set(names)
    # Aliases of imports, as {bit as bitOf}.
    files = [p for p in glob.glob("crates/*/**/*", recursive=True) if p.endswith((".antt", ".rt"))]
    for path in files:
        for m in re.finditer(r" as (" + NAME + r")[,}]", read(path)):
            if wants(m.group(1)):
                every.add(m.group(1))
    # Names that fall together within one crate.
    by_crate = collections.defaultdict(lambda: collections.defaultdict(set))
    for path in lemma_files():
        crate = path.split("/")[1]
        for name in declared(read(path)):
            by_crate[crate][respelled(name) if name in every else name].add((name, path))
    together = False
    for crate, made in by_crate.items():
        for new, olds in made.items():
            if len({n for n, _ in olds}) > 1:
                print("fall together:", crate, new, sorted(olds))
                together = True
    if check:
        for name in sorted(every):
            print(name, respelled(name))
        return
    if together and "--force" not in sys.argv:
        sys.exit(1)

    def turn(text, visible, everywhere):
        def one(m):
            word, before = m.group(0), text[max(0, m.start() - 1) : m.start()]
            if everywhere and (word in every or word in BY_PORT):
                return respelled(word)
            if word in visible or (before == "." and word in fields):
                return respelled(word)
            return word

        return TOKEN.sub(one, text)

    def comment(text):
        text = re.sub(r"`[^`\n]*`", lambda m: turn(m.group(0), set(), True), text)
        return TOKEN.sub(lambda m: respelled(m.group(0)) if m.group(0) in every and "-" not in m.group(0) else m.group(0), text)

    for path in files:
        text = read(path)
        own = declared(text) if path in set(lemma_files()) else set()
        visible = {n for n in own | imported(text) if n in every}
        mark = "--" if path.endswith(".antt") else "//"
        out = []
        for line in text.split("\n"):
            at = line.find(mark)
            if mark == "//" and '"' in line:
                at = -1
            head, tail = (line, "") if at < 0 else (line[:at], line[at:])
            out.append(turn(head, visible, False) + comment(tail))
        new = "\n".join(out)
        if new != text:
            with open(path, "w", encoding="utf-8") as f:
                f.write(new)
    for path in glob.glob("crates/*/must-fail/*.edit"):
        text = read(path)
        new = "\n".join(line if line.startswith(("#", "file:")) else turn(line, set(), True) for line in text.split("\n"))
        if new != text:
            with open(path, "w", encoding="utf-8") as f:
                f.write(new)


main()
