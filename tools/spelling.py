#!/usr/bin/env python3
"""Brings the names of this repository's own definitions and lemmas to Rattle's spelling: words in snake case, facts and types in camel case.

usage: python3 tools/spelling.py [--table]     at the top; --table only prints the rows, old, a tab, new

A definition or a lemma is what stands at the head of a signature in crates/*/specs or in crates/*/proofs/*.antt, a field of a record
or a constructor there, and a helper lemma of a function's Proof.antt. What Rattle makes names for (a goal, a function's
proof) keeps its name, and so does everything of src/: a word turns in .antt files, in the `ghost use` items and clauses of .rt files,
and in the texts of must-fail edits. It stops where two names would fall together. Run it once, after the toolchain's own scripts.
"""

import collections
import glob
import os
import re
import sys

WORD = re.compile(r"(?<![\w'-])([a-z][\w'-]*)(?![\w'-])")
HEAD = re.compile(
    r"^(?:(?:abbrev|unfoldable|mutual|ruleset|pub) +)*([a-z][\w'-]*)\s+(?:\([^)]*\)\s*|\{[^}]*\}\s*)*:(?=\s)", re.M
)
MEMBER = re.compile(r"^ +(?:pub +)?([a-z][\w'-]*(?: [a-z][\w'-]*)*) :(?=\s)", re.M)
BRANCH = re.compile(r"^ +\| ([a-z][\w'-]*)", re.M)
ABBREVIATED = re.compile(r"[a-z0-9][A-Z]|-")
CALL = re.compile(r"\.([a-z][a-z0-9]*(?:-[a-z0-9]+)+)(?=\.(?:ensures|result|new|requires|args)\b)")

# A fact whose bare name in camel case is a type of src/, and lemmas whose names would fall together with a definition's or a field's.
CHOSEN = {
    "judged": "IsJudged",
    "pay": "Pays",
    "send-block": "send_block_lem",
    "next-number": "next_number_lem",
    "asked_in": "asked_at_state",
    "one_more": "one_more_lem",
    "reset-done": "reset_done_lem",
    "data-done": "data_done_lem",
    "found-waiting": "found_waiting_lem",
    "found-else": "found_else_lem",
    "other-hand": "other_hand_lem",
    "other_word": "other_word_lem",
    "desc-hand": "desc_hand_lem",
    "no-message": "no_message_lem",
    "done-says": "done_says_lem",
    "in-ranges": "in_ranges_lem",
    "mark-of": "mark_of_lem",
}


def snake(name):
    name = re.sub(r"([a-z0-9])([A-Z])", lambda m: m.group(1) + "_" + m.group(2).lower(), name)
    return name.replace("-", "_")


def camel(name):
    return "".join(part[:1].upper() + part[1:] for part in re.split(r"[-_]", name))


def signature(text, at):
    """The rest of a signature: to the first line that is not indented."""
    end = re.compile(r"\n(?=\S)").search(text, at)
    return text[at : end.start() if end else len(text)]


def is_fact(sig):
    return re.search(r"(?:^|→)\s*Type(?: [01])?\s*$", re.sub(r"--[^\n]*", "", sig).strip()) is not None


def made(name, sig, path):
    """Whether the name is one that Rattle asks a function's proof for."""
    if not path.endswith("/Proof.antt"):
        return False
    return re.match(r"\s*(?:tie|goal)\.", sig) is not None or re.search(r"statement M\s*$", sig) is not None


def names():
    """Each name of the repository's own, with whether it is a fact."""
    found = {}
    for path in sorted(glob.glob("crates/*/specs/**/*.antt", recursive=True) + glob.glob("crates/*/proofs/**/*.antt", recursive=True)):
        text = open(path, encoding="utf-8").read()
        for m in HEAD.finditer(text):
            sig = signature(text, m.end())
            if not made(m.group(1), sig, path):
                found[m.group(1)] = found.get(m.group(1), False) or is_fact(sig)
        if "/Proof.antt" in path:
            continue
        for m in MEMBER.finditer(text):
            for name in m.group(1).split():
                found.setdefault(name, False)
        for m in BRANCH.finditer(text):
            found.setdefault(m.group(1), False)
    return found


def rows():
    found = names()
    table = {}
    for name, fact in found.items():
        new = CHOSEN.get(name) or (camel(name) if fact else snake(name) if ABBREVIATED.search(name) else name)
        if new != name:
            table[name] = new
    return found, table


def clauses(text):
    """The places of a .rt file that antt reads: `ghost use` items, clauses and ghost blocks."""
    for m in re.finditer(r"ghost use [^;]*;", text):
        yield m.start(), m.end()
    for m in re.finditer(r"(?:requires|ensures|ghost)\*?\s*(?:\w+\s*:?\s*)?\{", text):
        depth, at = 1, m.end()
        while depth and at < len(text):
            depth += {"{": 1, "}": -1}.get(text[at], 0)
            at += 1
        yield m.end(), at


def turn(text, table):
    return WORD.sub(lambda m: table.get(m.group(1), m.group(1)), text)


def foreign(text):
    """The names that a file brings from a library that is none of this repository's crates."""
    for m in re.finditer(r"use ([\w.+]+)\.\{([^}]*)\}", text):
        module = m.group(1).split(".")
        if module[0] != "Rattle" or not os.path.isdir(os.path.join("crates", module[1])):
            yield from re.split(r"[,\s]+", m.group(2))


def turned(path, text, table):
    kept = set(foreign(text))
    table = {old: new for old, new in table.items() if old not in kept}
    if path.endswith("/Proof.antt"):
        text = CALL.sub(lambda m: "." + m.group(1).replace("-", "_"), text)
    if path.endswith(".antt"):
        return turn(text, table)
    if path.endswith(".edit"):
        spelled = {old: new for old, new in table.items() if re.search("[A-Z-]", old)}
        return "".join(turn(line, spelled) if line.startswith(("old:", "new:")) else line for line in text.splitlines(True))
    for start, end in sorted(clauses(text), reverse=True):
        text = text[:start] + turn(text[start:end], table) + text[end:]
    return text


def main():
    found, table = rows()
    taken = collections.defaultdict(set)
    for name in found:
        taken[table.get(name, name)].add(name)
    clash = {new: sorted(old) for new, old in taken.items() if len(old) > 1}
    if clash:
        print(f"spelling: these fall together: {clash}", file=sys.stderr)
        return 1
    if "--table" in sys.argv[1:]:
        print("\n".join(f"{old}\t{new}" for old, new in sorted(table.items())))
        return 0
    changed = 0
    for path in sorted(glob.glob("crates/**/*", recursive=True)):
        if "/out/" in path or not path.endswith((".antt", ".rt", ".edit")) or not os.path.isfile(path):
            continue
        text = open(path, encoding="utf-8").read()
        new = turned(path, text, table)
        if new != text:
            open(path, "w", encoding="utf-8").write(new)
            changed += 1
    print(f"spelling: {len(table)} names, {changed} files changed")
    return 0


if __name__ == "__main__":
    raise SystemExit(main())
