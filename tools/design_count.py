#!/usr/bin/env python3
"""Counts the places of the design pass (docs/DESIGN-PASS.md) by their shape: in crates/*/src, and for point 8 in crates/*/proofs.

usage: python3 tools/design_count.py [--list] [POINT..]     at the top of the repository

One line for each point, `point N: COUNT`, with the kinds of shape that make it up. --list has each place as file:line: kind: text.
It finds candidates, rather too many than too few: whether a place is one, the page says.
"""

import glob
import itertools
import re
import sys
from collections import defaultdict

NUMBER = r"(?:u8|u16|u32|u64|usize)"
# variants that say none, other or refused
NO_VALUE = re.compile(r"(?:Refused|Refusal|None|Nothing|Other|Empty|Good|Accepted|Pending|Lost|Not[A-Z]\w*|No[A-Z]\w*)$")
# functions of one value that a derive, a From, a method or the library has
BY_HAND = re.compile(r"(?:same|number|quality_of|is_verified|bit|wide|word|words_of|high|low|swap|least|capped|flipped)$")
# printing and reading numbers by hand
DIGITS = re.compile(r"48 \+|55 \+|- 48\b|- 55\b|\b4[78]\b|\b5[578]\b|last_digit|decimal_digit|/ (?:4096|10|16)\b|% 10\b|\* 10\b|\* 16\b")
KEYWORDS = set("as break continue else enum extern false fn for if impl in let loop match mut pub ref return self Self struct true unsafe while where dyn move".split())


def code(text):
    """The text with comments and ghost lines blank, lines kept."""
    text = re.sub(r"^\s*ghost use .*$", "", text, flags=re.M)
    return re.sub(r"//.*$", "", text, flags=re.M)


def close(text, at):
    """The place behind the bracket that closes the one at `at`."""
    pair = {"(": ")", "{": "}", "[": "]"}
    depth = 0
    for i in range(at, len(text)):
        if text[i] == text[at]:
            depth += 1
        elif text[i] == pair[text[at]]:
            depth -= 1
            if depth == 0:
                return i + 1
    return len(text)


def split(text, sep=",", open_="([{<"):
    """The parts between separators that stand in no bracket."""
    parts, depth, last = [], 0, 0
    for i, c in enumerate(text):
        if c in open_:
            depth += 1
        elif c in ")]}" or c == ">" and "<" in open_ and text[i - 1] not in "-=":
            depth -= 1
        elif c == sep and depth == 0:
            parts.append(text[last:i])
            last = i + 1
    return [" ".join(p.split()) for p in parts + [text[last:]] if p.strip()]


def generics_end(text, at):
    """The place of the parameters' bracket, behind <..> where that stands."""
    depth = 0
    while text[at] != "(" or depth:
        depth += (text[at] == "<") - (text[at] == ">" and text[at - 1] not in "-=")
        at += 1
    return at


def arms_of(body):
    """The matches of a body: the line in it, what is matched, and each arm's pattern and what it gives."""
    for m in re.finditer(r"\bmatch ([^{]*)\{", body):
        inner = body[m.end() : close(body, m.end() - 1) - 1]
        arms = [a.split("=>", 1) for a in split(re.sub(r"\}(?=\s*\n\s*[\w:]+[ ({].*=>)", "},", inner), open_="([{") if "=>" in a]
        yield body.count("\n", 0, m.start()), m[1].strip(), [(p.strip(), v.strip()) for p, v in arms]


class Item:
    def __init__(self, file, line, name, **more):
        self.file, self.line, self.name = file, line, name
        self.__dict__.update(more)

    def params_of(self):
        return [tuple(s.strip() for s in p.split(":", 1)) for p in self.params if ":" in p]


def parse(file):
    text = code(open(file, encoding="utf-8").read())
    functions, types = [], []
    at_line = lambda i: text.count("\n", 0, i) + 1
    for m in re.finditer(r"\bfn (\w+)", text):
        i = generics_end(text, m.end())
        j = close(text, i)
        k, heads, clauses = j, [], []
        while k < len(text) and text[k] not in ";}":
            if text[k] in "([":
                k = close(text, k)
            elif text[k] == "{":
                heads.append(text[j:k])
                if not re.search(r"\b(requires|ensures)(\s+\w+)?\s*$", heads[-1]):
                    break
                j = close(text, k)
                clauses.append(text[k + 1 : j - 1])
                k = j
            else:
                k += 1
        body = text[k : close(text, k)] if text[k : k + 1] == "{" else ""
        result = re.split(r"\b(?:requires|ensures|where)\b", heads[0] if heads else text[j:k])[0].replace("->", "", 1)
        params = split(text[i + 1 : close(text, i) - 1])
        functions.append(Item(file, at_line(m.start()), m[1], params=params, result=" ".join(result.split()), clauses=clauses, body=body, start=at_line(k)))
    for m in re.finditer(r"\b(enum|struct) (\w+)(?:<[^{(;]*>)?\s*([{(])", text):
        inner = text[m.end() : close(text, m.end() - 1) - 1]
        parts = [re.sub(r"#\[.*?\]|\bpub(\(\w+\))? ", "", p).strip() for p in split(inner)]
        derive = re.findall(r"#\[derive\(([^)]*)\)\]\s*(?:pub )?$", text[: m.start()])
        types.append(Item(file, at_line(m.start()), m[2], kind=m[1], parts=parts, derive=derive[-1] if derive else ""))
    return text, functions, types


FILES = {f: parse(f) for f in sorted(glob.glob("crates/*/src/**/*.rt", recursive=True))}
FUNCTIONS = [f for _, fs, _ in FILES.values() for f in fs]
TYPES = [t for _, _, ts in FILES.values() for t in ts]


def lines(pattern):
    for file, (text, _, _) in FILES.items():
        for n, line in enumerate(text.split("\n"), 1):
            if re.search(pattern, line):
                yield file, n, " ".join(line.split())


def shape(body):
    body = re.sub(r'b?"[^"]*"|b\'[^\']*\'', " s ", body)
    body = re.sub(r"\w+(?:::\w+)+", " x ", body)
    words = re.findall(r"\w+|[^\s\w]+?", body)
    return tuple("0" if w[0].isdigit() else w if w in KEYWORDS or not w[0].isalpha() else "x" for w in words)


def variant_head(part):
    return re.match(r"\w+", part)[0]


def point1():
    for t in TYPES:
        if t.kind == "enum":
            heads = [variant_head(p) for p in t.parts]
            option = len(heads) == 2 and len([p for p in t.parts if re.fullmatch(r"\w+", p)]) == 1
            if option or any(NO_VALUE.match(h) for h in heads) or any(re.search(r"\(u(8|32)\)$", p) for p in t.parts):
                yield "enum", t.file, t.line, f"{t.name} {{ {', '.join(t.parts)} }}"
        for p in t.parts:
            if re.search(r"\bbool\b", p):
                yield "flag", t.file, t.line, f"{t.name}: {p}"
    for f in FUNCTIONS:
        for p in f.params:
            if re.search(r": bool$", p) and len(f.params) > 1:
                yield "flag", f.file, f.line, f"fn {f.name}(.. {p} ..)"
            if re.match(rf"(refusal|code|mode|kind): {NUMBER}$", p) or "refus" in f.name and re.match(r"n: u8$", p):
                yield "number for a refusal or kind", f.file, f.line, f"fn {f.name}(.. {p} ..)"
        if re.fullmatch(NUMBER, f.result) and re.search(r"return 0;|^\s*0$|=> 0,|\b0 \}", f.body, re.M):
            yield "0 beside a number", f.file, f.line, f"fn {f.name} -> {f.result}"
    for file, n, line in lines(r"(Refused|Err)\(\d+\)|refuse\(\d+|put_no\(.*\b\d+\)|\bnumber\(\w+::"):
        yield "refusal as a number", file, n, line
    for file, n, line in lines(r"(Refused|Err)\(\w+\) =>"):
        yield "refusal passed on by hand", file, n, line
    for file, n, line in lines(r"\bmode\w* (==|!=) \d|\bmode: u\d+,?$|\bmode: \d|\.mode (as|%)"):
        yield "mode as a number", file, n, line


def point2():
    same = defaultdict(list)
    for f in FUNCTIONS:
        s = shape(f.body)
        if len(s) >= 9 or "[" in s:
            same[s].append(f)
    for s, fs in sorted(same.items(), key=lambda e: (e[1][0].file, e[1][0].line)):
        if len(fs) > 1:
            for f in fs:
                yield "function", f.file, f.line, f"fn {f.name} ~ {', '.join(g.name + ' (' + g.file.split('/')[1] + ')' for g in fs if g is not f)}"
    twins = defaultdict(set)
    for a, b in itertools.combinations(TYPES, 2):
        if a.kind != b.kind:
            continue
        if a.kind == "enum":
            load = lambda t: sorted(len(split(p[p.find(p[len(variant_head(p)) :].strip()[:1] or "$") + 1 : -1])) if re.search(r"[({]", p) else 0 for p in t.parts)
            shared = set(a.parts) & set(b.parts)
            alike = any(load(a)) and load(a) == load(b) or len(shared) >= 3 and len(shared) in (len(a.parts), len(b.parts))
        else:
            kinds = [sorted(p.split(":")[-1].strip() for p in t.parts) for t in (a, b)]
            fields = [sorted(p.split(":")[0].strip() for p in t.parts) for t in (a, b)]
            alike = a.name == b.name or kinds[0] == kinds[1] or fields[0] == fields[1]
        if alike:
            twins[a].add(b.name)
            twins[b].add(a.name)
    for t, names in twins.items():
        yield "type", t.file, t.line, f"{t.kind} {t.name} ~ {', '.join(sorted(names))}"
    # runs of eight lines or more whose shape stands twice
    runs = defaultdict(list)
    for file, (text, _, _) in FILES.items():
        rows = [(n, shape(l)) for n, l in enumerate(text.split("\n"), 1) if len(shape(l)) > 2 and not re.match(r"\s*(use|pub mod|mod|#)", l)]
        for i in range(len(rows) - 7):
            runs[tuple(s for _, s in rows[i : i + 8])].append((file, rows[i][0], rows[i + 7][0]))
    spans = defaultdict(list)
    for places in runs.values():
        if len(places) > 1:
            for file, a, b in places:
                spans[file].append((a, b))
    for file, found in spans.items():
        found.sort()
        merged = [list(found[0])]
        for a, b in found[1:]:
            if a <= merged[-1][1]:
                merged[-1][1] = max(b, merged[-1][1])
            else:
                merged.append([a, b])
        for a, b in merged:
            yield "run of lines", file, a, f"lines {a} to {b} have the shape of others"


def point3():
    for f in FUNCTIONS:
        for n, line in enumerate(f.body.split("\n")):
            if re.search(r"\b(while(?! let)|loop)\b", line):
                step = re.search(r"\w+ (?:\+|-)= [\w ]+|\b(\w+) = \1 / \d+", "\n".join(f.body.split("\n")[n:]))
                yield "loop", f.file, f.start + n, f"fn {f.name}: {line.strip()} .. {step[0] if step else 'no step'}"


def point4():
    for f in FUNCTIONS:
        constant = r"true|false|\d+|\w|\w+::\w+|b?\"[^\"]*\""
        if any(len(arms) > 1 and all(re.fullmatch(constant, v) for _, v in arms) for _, _, arms in arms_of(f.body)):
            yield "match that gives a constant", f.file, f.line, f"fn {f.name}"
        elif BY_HAND.match(f.name) and len(f.params) <= 2:
            yield "conversion or comparison", f.file, f.line, f"fn {f.name}({', '.join(f.params)}) -> {f.result}"
        copied = [m[1] or m[2] for m in re.finditer(r"^\s*let (\w+) = \w[\w.]*\.\1;|^\s*(\w+): \w[\w.]*\.\2,", f.body, re.M)]
        if copied:
            yield "fields copied one by one", f.file, f.line, f"fn {f.name}: {', '.join(copied)}"
        texts = re.findall(r"=> \S*\(.*b\"[^\"]*\"|(?:if .*|else) \{\n\s*\S*\(.*b\"[^\"]*\"", f.body)
        if texts:
            yield "text of a case", f.file, f.line, f"fn {f.name}: {len(texts)} texts"
        parts = re.findall(r"\b(?:print::\w+|put_\w+|text|field|number|refused|word)\(out\b", f.body)
        if len(parts) > 1 and not texts:
            yield "printed part by part", f.file, f.line, f"fn {f.name}: {len(parts)} calls"
        if DIGITS.search(f.body) and re.search(r"digit|hex|dec|print|put|parse|number_|word$", f.name + f.file):
            yield "digits by hand", f.file, f.line, f"fn {f.name}"
    for file, n, line in lines(r"\bas " + NUMBER + r"\b"):
        yield "as", file, n, line
    for t in TYPES:
        plain = all(re.fullmatch(r"\w+", p) for p in t.parts)
        if plain and "PartialEq" not in t.derive:
            yield "no derive of equality", t.file, t.line, f"{t.kind} {t.name}: derive({t.derive})"


def facts(f):
    names = {p[0] for p in f.params_of()}
    for clause in f.clauses:
        clause = " ".join(clause.split())
        for m in re.finditer(r"λ (\w+)\. ", clause):
            clause = re.sub(rf"\b{m[1]}\b", "result", clause)
        clause = re.sub(r"IfOk result \(λ result\. ", "(", clause)
        todo = [clause]
        while todo:
            c = todo.pop().strip()
            while c.startswith("(") and close(c, 0) == len(c):
                c = c[1:-1].strip()
            parts = split(c, "×", "([{")
            if len(parts) > 1:
                todo += parts
                continue
            if re.search(r"[≤<≡]", c):
                c = re.sub(r"(?<![\w.])\w+", lambda m: "p" if m[0] in names else m[0], c)
                c = re.sub(r"\b(p|result)\.(?:\w+\.)+(\w+)", r"\1.\2", c)
                # not what a function gives, by the name of its definition
                if not re.search(r"≡ (?!length\b|sets\b)\w+(?: p[\w.]*)+$", c):
                    yield c


def point5():
    held = defaultdict(dict)
    for f in FUNCTIONS:
        for fact in facts(f):
            held[fact].setdefault((f.file, f.name), f)
        for form in {re.sub(r"\((?:[^()]|\((?:[^()]|\([^()]*\))*\))*\)", "(..)", fact) for fact in facts(f) if "(" in fact}:
            held[form].setdefault((f.file, f.name), f)
    for fact, fs in sorted(held.items(), key=lambda e: -len(e[1])):
        if len(fs) >= 3:
            first = next(iter(fs.values()))
            yield "fact", first.file, first.line, f"{fact}   in {len(fs)}: {', '.join(f.name for f in fs.values())}"
    sets = [(f, frozenset(f.params_of())) for f in FUNCTIONS]
    closed = {a & b for (_, a), (_, b) in itertools.combinations(sets, 2) if len(a & b) >= 2}
    kept = []
    for group in sorted(closed, key=lambda g: (-len(g), sorted(g))):
        fs = [f for f, s in sets if group <= s]
        # three functions at least that no larger group has
        if sum(not any(group < k and k <= frozenset(f.params_of()) for k in kept) for f in fs) >= 3:
            kept.append(group)
            order = [p for p in fs[0].params_of() if p in group]
            yield "group", fs[0].file, fs[0].line, f"{', '.join(': '.join(p) for p in order)}   in {len(fs)}: {', '.join(f.name for f in fs)}"


def point6():
    for f in FUNCTIONS:
        lent = [p for p in f.params if re.search(r": &(mut )?\[", p)]
        sizes = [p for p in f.params if re.search(r": usize$", p) or lent and re.match(r"(n|k|i|at|from|size|received|needed): u\d+$", p)]
        if lent and sizes:
            yield "buffer with a number", f.file, f.line, f"fn {f.name}({', '.join(lent + sizes)})"
        elif sizes:
            yield "length without its buffer", f.file, f.line, f"fn {f.name}({', '.join(sizes)})"
        if any("&mut" in p for p in lent) and f.result == "usize":
            yield "buffer filled, length given", f.file, f.line, f"fn {f.name}({', '.join(lent)}) -> usize"
    for t in TYPES:
        if any("[" in p for p in t.parts):
            yield "array in a type", t.file, t.line, f"{t.kind} {t.name} {{ {', '.join(t.parts)} }}"
        elif t.kind == "struct" and any(re.search(r": usize$", p) for p in t.parts):
            yield "place in a type", t.file, t.line, f"{t.kind} {t.name} {{ {', '.join(t.parts)} }}"
    for file, n, line in lines(r"= \[[^\]]*; \d+\]|^\s*\[0; \d+\]|= \[0xFFFF"):
        yield "fixed array", file, n, line


def point7():
    for f in FUNCTIONS:
        for n, what, arms in arms_of(f.body):
            plain = all(re.fullmatch(r"\w+::\w+|_", p) for p, _ in arms)
            if len(arms) > 1 and plain and sum("(" in v for _, v in arms) > 1 and all(re.match(r"[\w:.]+\(|\w$|\d+$", v) for _, v in arms):
                yield "switch that picks a call", f.file, f.start + n, f"fn {f.name}: match {what}, {len(arms)} arms"
        if len(re.findall(r"\bif \w+\(b\"", f.body)) > 2:
            yield "chain of tests", f.file, f.line, f"fn {f.name}"
    for file, n, line in lines(r": fn\(|\bdyn \w|\[fn\("):
        yield "function pointer or dyn", file, n, line


def point8():
    repeated = defaultdict(set)
    for crate in sorted(glob.glob("crates/*")):
        counts = defaultdict(int)
        for file in sorted(glob.glob(crate + "/proofs/**/*.antt", recursive=True)):
            text = open(file, encoding="utf-8").read()
            name = file.rsplit("/", 1)[1]
            if name in ("Answers.antt", "Invariants.antt"):
                heads = list(re.finditer(r"^(?:(?:abbrev|pub) )*(\S+) : goal\.\S+$", text, re.M))
                counts[name] += 1
                counts["answers" if name == "Answers.antt" else "invariants and measures"] += len(heads)
                for a, b in zip(heads, heads[1:] + [None]):
                    body = text[a.end() : b.start() if b else len(text)]
                    body = re.sub(r"\n(unfolding|--).*", "", body)
                    body = " ".join(re.sub(r"^\s*\S+( g)?( [cl])? =", "=", body.strip()).split())
                    repeated[body].add((file, text.count("\n", 0, a.start()) + 1, a[1]))
            else:
                heads = re.findall(r"^(?:(?:abbrev|unfoldable|mutual|ruleset|pub) +)*([^\s:(){}-][^\s:(){}]*)\s+(?:\([^)]*\)\s*|\{[^}]*\}\s*)*:(?=\s)", text, re.M)
                counts["lemmas"] += len(heads)
                counts["files of lemmas"] += 1
        if counts:
            yield "crate", crate, counts["answers"], ", ".join(f"{v} {k}" for k, v in sorted(counts.items()))
    for body, places in sorted(repeated.items(), key=lambda e: -len(e[1])):
        if len({p[0] for p in places}) >= 3:
            file, n, name = sorted(places)[0]
            yield "repeated", file, n, f"{name} {body[:100]}   in {len(places)}: {', '.join(sorted(p[0].split('proofs/')[1].rsplit('/', 1)[0] for p in places))}"


def main():
    wanted = [int(a) for a in sys.argv[1:] if a.isdigit()] or range(1, 9)
    for n in wanted:
        found = list(globals()[f"point{n}"]())
        kinds = defaultdict(int)
        for kind, _, line, _ in found:
            kinds["answers" if n == 8 and kind == "crate" else kind] += line if n == 8 and kind == "crate" else 1
        print(f"point {n}: {sum(kinds.values())} ({', '.join(f'{k} {v}' for k, v in kinds.items())})")
        if "--list" in sys.argv:
            for kind, file, line, text in found:
                print(f"{file}:{line}: {kind}: {text}")


main()
