#!/usr/bin/env python3
"""Counts the places in the crates' src/ whose form an older language asked for, by crate and point of docs/DESIGN-PASS.md.

usage: tools/count_places.py [ROOT] [--list POINT] [--second]

No words: a table of counts, ROOT being the top of the repository. --list POINT prints file, line and what was found for one point, 1 to 8.
--second counts points 1, 2 and 3 in another way: use sites and comments, pairs of functions with like bodies, updates of an index.
"""

import argparse
import collections
import difflib
import glob
import os
import re

Function = collections.namedtuple("Function", "name params result clauses body line path")
Place = collections.namedtuple("Place", "point crate path line what")
Type = collections.namedtuple("Type", "kind name parts line path")

POINTS = "12345678"
GROUPS = (
    "handle table index", "table index", "row bytes", "kept out", "bytes out", "out at", "s at n", "bytes at", "image count", "s base stride",
    "image out h", "held used", "rows table",
)


def closing(text, start):
    """The place behind the parenthesis that closes the one at start."""
    depth, at = 0, start
    while True:
        depth += {"(": 1, ")": -1}.get(text[at], 0)
        at += 1
        if depth == 0:
            return at


def functions(path):
    """Each function of a file, with its parameters, clauses and body as text."""
    text = open(path).read()
    found = []
    for m in re.finditer(r'^( *)((?:pub )?(?:const )?(?:extern "C" )?fn (\w+)(?:<[^>]*>)?\()', text, re.M):
        behind = closing(text, m.end() - 1)
        plain = re.compile(r"( -> [^\n{]+)? \{\n").match(text, behind)
        opens = plain.end() - 2 if plain else text.find("\n" + m[1] + "{", behind)
        promised = re.compile(r";\n(\n|\})").search(text, behind)
        if opens < 0 or (not plain and promised and promised.start() < opens):
            continue
        head = text[behind:opens]
        result = re.match(r"\s*->\s*([^\n]+)", head)
        end = text.find("\n" + m[1] + "}", opens)
        line = text.count("\n", 0, m.start()) + 1
        found.append(Function(m[3], text[m.end() : behind - 1], result[1].strip() if result else "", head, text[opens:end], line, path))
    return found


def types(path):
    """Each enum and struct of a file with its variants or fields."""
    text = open(path).read()
    for m in re.finditer(r"^(?:pub )?(enum|struct) (\w+)(?:<[^>]*>)? \{\n(.*?)^\}", text, re.M | re.S):
        parts = [re.sub(r"//.*", "", x).strip().rstrip(",") for x in m[3].splitlines()]
        yield Type(m[1], m[2], [x for x in parts if x], text.count("\n", 0, m.start()) + 1, path)


def names_of(params):
    """Parameters and their types."""
    found = (re.match(r"\s*(?:mut )?(\w+)\s*:?\s*(.*)", x, re.S) for x in re.split(r",(?![^\[]*\])", params) if x.strip())
    return {m[1]: m[2] for m in found if m}


def own_enum(t):
    """What an enum is the shape of, or nothing."""
    unit = [x for x in t.parts if "(" not in x]
    held = [x for x in t.parts if "(" in x]
    bad = [x for x in held if re.search(r"Refusal|Fault", x)]
    if len(t.parts) == 2 and len(unit) == len(held) == 1 and not bad:
        return "Option"
    if len(t.parts) == 2 and bad:
        return "Result"
    if len(t.parts) == 3 and (bad or (held and unit and re.search(r"Astray|Unfit|Short|Bad", " ".join(unit)))):
        return "Result of an enum"
    return None


def flags_and_numbers(t):
    """The fields of a struct that are a verdict, a flag or a number for none beside a value."""
    for x in t.parts:
        if re.match(r"pub (answer|verdict|taken|shown): ", x):
            yield f"struct {t.name}: {x} beside {len(t.parts) - 1} more"
        if re.match(r"pub known: bool", x):
            yield f"struct {t.name}: flag {x} beside a value"
        if re.match(r"pub (refusal: u8|event: u8|live: u64)", x):
            yield f"struct {t.name}: {x}, 0 for none"


def number_answered(f):
    """What number a function answers for a refusal or for none, or nothing."""
    refusal = r"\breturn (1\d|2\d);|^\s*(20|26|25) *$|told::(UNFIT|TOO_HIGH)"
    if re.search(refusal, f.body, re.M) and f.result.startswith("u"):
        return "refusal numbers, 0 for none"
    if f.result == "u8" and re.search(r"=> 0,|return 0", f.body):
        return "0, or the number of a refusal"
    if f.result == "usize" and re.search(r"_ => 0,|^    0$|(?:Refused|Err)\(_\) => 0", f.body, re.M):
        return "0 for none"
    return None


def point_1(paths, fns):
    """Own enums of the shape of Option or Result, a flag with a value beside it, numbers for kinds or refusals."""
    for path in paths:
        for t in types(path):
            if t.kind == "enum" and own_enum(t):
                yield path, t.line, f"enum {t.name}: {own_enum(t)} ({', '.join(t.parts)})"
            if t.kind == "struct":
                yield from ((path, t.line, x) for x in flags_and_numbers(t))
        for i, line in enumerate(open(path), 1):
            m = re.match(r"(?:pub )?const (\w+): u(?:8|16|32) = (?:REFUSED \+ )?\d+;", line)
            if (m and path.endswith("told.rt")) or "const NO_RECORD" in line:
                yield path, i, f"{line.split(':')[0].strip()}: a kind or refusal as a number"
    for f in fns:
        if number_answered(f):
            yield f.path, f.line, f"fn {f.name} -> {f.result}: {number_answered(f)}"


def shape(f):
    """A function's body and parameters without what twins differ in."""
    b = re.sub(r"//.*", "", f.body)
    b = re.sub(r"b'.'|b\"[^\"]*\"|\b\d[\d_]*\b", "N", b)
    b = re.sub(r"\bu(8|16|32|64)\b|\busize\b", "T", b)
    b = re.sub(r"\b(read|write|copy|wide|keep_?|put_?)\w*?(\d)\b", r"\1", b)
    b = re.sub(r"(?i)short|long|forward|back|bid|ask|high|low\b", "W", b)
    b = re.sub(r"\b[A-Z][A-Z_]+\b", "C", b)
    b = re.sub(r"\b(\w+)::(\w+)", lambda m: m[1] + "::" + ("V" if m[1][0].isupper() else m[2]), b)
    signature = re.sub(r"(?i)short|long|u(8|16|32|64)|usize|\w*(Numbers|Quote|Side|Price)\b", "T", re.sub(r"\s+", " ", f.params))
    return re.sub(r"\s+", " ", b), re.sub(r"\w+:", "", signature)


def point_2(paths, fns):
    """Twins: functions or types that differ only in a type, a size or a constant."""
    alike = collections.defaultdict(list)
    for f in fns:
        if len(shape(f)[0]) > 12:
            alike[shape(f)].append(f)
    for path in paths:
        for t in types(path):
            alike[re.sub(r"Short|Long|u(8|16|32|64)", "T", t.kind + "|".join(t.parts))].append(t)
    for group in alike.values():
        for x in group if len(group) > 1 else []:
            what = x.kind if isinstance(x, Type) else "fn"
            yield x.path, x.line, f"{what} {x.name} like {', '.join(y.name for y in group if y is not x)}"


def point_3(paths, fns):
    """Loops that are not a `for`."""
    for f in fns:
        for m in re.finditer(r"^ *(while .*|loop) \{", f.body, re.M):
            before = f.clauses.count("\n") + f.params.count("\n") + f.body[: m.start()].count("\n")
            yield f.path, f.line + before, f"fn {f.name}: {m[1].strip()}"


def by_hand(f):
    """What a function does by hand that a derive, From, TryFrom or Display does, or nothing."""
    one = re.sub(r"\s+", " ", f.body).strip()
    if re.match(r"\{ match \w+ \{", one):
        arms = re.findall(r"=> ([^,{]+),", f.body)
        if arms and all(re.fullmatch(r"\d+|true|false|\w+::\w+|\w+::\w+::\w+|b'.'", a.strip()) for a in arms):
            return f"an enum or code turned by a match ({len(arms)} arms)"
        return None
    if re.match(r"\{ if b \{ 1 \} else \{ 0 \}", one):
        return "bool as a number"
    if re.search(r"(\w+)\.(\w+) == (\w+)\.\2.*& ", one):
        return "equality field by field"
    if f.name == "with" or (f.name == "head" and f.params.strip() == "self"):
        return "a struct taken apart field by field"
    if f.name in ("equal", "only", "is_listed"):
        return "a comparison of slices by hand"
    return None


def point_4(paths, fns):
    """Equality, order, copying, conversion and printing written by hand."""
    for f in fns:
        if by_hand(f):
            yield f.path, f.line, f"fn {f.name}: {by_hand(f)}"


def required(f):
    """The facts that a function requires, each by itself."""
    for m in re.finditer(r"(requires|ensures)\s*\w*\s*\{(.*?)\}(?=\s*(?:requires|ensures|$|\{))", f.clauses, re.S):
        for x in re.split(r" × ", m[2]) if m[1] == "requires" else []:
            x = re.sub(r"\s+", " ", x).strip()
            while x.startswith("(") and x.endswith(")"):
                x = x[1:-1]
            x = re.sub(r"^\(+", "", x)
            yield re.sub(r"\)+$", "", x) if x.count("(") < x.count(")") else x


def point_5(paths, fns):
    """A fact that stands in three or more contracts, and parameters that travel together."""
    facts, groups = collections.defaultdict(set), collections.defaultdict(list)
    for f in fns:
        for x in required(f):
            facts[x].add((f.path, f.line, f.name))
        for g in GROUPS:
            if set(g.split()) <= set(names_of(f.params)) and not (g == "table index" and "handle" in names_of(f.params)):
                groups[g].append(f)
    for x, who in facts.items():
        if len(who) >= 3:
            yield *min(who)[:2], f"fact `{x}` in {len(who)} contracts"
    for g, who in groups.items():
        if len(who) >= 3:
            yield who[0].path, who[0].line, f"parameters {', '.join(g.split())} together in {len(who)} functions"


def point_6(paths, fns):
    """Buffers with a length beside them, and lists searched by hand."""
    for f in fns:
        params = names_of(f.params)
        lengths = [k for k, t in params.items() if k in ("n", "used", "len") and t == "usize"]
        slices = [k for k, t in params.items() if "[" in t or t.startswith("&")]
        if lengths and slices:
            yield f.path, f.line, f"fn {f.name}: {', '.join(slices)} with {', '.join(lengths)} beside"
        if f.name in ("search", "place_for", "length_in", "is_listed"):
            yield f.path, f.line, f"fn {f.name}: a list searched by hand"
    for path in paths:
        for t in types(path):
            if t.kind == "struct" and any("[u8" in x for x in t.parts) and any(re.match(r"pub (used|shown|len)", x) for x in t.parts):
                yield path, t.line, f"struct {t.name}: a buffer with its length beside"


def point_7(paths, fns):
    """A switch on which step to run, tables of functions."""
    for f in fns:
        m = re.search(r": (Way|Wanted)\b", f.params)
        if m:
            yield f.path, f.line, f"fn {f.name}: {m[1]} is handed down"
        arms = re.findall(r"b'.' => (\w[\w:<>]*)\(", f.body)
        if len(arms) >= 4:
            yield f.path, f.line, f"fn {f.name}: a function for each of {len(arms)} letters"


def point_8(crate):
    """Answers that say no more than the check tries by itself."""
    for path in sorted(glob.glob(f"crates/{crate}/proofs/**/Answers.antt", recursive=True)):
        text = open(path).read()
        for m in re.finditer(r"^([\w+-]+)((?: \w+)*) =\n?(.*?)(?=\n\n|\Z)", text, re.M | re.S):
            if m[3].strip() in ("search rules", "omega arith", "grind arith"):
                yield path, text.count("\n", 0, m.start()) + 1, f"{m[1]} = {m[3].strip()}"


def sources(crate):
    return sorted(glob.glob(f"crates/{crate}/src/**/*.rt", recursive=True))


def places(crate):
    paths = sources(crate)
    fns = [f for path in paths for f in functions(path)]
    for point, count in zip("1234567", (point_1, point_2, point_3, point_4, point_5, point_6, point_7)):
        for path, line, what in count(paths, fns):
            yield Place(point, crate, path, line, what)
    for path, line, what in point_8(crate):
        yield Place("8", crate, path, line, what)


def like_pairs(fns):
    """Pairs of functions whose bodies are much the same, word by word."""
    for i, a in enumerate(fns):
        for b in fns[i + 1 :]:
            x, y = a.body.split(), b.body.split()
            same_count = a.params.count(",") == b.params.count(",")
            if min(len(x), len(y)) >= 6 and same_count and difflib.SequenceMatcher(None, x, y).ratio() > 0.72:
                yield a, b


def print_second(crates):
    own = r"\b\w+::(?:Is|Bad|Refused|Unsaved|Unwritten|NoRecord|Absent|Missing|Astray|Unfit|Above|None)\b"
    said = r"0 for none|or the number of|0 where|0 before any|number of (?:the|a) refusal"
    for crate in crates:
        text = "".join(open(path).read() for path in sources(crate))
        pairs = list(like_pairs([f for path in sources(crate) for f in functions(path)]))
        both = {f.name for pair in pairs for f in pair}
        updates = len(re.findall(r"^\s+\w+ [+-]= \d+;", text, re.M))
        measures = 0
        for path in glob.glob(f"crates/{crate}/proofs/**/Invariants.antt", recursive=True):
            measures += len(re.findall(r"decreases-loop[\w-]* :", open(path).read())) if "+" not in path else 0
        print(
            f"{crate:11} 1: {len(re.findall(own, text)):3} uses, {len(re.findall(said, text)):2} comments | "
            f"2: {len(pairs):3} pairs of {len(both):2} functions | 3: {updates:2} updates, {measures:2} loop measures"
        )


def print_counts(crates, found):
    print(f"{'crate':12}" + "".join(f"{p:>5}" for p in POINTS) + "   functions")
    for crate in crates:
        row = collections.Counter(x.point for x in found if x.crate == crate)
        print(f"{crate:12}" + "".join(f"{row[p]:5}" for p in POINTS) + f"   {sum(len(functions(path)) for path in sources(crate))}")
    row = collections.Counter(x.point for x in found)
    print(f"{'all':12}" + "".join(f"{row[p]:5}" for p in POINTS))


def main():
    reader = argparse.ArgumentParser(usage=__doc__.split("usage: ")[1].split("\n")[0])
    reader.add_argument("root", nargs="?", default=".")
    reader.add_argument("--list", choices=POINTS)
    reader.add_argument("--second", action="store_true")
    words = reader.parse_args()
    os.chdir(words.root)
    crates = [x.split(":")[0].split()[0] for x in open("crates.txt") if x.strip() and not x.startswith("#")]
    if words.second:
        print_second(crates)
        return
    found = [x for crate in crates for x in places(crate)]
    if words.list:
        for x in sorted(found, key=lambda x: (crates.index(x.crate), x.path, x.line)):
            if x.point == words.list:
                print(f"{x.path}:{x.line}: {x.what}")
        return
    print_counts(crates, found)


if __name__ == "__main__":
    main()
