#!/usr/bin/env python3
"""Lists the places in crates/*/src that an older form of the language may have shaped, by the point of docs/DESIGN-PASS.md.

usage: python3 tools/places.py [--count] [POINT ..]    at the top of the repository; POINT is 1 to 8, none is all

Test code is passed over (files tests.rt, crates text_tests and backplane_tests). A place is listed because its text has a shape, not because it is wrong.
"""

import collections
import glob
import re
import sys

FN = re.compile(r"(?:pub(?:\(crate\))? )?(?:extern \"C\" )?fn (\w+)[^{;]*?\((.*?)\)\s*(?:-> ([^{;]*?))?\s*(?=requires|ensures|\{|;)", re.S)
WORD = re.compile(r"\b[A-Za-z_]\w*\b|\b\d\w*\b|\"[^\"]*\"|b'[^']*'")
KEEP = set("if else match for in let mut return fn impl pub self Self Some None Ok Err true false ref while loop".split())


def sources():
    for path in sorted(glob.glob("crates/*/src/**/*.rt", recursive=True)):
        if path.endswith("tests.rt") or "_tests/" in path:
            continue
        yield path, open(path, encoding="utf-8").read()


def plain(text):
    """The code without comments, imports and clauses."""
    lines = []
    for line in text.split("\n"):
        bare = line.strip()
        if bare.startswith(("//", "ghost use", "use ", "requires", "ensures", "ghost ")):
            bare = ""
        lines.append(line if bare else "")
    return "\n".join(lines)


def grep(pattern, code=True):
    found = []
    for path, text in sources():
        for k, line in enumerate((plain(text) if code else text).split("\n"), 1):
            if re.search(pattern, line):
                found.append(f"{path}:{k}: {line.strip()}")
    return found


def functions():
    """Each function with its header and body."""
    for path, text in sources():
        code = plain(text)
        for m in re.finditer(r"\bfn (\w+)", code):
            depth, begun = 0, False
            for at in range(m.start(), len(code)):
                if code[at] == "{":
                    depth, begun = depth + 1, True
                elif code[at] == "}":
                    depth -= 1
                elif code[at] == ";" and not begun:
                    break
                if begun and depth == 0:
                    text_of = code[m.start():at + 1]
                    yield path, code.count("\n", 0, m.start()) + 1, m.group(1), text_of
                    break


def shape(body):
    lines = [l.strip() for l in body.split("\n") if l.strip()]
    names = {}

    def turn(m):
        w = m.group(0)
        return w if w in KEEP else "_"

    return "\n".join(WORD.sub(turn, l) for l in lines)


def twins():
    groups = collections.defaultdict(list)
    for path, line, name, body in functions():
        lines = [l for l in body.split("\n") if l.strip()]
        if len(lines) >= 4:
            groups[shape(body)].append(f"{path}:{line}: fn {name}")
    found = []
    for places in groups.values():
        if len(places) > 1:
            found.append(" ~ ".join(places))
    return sorted(found)


def clauses():
    """Clauses that three or more functions have to the letter, and facts that are premises in three or more."""
    seen = collections.defaultdict(list)
    premises = collections.Counter()
    for path, text in sources():
        for k, line in enumerate(text.split("\n"), 1):
            m = re.match(r"\s*(?:requires|ensures) (?:\w+ )?\{ (.*) \}$", line)
            if m:
                seen[m.group(1)].append(f"{path}:{k}")
                for part in m.group(1).split(" → ")[:-1]:
                    premises[re.sub(r"\(.*?\)", "(..)", part)] += 1
    found = [f"{len(v)} times: {c[:150]}: {v[0]} .." for c, v in seen.items() if len(v) > 2]
    found += [f"premise in {n} clauses: {p[:120]}" for p, n in premises.items() if n > 2]
    return sorted(found)


def parameters():
    """Sets of two or more parameters that three or more functions take."""
    takes = {}
    for path, text in sources():
        code = plain(text)
        for m in re.finditer(r"\bfn (\w+)(?:<[^{;]*?>)?\(([^{;]*?)\)\s*(?:->|\{|$|\n)", code):
            names = frozenset(re.findall(r"(\w+): ", m.group(2)))
            takes[f"{path}:{code.count(chr(10), 0, m.start()) + 1}: fn {m.group(1)}"] = names
    sets = collections.defaultdict(set)
    all_names = list(takes.items())
    for i, (a, x) in enumerate(all_names):
        for b, y in all_names[i + 1:]:
            both = x & y
            if len(both) > 1:
                sets[both] |= {a, b}
    return sorted(f"({', '.join(sorted(s))}) in {len(p)}: " + "; ".join(sorted(p)) for s, p in sets.items() if len(p) > 2)


def proof_lines():
    found = []
    for path in sorted(glob.glob("crates/*/proofs/**/*.antt", recursive=True)):
        found.append(f"{path}: {sum(1 for l in open(path, encoding='utf-8') if l.strip())} lines")
    return found


POINTS = {
    "1": [
        ("functions that write or lay and answer a bool", lambda: grep(r"fn .*&mut .*-> bool")),
        ("variants that say nothing is there", lambda: grep(r"^\s+(Unknown|Nothing|Missing|Unset),")),
        ("flags as fields", lambda: grep(r"^\s+(pub(\(crate\))? )?\w+: bool,")),
        ("numbers for kinds and refusals", lambda: grep(r"fn .*\b(id|kind|code|key|number|byte)\w*(: u\d+\b|\(self\) -> u\d+)|\((u8|u16|u32), |\bconst [A-Z_]+: u32")),
    ],
    "2": [("functions of one shape", twins)],
    "3": [
        ("loops over a range", lambda: grep(r"\bfor \w+ in [^{]*\.\.")),
        ("other loops", lambda: grep(r"\b(for .* in .*\{|while|loop)\b(?!.*\.\.)") + grep(r"\bfor \w+ in (?!.*\.\.)")),
        ("indexes behind a test", lambda: grep(r"if \w+ < .*\.len\(\)|[<>]=? \w+\.len\(\) \{|if k < 1\d|&& \w+\[")),
    ],
    "4": [
        ("conversions that are functions of a type", lambda: grep(r"fn (of|byte|from_\w+|number|numbered|row|text|to_\w+|as_\w+)\(")),
        ("impls of std's traits", lambda: grep(r"^impl.* (PartialEq|Eq|PartialOrd|Ord|Clone|Copy|From<.*>|TryFrom<.*>|fmt::Display|Default|Iterator) for ")),
    ],
    "5": [("facts in three or more clauses", clauses), ("parameters that travel together", parameters)],
    "6": [
        ("arrays of a fixed size", lambda: grep(r"\[\w+; \w+\]")),
        ("buffers with a length", lambda: grep(r"&mut \[u8.*-> (usize|Option<usize>)")),
        ("vectors", lambda: grep(r"\bVec<")),
    ],
    "7": [
        ("enums that are taken to choose a step", lambda: grep(r"\b(part|form|row|kind|step|which|mode): [A-Z]\w+\b[,)]")),
        ("closures, bounds of closures, dyn", lambda: grep(r"\|\w*\| |\bF: Fn|impl Fn|\bdyn ")),
    ],
    "8": [("proof files", proof_lines)],
}


def main():
    words = [w for w in sys.argv[1:] if w != "--count"]
    for point in words or sorted(POINTS):
        for what, places in POINTS[point]:
            found = places()
            print(f"point {point}, {what}: {len(found)}")
            if "--count" not in sys.argv:
                for place in found:
                    print("    " + place)


main()
