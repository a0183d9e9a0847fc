#!/usr/bin/env python3
"""Brings this repository's own definitions and lemmas to today's spelling: words in snake case, types in camel case.

usage: python3 tools/respell.py    at the top of the repository, once, after the toolchain's own script

A name of our own is one that a file of specs/ or proofs/ defines, or a field or constructor of a record or data type there.
It is respelled in the file that defines it, in each file that imports it, and, for a field, behind a dot anywhere.
Names that Rattle makes (those of goals and steps), names of the library, comments, strings and code keep their spelling.
It says which names fall together with another word of a file, as with a function of the code, whose contract names both; a name that must not is in OTHERWISE.
"""

import collections
import glob
import os
import re

WORD = r"[^\s(){}\[\];,.⌜⌝«»\"]+"
TOKEN = re.compile(WORD)
USE = re.compile(r"^(?:pub )?(?:ghost )?use (Rattle\.[^{;\n]*?)\.\{([^}]*)\}", re.M)
# Status-parts is a record of what is read back; StatusParts is a type of the code.
OTHERWISE = {"Status-parts": "StatusPartsRead"}
MADE = ("Answers.antt", "Invariants.antt", "Proof.antt")


def to_day(name):
    """The name as it is spelled today."""
    if name in OTHERWISE:
        return OTHERWISE[name]
    parts = name.split("-")
    if name[0].isupper():
        return parts[0] + "".join(p[:1].upper() + p[1:] for p in parts[1:])
    return "_".join(parts)


def kebab(name):
    return bool(re.fullmatch(r"[^\W\d][\w']*(-[\w']+)+", name))


def own_crates():
    return {os.path.basename(d) for d in glob.glob("crates/*") if os.path.isdir(d)}


def antt_files():
    return sorted(f for kind in ("specs", "proofs") for f in glob.glob(f"crates/*/{kind}/**/*.antt", recursive=True))


def spans(text, comment):
    """The text cut into (is it code, piece): comments and strings are no code."""
    out, at = [], 0
    for m in re.finditer(comment + r"[^\n]*|\"(?:\\.|[^\"\\\n])*\"", text):
        out.append((True, text[at:m.start()]))
        out.append((False, m.group()))
        at = m.end()
    out.append((True, text[at:]))
    return out


def defined(path, text):
    """Names that a file defines at its top level, and its fields and constructors."""
    top, fields = set(), set()
    made = os.path.basename(path) in MADE
    block, module = None, False
    for line in text.split("\n"):
        if line.lstrip().startswith("--") or not line.strip():
            continue
        deep = len(line) - len(line.lstrip())
        if deep == 0:
            module = bool(re.match(r"(?:pub )?module ", line))
        head = re.match(r"\s*(?:(?:abbrev|unfoldable|mutual|pub) )*(?:(record|data) )?(" + WORD + r")", line)
        if (deep == 0 or module and deep == 2) and not re.match(r"(?:pub )?module ", line):
            block = deep if head and head.group(1) else None
            if head and kebab(head.group(2)) and (" : " in line or block is not None):
                if not (made and re.search(r" : (?:goal|need)\.", line)):
                    top.add(head.group(2))
        elif block is not None and deep > block:
            m = re.match(r"\s+(?:pub )?(" + WORD + r"(?: " + WORD + r")*) :", line)
            if m:
                fields |= {n for n in m.group(1).split() if kebab(n)}
    return top, fields


def imports(text):
    """What a file imports: (path, name, name here)."""
    found = []
    for m in USE.finditer(text):
        for item in re.split(r",(?![^{]*\})", m.group(2)):
            words = item.replace("«", "").replace("»", "").split()
            if words:
                found.append((m.group(1), words[0], words[2] if len(words) == 3 and words[1] == "as" else words[0]))
    for m in re.finditer(r"^(?:pub )?(?:ghost )?use (?!Rattle\.)([\w.+]+)\.\{([^}]*)\}", text, re.M):
        for item in m.group(2).split(","):
            words = item.split()
            if words:
                found.append((m.group(1), words[0], words[-1]))
    return found


def respelled(text, names, comment):
    def token(m):
        return names.get(m.group(), m.group())

    return "".join(TOKEN.sub(token, piece) if code else piece for code, piece in spans(text, comment))


def main():
    crates = own_crates()
    texts = {f: open(f, encoding="utf-8").read() for f in antt_files() + sorted(glob.glob("crates/*/src/**/*.rt", recursive=True))}
    tops, fields, by_module = {}, set(), collections.defaultdict(set)
    for f, t in texts.items():
        if f.endswith(".antt"):
            top, own = defined(f, t)
            tops[f] = top
            fields |= own
            parts = f[:-5].split("/")[1:]
            by_module["Rattle." + ".".join(parts)] |= top | own
    said, count = [], 0
    for f, t in sorted(texts.items()):
        comment = "--" if f.endswith(".antt") else "//"
        names, foreign = set(tops.get(f, ())), set()
        for path, name, here in imports(t):
            crate = path.split(".")[1] if path.startswith("Rattle.") else ""
            if crate in crates and name in by_module.get(path, ()):
                names.add(name)
            elif kebab(name):
                foreign.add(name)
            if here != name and kebab(here):
                names.add(here)
        names |= fields - foreign - names
        words = {m.group() for code, piece in spans(t, comment) if code for m in TOKEN.finditer(piece)}
        if "/specs/" in f:
            names |= {n for n in words if kebab(n)} - foreign
        for m in re.finditer(r"^(?:ghost )?use Rattle\.(\w+)\.[^{;\n]* as (" + WORD + ")", t, re.M):
            if m.group(1) in crates:
                names |= {w.group(1) for w in re.finditer(r"\b" + re.escape(m.group(2)) + r"\.(" + WORD + ")", t) if kebab(w.group(1)) and m.group(2) not in ("goal", "need", "given", "step")}
                if kebab(m.group(2)):
                    names.add(m.group(2))
        to = {n: to_day(n) for n in names if n in words}
        for n in sorted(to):
            others = {m for m in to if to[m] == to[n] and m != n}
            if to[n] in words or others or n in foreign:
                said.append(f"{f}: {n} would fall together with {to[n]}")
        new = respelled(t, to, comment)
        if new != t:
            count += 1
            open(f, "w", encoding="utf-8").write(new)
    print("\n".join(said))
    print(f"respell: {count} files; {len(said)} names to look at")


if __name__ == "__main__":
    main()
