#!/usr/bin/env python3
"""Spells the repository's own names as its libraries do: words in snake case, facts and types in camel case.

usage: tools/respell.py          at the top, on files that have been brought to today's spelling of the libraries

    trees-in  ->  trees_in        Rows-laid  ->  RowsLaid

A name that a file imports from a library stays there. Rust's own names have no dash; strings, comments and pages are
left alone. A line that begins 'look:' names two spellings that become
one in a file: a definition and the Rust function that it defines may share a name, and nothing else should. A second
run changes nothing.
"""

import os
import re

NAME = re.compile(r"[^\s(){}.;,@\"«»\[\]:&|!]+")
DASHED = re.compile(r"◌?[A-Za-zμ][\w']*(-[\w']+)+◌?")
DECLARED = re.compile(r"(?m)^ *(?:(?:pub|abbrev|unfoldable|record|data|ruleset) +)*([^\s(){}:]+)(?: [^:\n]*)? :(?: |$)")
USE = re.compile(r"\b(?:pub )?use\s+([^\s;{]+?)\.?\{([^}]*)\}")
TEXT = r"\"(?:[^\"\\]|\\.)*\""
# A prime ends a name in antt and stands round a byte in Rust.
LITERAL = {"--": re.compile(TEXT), "//": re.compile(TEXT + r"|b?'(?:\\[^']+|[^\\'])'")}


def read(path):
    with open(path, encoding="utf-8") as f:
        return f.read()


def crates():
    names = []
    for line in read("crates.txt").splitlines():
        line = line.split("#")[0].strip()
        if line:
            names.append(line.split(":")[0].split()[0])
    return names


def texts():
    for folder, dirs, files in os.walk("crates"):
        dirs[:] = sorted(d for d in dirs if d not in ("out", "target"))
        for f in sorted(files):
            if f.endswith((".rt", ".antt")):
                yield os.path.join(folder, f)


def spelled(name):
    if name.lstrip("◌")[0].isupper():
        return "".join(p[:1].upper() + p[1:] for p in name.split("-"))
    return name.replace("-", "_")


def split_comment(line, mark):
    """The part of a line before a comment, and the comment."""
    at = 0
    while True:
        at = line.find(mark, at)
        if at < 0:
            return line, ""
        before = line[:at]
        if before.count('"') % 2 == 0 and (not before or before[-1].isspace()):
            return before, line[at:]
        at += len(mark)


def outside_strings(code, mark, change):
    out, last = [], 0
    for m in LITERAL[mark].finditer(code):
        out += [change(code[last : m.start()]), m.group()]
        last = m.end()
    return "".join(out) + change(code[last:])


def main():
    own = set(crates())
    library, declared, imports = set(), set(), {}
    for p in texts():
        t = read(p)
        here = set()
        for head, items in USE.findall(t):
            steps = head.split(".")
            if steps[0] == "Rattle" and len(steps) > 1 and steps[1] in own or steps[0] == "crate":
                continue
            for item in items.split(","):
                words = item.split()
                if words:
                    here.add(words[0])
        imports[p] = here
        library |= here
        if p.endswith(".antt"):
            declared |= {n for n in DECLARED.findall(t) if DASHED.fullmatch(n)}
    moved, clashes, new_texts = {}, [], {}

    def turn(here, seen):
        def one(m):
            n = m.group()
            seen.add(n)
            if not DASHED.fullmatch(n) or n in here or n in library and n not in declared:
                return n
            moved[n] = spelled(n)
            return moved[n]

        return lambda code: NAME.sub(one, code)

    for p in texts():
        seen, lines = set(), []
        change = turn(imports[p], seen)
        mark = "--" if p.endswith(".antt") else "//"
        for line in read(p).splitlines(keepends=True):
            code, comment = split_comment(line, mark)
            lines.append((outside_strings(code, mark, change), comment))
        new_texts[p] = lines
        meet = {}
        for n in seen:
            to = moved[n] if n in moved and n not in imports[p] else n
            if to in meet and meet[to] != n:
                clashes.append(f"look: {p}: {min(n, meet[to])} and {max(n, meet[to])} are both {to} now")
            meet[to] = n
    for p, lines in new_texts.items():
        text = "".join(code + comment for code, comment in lines)
        if text != read(p):
            with open(p, "w", encoding="utf-8") as f:
                f.write(text)
    print("\n".join(sorted(clashes) + [f"{len(moved)} names"]))
    return 0


if __name__ == "__main__":
    raise SystemExit(main())
