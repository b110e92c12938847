#!/usr/bin/env python3
"""Turns the repository's own names in definitions, laws and proofs to snake case: `fibSamples` and `samples-length` become `fib_samples` and `samples_length`.

usage: tools/respell.py            at the top of the repository

Types, modules, functions of src/, names of the kit and names that the checker makes keep their spelling. It tells of names that would fall together in a file.
It also respells the names that stand in back quotes in comments and pages, and the text of must-fail edits. Run once, when the repository came to this Rattle.
"""

import collections
import os
import re
import sys

TOKEN = re.compile(r"[^\s(){}.,;:\"«»\[\]|λ`⌜⌝∷]+")
NAME = re.compile(r"[a-z][A-Za-z0-9_'′₀₁₂₃₄₅₆₇₈₉₊-]*\Z")
# laws that have the name of a definition beside them
TWICE = {"or-else", "text-of"}
ODD = re.compile(r"-|[a-z0-9][A-Z]|′")


def files(ending):
    for folder, dirs, names in os.walk("crates"):
        dirs[:] = sorted(d for d in dirs if d not in ("out", "target"))
        for n in sorted(names):
            if n.endswith(ending):
                yield os.path.join(folder, n)


def snake(name):
    name = name.replace("-", "_").replace("′", "'")
    name = re.sub(r"(?<=[a-z0-9])([A-Z])(?![A-Z0-9])", lambda m: "_" + m[1].lower(), name)
    return re.sub(r"(?<=[a-z])([A-Z0-9]*[A-Z][A-Z0-9]*)", lambda m: "_" + m[1].lower(), name)


def spell(name, camel):
    """The name in snake case; a law that would have a definition's name ends in _lem."""
    new = snake(name)
    if name == "not8svx":
        # so the list of refusals spells it
        return "not_8svx"
    if name in TWICE:
        return new + "_lem"
    return new + "_lem" if new in camel and "-" in name else new


def odd(name):
    return name == "not8svx" or bool(NAME.match(name) and ODD.search(name)) and not re.fullmatch(r"[a-z]?-?\d*", name)


def code_of(line, mark):
    """The line's code and its comment."""
    m = re.search(r"(?:^|\s)" + mark + r"(?:\s|$)", line)
    return (line[: m.start()], line[m.start() :]) if m else (line, "")


def own(path, crates):
    m = re.match(r"Rattle\.(\w+)\.(specs|proofs)\b(.*)", path)
    return bool(m) and m[1] in crates and not re.match(r"\.(contracts|declared)\b", m[3]) and not re.search(r"\.(Tie|Statement|Goals|Given|Symbol|TheLaws|TheVariants|TheConstants|Lts|contracts|declared)\b", m[3] + ".")


def survey(crates):
    """Names that come from elsewhere, fields of own records, and own names."""
    kit, fields, names = set(), set(), set()
    for p in files(".antt"):
        inside = False
        for line in open(p, encoding="utf-8"):
            code, _ = code_of(line.rstrip("\n"), "--")
            m = re.match(r"\s*(?:pub )?use ([^\s{]+?)\.?(?:\{(.*)\})?(?: as \S+)?\s*$", code)
            if m:
                if not own(m[1], crates):
                    kit.update(TOKEN.findall(m[2] or ""))
                continue
            m = re.match(r"(\s*)(?:(?:unfoldable|abbrev|pub|pattern|ruleset|let)\s+)*(?:(record|data)\s+)?([^\s(){}:]+)(\s*\{[^}]*\})?[^=]*\s:(\s|$)", code)
            if m and odd(m[3]):
                names.add(m[3])
            if re.match(r"\s*(?:pub )?(?:record|data)\b.*\bwhere\s*$", code):
                inside = True
                continue
            if inside and code.strip() and not code.startswith((" ", "\t")):
                inside = False
            if inside and (m := re.match(r"\s+(?:pub )?([^\s(){}:]+)\s*:", code)):
                fields.add(m[1])
    return kit, fields, names


def respell(code, kit, fields, names, camel, generated, seen):
    """A line of code respelled; generated: names after a dot may be the checker's."""
    out, last = [], 0
    for m in TOKEN.finditer(code):
        t = m[0]
        if not odd(t) or t in kit:
            continue
        if m.start() and code[m.start() - 1] == ".":
            if t not in fields and (generated or t not in names):
                seen["kept after a dot"].add(t)
                continue
        if m.start() and code[m.start() - 1] == "·":
            continue
        out.append(code[last : m.start()] + spell(t, camel))
        last = m.end()
    return "".join(out) + code[last:]


def quoted(text, words, camel):
    """Names in back quotes: those whose new spelling is a word of the turned files."""
    return re.sub(r"`[^`\n]*`", lambda q: TOKEN.sub(lambda m: spell(m[0], camel) if odd(m[0]) and spell(m[0], camel) in words else m[0], q[0]), text)


def together(path, before, after):
    """Names of one file that were two and are one."""
    at = collections.defaultdict(set)
    for a, b in zip(before.split("\n"), after.split("\n")):
        path_of_use = r"^(\s*(?:pub )?use [^{]*)"
        for x, y in zip(TOKEN.findall(re.sub(path_of_use, "", code_of(a, "--")[0])), TOKEN.findall(re.sub(path_of_use, "", code_of(b, "--")[0]))):
            at[y].add(x)
    return [f"{path}: {', '.join(sorted(x))} are now {y}" for y, x in sorted(at.items()) if len(x) > 1]


def main():
    crates = {l.split(":")[0].split()[0] for l in open("crates.txt") if l.strip() and not l.startswith("#")}
    kit, fields, names = survey(crates)
    camel = {snake(n) for n in names if "-" not in n}
    seen, said, turned, words = collections.defaultdict(set), [], 0, set()
    functions = {m[1] for p in files(".rt") for m in re.finditer(r"\bfn (\w+)", open(p, encoding="utf-8").read())}
    for p in files(".antt"):
        before = open(p, encoding="utf-8").read()
        lines, generated = [], bool(re.search(r"/(Proof|Answers|Invariants)\.antt$", p))
        for line in before.split("\n"):
            code, comment = code_of(line, "--")
            m = re.match(r"\s*(?:pub )?use ([^\s{]+?)\.?(?:\{|\s*$| as )", code)
            if not m or own(m[1], crates):
                code = respell(code, kit, fields, names, camel, generated, seen)
            words.update(TOKEN.findall(code))
            lines.append(code + comment)
        after = "\n".join(lines)
        if after != before:
            said += together(p, before, after)
            open(p, "w", encoding="utf-8").write(after)
            turned += 1
    for p in [*files(".rt"), *files(".edit")]:
        before = open(p, encoding="utf-8").read()
        proof = p.endswith(".edit") and ".antt" in before.split("\n")[0]
        lines = []
        for line in before.split("\n"):
            code, comment = (line, "") if proof else code_of(line, "//")
            parts = re.split(r'(b?"(?:[^"\\]|\\.)*")', code)
            parts[::2] = [TOKEN.sub(lambda m: spell(m[0], camel) if odd(m[0]) and (m[0] in names or m[0] in fields) and m[0] not in kit else m[0], x) for x in parts[::2]]
            lines.append("".join(parts) + comment)
        after = "\n".join(lines)
        if after != before:
            open(p, "w", encoding="utf-8").write(after)
            turned += 1
    for p in [*files(".antt"), *files(".rt"), "README.md", *(os.path.join(d, n) for d, _, ns in os.walk("docs") for n in ns if n.endswith(".md"))]:
        before = open(p, encoding="utf-8").read()
        mark = "--" if p.endswith(".antt") else "//"
        if p.endswith(".md"):
            after = quoted(before, words, camel)
        else:
            after = "\n".join(c + quoted(d, words, camel) for c, d in (code_of(l, mark) for l in before.split("\n")))
        if after != before:
            open(p, "w", encoding="utf-8").write(after)
            turned += 1
    both = sorted(snake(n) for n in names if snake(n) in functions)
    for x, y in sorted(seen.items()):
        print(f"{x}: {' '.join(sorted(y))}")
    print("own names that a function has too:", " ".join(both))
    print("\n".join(said))
    print(f"{turned} files turned; {len(said)} names fell together")
    return 0


if __name__ == "__main__":
    sys.exit(main())
