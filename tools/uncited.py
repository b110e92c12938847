#!/usr/bin/env python3
"""Lists definitions and laws that nothing cites, and imports that their file doesn't use. Run from the root; 1 where there are any.

A definition is cited by a token of its own file outside it, or, where it is pub, of a file that imports it from its module; what only
uncited ones cite is uncited as well. Kept are: what the documents name, the answers and invariants of a function's proof (Answers.antt, Invariants.antt), closed
examples (Examples.antt), and in `demands` the types and their values. Fields and constructors are never listed; a constructor's use is its
type's. A `pub use` in a .rt is a use.
"""
import glob
import re
import sys

TOKEN = re.compile(r"[^\s(){}\[\];,.\"`⌜⌝]+")
HEAD = re.compile(r"( *)(?:(?:abbrev|unfoldable|opaque) )?(?:pub )?(?:(record|data|ruleset) )?(\S+)(.*)$")
IMPORT = re.compile(r"^(?:ghost )?use ([^\s{;]+?)(?:\.\{([^}]*)\}| as (\S+?))?;?$")
RT_USE = re.compile(r"^use ([\w:]+?)(?: as (\w+))?;$")
WORDS = {"use", "module", "unfolding", "where", "mod", "}"}


def tokens(line):
    return TOKEN.findall(line)


def bare(line, mark):
    """The line without its comment."""
    return re.sub(r"(^|\s)" + mark + r".*$", "", line)


def path_of(module):
    """The file of a module of the repository, by its name inside or outside its crate; None for the toolchain's."""
    parts = module.replace("«", "").replace("»", "").split(".")
    if parts[0] != "Rattle" or len(parts) < 4 or parts[2] not in ("specs", "proofs"):
        return None
    return "crates/" + "/".join(parts[1:]) + ".antt"


class Definition:
    def __init__(self, path, line, name, kind, rest):
        self.path, self.line, self.name, self.kind, self.rest = path, line, name, kind, rest
        self.text = ""
        self.names = [name]  # with the constructors
        self.uncited = False


class File:
    def __init__(self, path):
        self.path, self.definitions, self.imports = path, [], []
        self.tokens = []  # (token, the definition that it stands in)
        self.text = []  # (line, the definition that it stands in), without imports
        antt = path.endswith(".antt")
        lines = open(path, encoding="utf-8").read().split("\n")
        self.lines = [bare(line, "--" if antt else "//") for line in lines]
        if antt:
            self.antt_lines()
        else:
            self.rt_lines()

    def add_import(self, number, line):
        match = IMPORT.match(line)
        if not match:
            return False
        module, names, alias = match.groups()
        if names is None:
            self.imports.append((number, module, None, alias or module.split(".")[-1]))
            return True
        for name in filter(None, (n.strip() for n in names.split(","))):
            first, *rest = re.split(r" as ", name)
            self.imports.append((number, module, first, rest[0] if rest else first))
        return True

    def rt_lines(self):
        for number, line in enumerate(self.lines, 1):
            use = RT_USE.match(line.strip())
            if use:
                self.imports.append((number, None, None, use[2] or use[1].split("::")[-1]))
            elif not (line.startswith("ghost use") and self.add_import(number, line)):
                self.text.append((line, None))
                self.tokens += [(t, None) for t in tokens(line)] + [(t, None) for t in re.findall(r"\w+", line)]

    def antt_lines(self):
        current, level = None, 0  # the definition that a line stands in, and how far those of its module are set in
        for number, line in enumerate(self.lines, 1):
            if not line.strip() or self.add_import(number, line):
                continue
            if re.match(r"(pub )?mod ", line):
                continue
            head = HEAD.match(line)
            if head and head[3] == "module":
                current, level = None, len(head[1]) + 2
            elif head and len(head[1]) <= level and head[3] not in WORDS:
                level = min(level, len(head[1]))
                if head[2] or re.match(r" :(\s|$)", head[4]):
                    current = Definition(self.path, number, head[3], head[2], head[4])
                    current.text = line.strip()
                    self.definitions.append(current)
            if current and current.kind == "data":
                constructor = re.match(r" +(\S+) :", line)
                if constructor:
                    current.names.append(constructor[1])
            self.text.append((line, current))
            self.tokens += [(t, current) for t in tokens(line)]


def is_in(name, have, text):
    """Whether a name is among the tokens; one with places for arguments, where its parts are."""
    if re.search(r"[()\[\]{}]", name):
        return name in text
    if "◌" in name:
        return all(part in have for part in name.split("◌") if part)
    return name in have


def documented():
    """What the documents have between backticks."""
    named = set()
    for path in glob.glob("docs/*.md") + ["README.md", "NOTICE"]:
        for span in re.findall(r"`([^`\n]+)`", open(path, encoding="utf-8").read()):
            named |= set(tokens(span))
    return named


def kept(definition, named, demands):
    parts = definition.path.split("/")
    if definition.path.endswith("/Examples.antt") or definition.name in named:
        return True
    if parts[-1] in ("Answers.antt", "Invariants.antt") and re.match(r"(abbrev )?pub ", definition.text):
        return True
    if parts[1] == "demands":
        return parts[2] == "specs" or any(t in demands for t in tokens(definition.rest)[1:2])
    return False


def citations(files):
    """For each definition, the places that cite it: each the definition that cites, or None."""
    cited = {}
    by_path = {f.path: f for f in files}
    for file in files:
        own = {}
        for definition in file.definitions:
            for name in definition.names:
                own.setdefault(name, []).append(definition)
        named, whole = {}, {}
        for _, module, name, alias in file.imports:
            target = by_path.get(path_of(module)) if module else None
            if target and name:
                found = [d for d in target.definitions if name in d.names]
                named.setdefault(alias, []).extend(found)
            elif target:
                whole.setdefault(alias, []).extend(target.definitions)
        for i, (token, place) in enumerate(file.tokens):
            for definition in own.get(token, []) + named.get(token, []):
                if definition is not place:
                    cited.setdefault(definition, []).append(place)
            if token in whole and i + 1 < len(file.tokens):
                after = file.tokens[i + 1][0]
                for definition in whole[token]:
                    if after in definition.names:
                        cited.setdefault(definition, []).append(place)
        for alias, found in named.items():
            if "_" in alias and is_in(alias, {t for t, _ in file.tokens}, ""):
                for definition in found:
                    cited.setdefault(definition, []).append(None)
    return cited


def main():
    paths = sorted([p for p in glob.glob("crates/**/*.antt", recursive=True) if "/out/" not in p] + [p for p in glob.glob("crates/**/*.rt", recursive=True) if "/out/" not in p])
    files = [File(path) for path in paths]
    definitions = [d for f in files for d in f.definitions]
    demands = {d.name for d in definitions if d.path.startswith("crates/demands/specs/")}
    named = documented()
    cited = citations(files)
    moved = True
    while moved:
        moved = False
        for d in definitions:
            if d.uncited or kept(d, named, demands):
                continue
            if all(place and place.uncited for place in cited.get(d, [])):
                d.uncited = moved = True
    listed = [f"{d.path}:{d.line}: nothing cites {d.name}" for d in definitions if d.uncited]
    for file in files:
        have = {t for t, place in file.tokens if not (place and place.uncited)}
        text = "\n".join(line for line, place in file.text if not (place and place.uncited))
        for number, _, _, alias in file.imports:
            if not is_in(alias, have, text):
                listed.append(f"{file.path}:{number}: {alias} is imported and not used")
    print("\n".join(sorted(listed)) or "nothing is uncited")
    sys.exit(1 if listed else 0)


main()
