#!/usr/bin/env python3
"""Tells what definitions rest on, and whether docs/DEFINITIONS.md names definitions that promises rest on.

    tools/check_definitions.py
    tools/check_definitions.py --below NAME

Public are the calls, types and traits that a crate's src/lib.rt exports. Their clauses, the ghost members of
their traits and impls, and the views of their types name definitions of specs/; these name others. Laws that proofs
alone need are not definitions. Each definition that is reached so has a comment above it, which says what it says; and
each name of docs/DEFINITIONS.md is that of one of them, and of one alone. Comments of specs/ and proofs/ have words with a low line in
backquotes alone, as names of code. What fails is told. The last line tells how many there are, and the exit status is 0
where nothing fails.

With --below it tells instead what one definition rests on, itself first, then what it names, and so on: the
file and line of each, its name, how many lines it has, and the comment above it; then the structs, enums, traits and
constants of the code that these name, and those of their fields; at the end how many they are. NAME is the name, as
IsNet, or with its crate, as teg_net.IsNet. What is of std is left out.

It reads by text, not by the grammar of Rattle: what it tells is to be looked at.
"""
import re
import sys

from common import TOP, crates_in

WORD = re.compile(r"[^\W\d][\w'\-]*")
DEFINED = re.compile(r"^ *(?:pub )?(abbrev|unfoldable|record|data) (?:pub )?([^\W\d][\w'\-]*)(.*)$")
MUTUAL = re.compile(r"^(?:abbrev |unfoldable )?mutual$")
IN_MUTUAL = re.compile(r"^  (pub )([^\W\d][\w'\-]*)( :.*)$")
TYPE = re.compile(r"^pub (?:struct|enum|trait|const) (\w+).*?(?:;$|^\};?$|\};?$|^\];$)", re.M | re.S)
LAW = re.compile(r"^ {0,2}(?:pub )?([^\W\d][\w'\-]*) :(.*)$")


def sources(pattern):
    """The files of this pattern of the crates, but for crates of one's own."""
    shared = set(crates_in(TOP))
    return [path for path in sorted(TOP.glob(f"crates/*/{pattern}")) if path.relative_to(TOP).parts[1] in shared]


def direct(text):
    """A text in which each path to specs/ or proofs/ names the crate that they stand in, and not the one that passes them on."""
    passed_on = re.compile(r"Rattle\.\w+\.(?:(specs)\.(\w+)|(proofs)\.(\w+)_proofs)\.")

    def own(found):
        crate, part = found[2] or found[4], found[1] or found[3]
        return f"Rattle.{crate}.{part}." if (TOP / "crates" / crate).is_dir() else found[0]

    return passed_on.sub(own, text)


def imports_of(text):
    """What a file's `use` lines bring in: for each name the crate and file of specs/ that it is from, and its name there."""
    found = {}
    for crate, file, names in re.findall(r"use Rattle\.(\w+)\.specs\.(\w+)\.\{([^}]*)\}", direct(text)):
        for name in filter(None, (it.strip() for it in names.split(","))):
            there, _, here = name.partition(" as ")
            found[here.strip() or there] = (crate, file, there)
    return found


def declared_by(text):
    """The types and constants of the code that a file's `use` lines bring in: for each name its crate and the name there."""
    found = {}
    for crate, path, names in re.findall(r"use Rattle\.(\w+)\.specs\.declared\.([\w.]+)\.\{([^}]*)\}", direct(text)):
        kind = re.search(r"\b[A-Z]\w*", path)[0]
        for name in filter(None, (it.strip() for it in names.split(","))):
            there, _, here = name.partition(" as ")
            found[here.strip() or there] = (crate, there if kind == "TheConstants" else kind)
    return found


class Types:
    """The structs, enums, traits and constants of the code, by crate and name: where each stands, and its lines."""

    def __init__(self):
        self.lines, self.places, self.named = {}, {}, {}
        for path in sources("src/**/*.rt"):
            self.read(path.relative_to(TOP), path.read_text())

    def read(self, path, text):
        crate, imports = path.parts[1], {}
        for other, many, one in re.findall(r"^(?:pub )?use (\w+)(?:::\w+)*::(?:\{([^}]*)\}|(\w+));", text, re.M):
            for name in filter(None, (it.strip() for it in (many or one).split(","))):
                imports[name] = crate if other in ("crate", "self", "super") else other
        for found in TYPE.finditer(text):
            lines = [line for line in found[0].splitlines() if not re.match(r"\s*(//|#\[|$)", line)]
            self.lines[crate, found[1]] = len(lines)
            self.places[crate, found[1]] = f"{path}:{text.count(chr(10), 0, found.start()) + 1}"
            self.named[crate, found[1]] = {(imports.get(it, crate), it) for it in re.findall(r"\b[A-Z]\w*", "\n".join(lines))}

    def below(self, roots):
        """These types, and all that their fields are of."""
        reached, level = set(), set(roots) & self.lines.keys()
        while level:
            reached |= level
            level = {it for at in level for it in self.named[at] & self.lines.keys() if it not in reached}
        return sorted(reached)


class Specs:
    """The definitions of all crates, by crate, file and name: of each the line above it, and what it names."""

    def __init__(self):
        self.words, self.body, self.imports, self.made_by, self.lines, self.declared = {}, {}, {}, {}, {}, {}
        for path in sources("specs/*.antt"):
            self.read(path.parts[-3], path.stem, path.read_text())

    def read(self, crate, file, text):
        self.imports[crate, file], self.declared[crate, file] = imports_of(text), declared_by(text)
        above, at, is_data, block = [], None, False, None
        for number, line in enumerate(text.splitlines(), 1):
            bare = line.strip()
            if bare.startswith("-- ") and "----" not in bare:
                above.append(bare[3:])
                continue
            if line and not line.startswith(" "):
                block = " ".join(above) if MUTUAL.match(line) else None
            defined = None if MUTUAL.match(line) else DEFINED.match(line) or (block is not None and IN_MUTUAL.match(line))
            law = LAW.match(line)
            if defined:
                at, is_data = (crate, file, defined[2]), defined[1] == "data"
                self.words[at], self.body[at], self.lines[at] = " ".join(above) or block or "", defined[3], number
            elif law and not (at and line.startswith("  ") and (is_data or bare.startswith("pub "))):
                at = None
            elif at:
                self.body[at] += "\n" + line.partition("--")[0]
                case = re.match(r" +([^\W\d][\w'\-]*) :", line)
                if is_data and case:
                    self.made_by[crate, file, case[1]] = at
            above = []

    def named(self, text, imports, crate=None, file=None):
        """The definitions that a text names, where these imports stand, in that file or in code."""
        found = set()
        for name in set(WORD.findall(text)):
            for at in ((crate, file, name), imports.get(name)):
                at = self.made_by.get(at, at)
                if at in self.words:
                    found.add(at)
                    break
        return found

    def length(self, at):
        """How many lines the definition has, without the words above it."""
        return 1 + sum(bool(line.strip()) for line in self.body[at].split("\n")[1:])

    def below(self, roots, but=()):
        """All that these definitions rest on, with them, level by level; without these others, and what they alone rest on."""
        reached, level = {}, sorted(roots)
        while level:
            reached.update(dict.fromkeys(level))
            named = [self.named(self.body[at], self.imports[at[:2]], *at[:2]) for at in level]
            level = list(dict.fromkeys(at for it in named for at in sorted(it) if at not in reached and at not in but))
        return list(reached)

    def types_of(self, reached):
        """The types and constants of the code that these definitions name."""
        found = set()
        for at in reached:
            there = self.declared[at[:2]]
            found |= {there[name] for name in set(WORD.findall(self.body[at])) if name in there}
        return found


def exported(crate):
    """The names that the crate's root file exports."""
    root = TOP / f"crates/{crate}/src/lib.rt"
    text = root.read_text() if root.is_file() else ""
    lists = re.findall(r"^pub use [\w:]+::\{([^}]*)\}", text, re.M)
    single = re.findall(r"^pub (?:use [\w:]+::|fn |struct |enum |trait )(\w+)", text, re.M)
    return {name.strip() for it in lists for name in it.split(",")} | set(single)


def clauses_of(block, depth, of_all):
    """The clauses of the public functions at this depth of a block, or of all of them."""
    head = " " * depth + (r"(?:pub )?" if of_all else "pub ") + r"fn \w+"
    return "\n".join(re.findall(rf"^{head}[^\n]*\n((?:(?! *\{{$| *fn )[^\n]*\n)*)", block, re.M))


def public_text(crate, text):
    """The parts of a source file that a public contract consists of, each with what its imports bring in."""
    names, outer = exported(crate), imports_of(text)
    for block in re.findall(r"^(?:pub trait|impl)\b.*?^\}", text, re.M | re.S):
        head = re.sub(r"^impl *(<(?:[^<>]|<[^<>]*>)*>)? *", "", block.partition("{")[0])
        kind = re.match(r"(pub trait )?(?:(\w+)(?:<.*?>)? for )?&?(\w+)", head)
        if not kind or kind[3] not in names:
            continue
        inner = outer | imports_of(block)
        if kind[1]:
            yield re.sub(r"ghost use [^;]*;|//.*", "", block), inner
        else:
            ghosts = re.findall(r"^ +ghost (\w+) = \{(.*\};$|.*\n(?:.*\n)*?    (?:\} *|    .*)\};$)", block, re.M)
            meanings = "\n".join(it for name, it in ghosts if "law" not in name and name != "closed")
            yield meanings + clauses_of(block, 4, of_all=bool(kind[2])), inner
    for name in re.findall(r"^pub fn (\w+)", text, re.M):
        if name in names:
            start = re.search(rf"^pub fn {name}\b", text, re.M).start()
            yield clauses_of(text[start:].partition("\n{\n")[0] + "\n", 0, of_all=False), outer


def listed():
    """The names of docs/DEFINITIONS.md, in the lines that tools/make_pages.py goes by."""
    page = TOP / "docs/DEFINITIONS.md"
    text = page.read_text() if page.is_file() else ""
    return [name for names in re.findall(r"^<!-- definitions ([^>]*) -->$", text, re.M) for name in names.split()]


def definitions_named(specs, name):
    """The definitions of this name, which may be CRATE.NAME."""
    return [at for at in specs.words if name in (at[2], f"{at[0]}.{at[2]}")]


def public_definitions(specs):
    """The definitions that public contracts name."""
    roots = set()
    for path in sources("src/**/*.rt"):
        crate = path.relative_to(TOP).parts[1]
        for text, imports in public_text(crate, path.read_text()):
            roots |= specs.named(text, imports)
    return roots


def bare_names():
    """The comments of specs/ and proofs/ that have a word with a low line outside backquotes."""
    for path in [*sources("specs/**/*.antt"), *sources("proofs/**/*.antt")]:
        for number, line in enumerate(path.read_text().splitlines(), 1):
            said = re.match(r"\s*--(.*)", line)
            for word in re.findall(r"\w+_\w+", re.sub("`[^`]*`", "", said[1])) if said else ():
                yield f"{path.relative_to(TOP)}:{number}: {word} stands in a comment without backquotes"


def tell_below(name):
    """Prints what the definitions of this name rest on."""
    specs = Specs()
    roots = definitions_named(specs, name)
    if not roots:
        print(f"no definition of specs/ is named {name}")
        return 1
    reached = specs.below(roots)
    for at in reached:
        where = f"crates/{at[0]}/specs/{at[1]}.antt:{specs.lines[at]} {at[2]} ({specs.length(at)} lines)"
        print(where + (f": {specs.words[at]}" if specs.words[at] else ""))
    types = Types()
    declared = types.below(specs.types_of(reached))
    for at in declared:
        print(f"{types.places[at]} {at[1]} ({types.lines[at]} lines)")
    crates = {at[0] for at in reached}
    print(f"{len(reached)} definitions of {len(crates)} crates, {sum(map(specs.length, reached))} lines")
    print(f"{len(declared)} types and constants of the code, {sum(map(types.lines.get, declared))} lines")
    return 0


def main():
    specs = Specs()
    reached, names = specs.below(public_definitions(specs)), listed()
    told = [f"{at[0]}: {at[2]} of {at[1]} has no comment" for at in sorted(reached) if not specs.words[at]]
    for name in names:
        count = sum(at in reached for at in definitions_named(specs, name))
        if count != 1:
            told.append(f"docs/DEFINITIONS.md names {name}: {count} definitions of that name that a public contract rests on")
    told += [f"docs/DEFINITIONS.md names {name} twice" for name in sorted(set(names)) if names.count(name) > 1]
    told += bare_names()
    for line in told:
        print(line)
    print(f"{len(reached)} definitions, {len(names)} of them in docs/DEFINITIONS.md; {len(told)} faults")
    return 1 if told else 0


if __name__ == "__main__":
    if sys.argv[1:2] == ["--below"] and len(sys.argv) == 3:
        sys.exit(tell_below(sys.argv[2]))
    sys.exit(main())
