#!/usr/bin/env python3
"""Writes the parts of README.md and docs/ that the sources say, so that each is kept in one place.

    tools/make_pages.py [--check]

A page has paragraphs written by hand, and between them blocks that this script writes. A block begins with one of
these lines and ends with the line `<!-- end -->`:

- `<!-- blocks -->`: a table of the blocks of crates.txt, each with its crates and what crates.txt says of it, and with a
  link to the section that tells its crates (README.md).
- `<!-- heads of TITLE -->`: of each crate of the block of this title, in order, the comment at the head of its root file up
  to the first heading there, but for what it stands on, where its tests are and what the page says of all laws (of a crate
  of laws alone that docs/LAWS.md tells its first paragraph), then its public calls with the names of their clauses, and
  its laws, with what they say where docs/LAWS.md does not (the pages that docs/PROVED.md leads to).
- `<!-- definitions NAME NAME .. -->`: of each of these definitions its name, its crate and file of specs/, and the
  comment above it (docs/DEFINITIONS.md).
- `<!-- edits -->`: the must-fail edits that the gate tries, each with what its first line says, crate by crate, and
  `<!-- kept edits -->` those that stand beside them (docs/WRONG_BODIES.md); and `<!-- edits CRATE/NAME CRATE/NAME .. -->`
  a table of these of the gate alone.
- `<!-- laws CRATE::NAME CRATE::NAME .. -->`: a table of these laws, each with the first paragraph of its docstring;
  `<!-- laws of CRATE -->` of all of a crate, and `<!-- all other laws -->` of those that no such block before it names
  (docs/LAWS.md).
- `<!-- code CRATE/src/FILE.rt NAME NAME .. -->`: these functions, types and constants as they stand in that file, each
  with the comment above it (docs/LIBRARY.md and the pages that it leads to).
- `<!-- costs -->`: the sentences in which docstrings of public calls speak of their time, but for those of commands
  (docs/COSTS.md).
- `<!-- to read NAME NAME .. -->`: how much each of these definitions rests on, as tools/check_definitions.py --below
  lists it, and how long it takes to read at two lines a minute, ten of a type; and where the first rests on all the
  others, what it rests on without them, and how much each is with that (docs/TRUST.md).

With --check it writes nothing and tells each page that differs from what it would write. In both cases it tells
each block, definition or edit that such a line names and that is not there, and each block that no such line names; what
does not keep the order of the crates (tools/house_order.py); and each link, and each name of code in a page, that leads
nowhere, or is told of a crate which does not have it (tools/page_links.py).
The head of a crate may end with the section `## How it works` and, behind it, the section `## Call it`: what its names
are, the words ``From `CRATE::FILE::TEST`:`` and a fenced block of code. A block whose lines do not stand so in this test
is told too.
The exit status is 0 where there is nothing to tell.
"""
import re
import sys
from functools import cache
from itertools import groupby, takewhile

from check_definitions import Specs, Types, definitions_named, exported
from common import IN_GATE, KEPT, TOP, blocks_in, crates_in, edits_of, reason_of
from house_order import out_of_order
from page_links import anchor_of, leads_nowhere

# What the page says once of all laws.
NOTHING = re.compile(r" (It does|They do|which does) nothing when (it|they) runs?\.")
EACH_LAW = re.compile(r" ?\bEach law is the contract of a function that does nothing when it runs\.")
# What crates.txt says too, and where tests stand.
STANDS = re.compile(r" ?\b(?:The crate|It) stands on (?!`[A-Z]).*?\.(?= |$)| ?\b(?:Its examples stand|Whole calls try it,) in .*?\.(?= |$)")
TIME = re.compile(r"time of (the )?order|time in proportion|time linear|takes (the )?time of")
KINDS = (
    r"blocks|heads of ([\w ]+)|definitions ([\w .]+)|costs|kept edits|to read ([\w .]+)|edits((?: \w+/\w+)*)"
    r"|laws((?: \w+::\w+)+)|laws of (\w+)|all other laws|code ([\w/.]+)((?: \w+)+)"
)
# How a crate is called, at the end of its head, and where that stands as a test.
CALL = "## Call it"
SHOWN = re.compile(r"(?:.*\s)?From\s+`(\w+)::(\w+)::(\w+)`:\n\n```rust\n(.*?)```", re.S)
BLOCK = re.compile(rf"^<!-- ({KINDS}) -->\n.*?^<!-- end -->\n", re.M | re.S)


def crates():
    """The crates of crates.txt, in its order, but for those of one's own."""
    return crates_in(TOP)


def cell(text):
    """A text within a cell of a table."""
    return text.replace("|", "\\|")


def link_free(text):
    """A text of a comment without the brackets of its links."""
    return re.sub(r"\[(`[^`]+`)\](\([^)]*\))?", r"\1", text)


def head_lines(crate):
    """The lines of the comment at the head of a crate's root file."""
    root = next((path for path in (TOP / f"crates/{crate}/src/{name}.rt" for name in ("lib", "main")) if path.is_file()), None)
    lines = takewhile(lambda line: line.startswith("//!"), root.read_text().splitlines() if root else [])
    return [line[3:].removeprefix(" ").rstrip() for line in lines]


def head_of(crate):
    """The comment at the head of a crate's root file up to its first heading, as paragraphs of one line each but for tables
    and lists, and then its public calls; of a crate of laws alone that docs/LAWS.md tells the first paragraph."""
    lines = [line.strip() for line in takewhile(lambda line: not line.startswith("## "), head_lines(crate))]
    paragraphs = " ".join("\n" + line if line.startswith(("|", "- ")) else line or "\n\n" for line in lines)
    paragraphs = re.sub(r" +\n", "\n", paragraphs)
    texts = [re.sub(EACH_LAW, "", re.sub(STANDS, "", link_free(it.strip()))).strip() for it in paragraphs.split("\n\n")]
    calls = calls_of(crate)
    is_told = calls and all(call.law and call.name in laws_told() for call in calls)
    return "\n\n".join([it for it in texts if it][: 1 if is_told else None] + told_calls(crate)) + "\n"


def section_of(title):
    """The title of a block, as a link to the section of a page of docs/ that tells its crates, where there is one."""
    pages = (page for page in sorted(TOP.glob("docs/*.md")) if f"<!-- heads of {title} -->" in page.read_text())
    return next((f"[{title}](docs/{page.name}#{anchor_of(title)})" for page in pages), title)


def table_of_blocks():
    """A table of the blocks of crates.txt."""
    rows = ["| Block | Crates | What is proved |", "|---|---|---|"]
    for block in blocks_in(TOP):
        rows.append(f"| {section_of(block.title)} | {', '.join(f'`{crate}`' for crate in block.crates)} | {cell(block.says.rstrip('.'))} |")
    return "\n".join(rows) + "\n"


def number_of(body):
    """The number that a definition of a number is, written in threes; nothing where it is no plain number."""
    found = re.fullmatch(r"\s*: ℕ\s*\S+ = (\d+)\s*", body)
    return f": {int(found[1]):,}" if found else ""


def list_of(specs, names):
    """The definitions of these names, one a line."""
    told = [(at, specs.words[at] + number_of(specs.body[at])) for name in names for at in definitions_named(specs, name)]
    return "".join(f"- `{at[2]}` (`{at[0]}` {at[1]}): {words}\n" for at, words in told)


def all_edits(kind):
    """The must-fail edits of this kind, crate by crate: what each would do, and which clause refuses it, by its first line."""
    paths = [(crate, path) for crate in crates() for path in edits_of(TOP, crate) if path.suffix == kind]
    return {f"{crate}/{path.stem}": reason_of(path) for crate, path in paths}


def told_edits(found):
    """These edits by name: what goes wrong, and the clause as it is shown."""
    return [(name, cell(why), clause if "`" in clause or not clause else f"`{clause}`") for name, (why, clause) in found.items()]


def table_of_edits(names):
    """A table of these edits of the gate."""
    found = all_edits(IN_GATE)
    told = told_edits({name: found.get(name, ("", "")) for name in names})
    head = ["| Edit | What goes wrong | Refused by |", "|---|---|---|"]
    return "\n".join(head + [f"| `{name}` | {why} | {cell(clause)} |" for name, why, clause in told]) + "\n"


def edits(kind):
    """A list of the edits of this kind, crate by crate."""
    told = told_edits(all_edits(kind))
    blocks = []
    for crate, of_crate in groupby(told, lambda it: it[0].partition("/")[0]):
        lines = [f"- `{name.partition('/')[2]}`: {why} ({clause})" for name, why, clause in of_crate]
        blocks.append(f"`{crate}`:\n\n" + "\n".join(lines) + "\n")
    return "\n".join([*blocks, f"{len(told)} edits in {len(blocks)} crates.\n"])


class Call:
    """A public function of a crate: its name, with its type, its docstring, the names of its clauses, and whether it is a law."""

    def __init__(self, kind, name, said, law):
        self.kind, self.name, self.law, self.clauses = kind, name, law, []
        self.doc = link_free(" ".join(filter(None, said)))
        self.first = link_free(" ".join(takewhile(bool, said)))

    def told(self):
        clauses = ", ".join(f"`{it}`" for it in self.clauses)
        name = f"{self.kind}::{self.name}" if self.kind else self.name
        return f"`{name}`" + (f" ({clauses})" if clauses else "")


def calls_of(crate):
    """The public functions of a crate, as they stand in its sources."""
    names, found = exported(crate), []
    for path in sorted((TOP / f"crates/{crate}/src").glob("**/*.rt")):
        said, kind, is_trait, call, depth = [], "", False, None, 0
        for line in path.read_text().splitlines():
            # (a clause may go on in further lines)
            if depth > 0:
                depth += line.count("{") - line.count("}")
                call = None if depth == 0 and line.endswith(";") else call
                continue
            block = re.match(r"(impl|pub trait)\b(?:<[^{]*?>)? *(?:\w+(?:<.*?>)? for )?&?(\w+)", line)
            if block:
                kind, is_trait = block[2], block[1] == "pub trait"
            elif line.startswith("}"):
                kind = ""
            function = re.match(r"( {4})?(pub )?fn (\w+)(.*)", line)
            if function and (function[2] or is_trait) and (kind if function[1] else function[3]) in names:
                law = not function[1] and re.fullmatch(r"(<.*>)?\(\)", function[4].strip()) is not None
                call = Call(kind if function[1] else "", function[3], said, law)
                found.append(call)
            clause = re.match(r" +ensures (\w+) \{", line)
            if call and clause:
                call.clauses.append(clause[1])
            if call and re.match(r" +(ensures|requires)\b", line):
                depth = line.count("{") - line.count("}")
                call = None if depth == 0 and line.endswith(";") else call
                continue
            if line.strip() in ("{", "{}") or line.endswith((" {", ";")) and not clause:
                call = None
            doc = re.match(r" *///(.*)", line)
            if doc and re.match(r" *\[.*\]: ", doc[1]):
                continue
            said = said + [doc[1].strip()] if doc else said if line.strip().startswith("#[") else []
    return found


def laws_told():
    """The names that the page of laws tells, where there is one: what they say is not said twice."""
    page = TOP / "docs/LAWS.md"
    return set(re.findall(r"`(\w+)`", page.read_text())) if page.is_file() else set()


def told_calls(crate):
    """A crate's public calls with their clauses, and its laws with what they say, where docs/LAWS.md does not."""
    calls = calls_of(crate)
    others = [call.told() for call in calls if not call.law]
    lines = [f"Calls: {'; '.join(others)}."] if others else []
    laws = [call for call in calls if call.law]
    elsewhere = [f"`{call.name}`" for call in laws if call.name in laws_told()]
    here = [f"- `{call.name}`: {re.sub(NOTHING, '', call.doc)}" for call in laws if call.name not in laws_told()]
    lines += [f"[Laws](LAWS.md): {', '.join(elsewhere)}."] if elsewhere else []
    return lines + (["Laws:\n\n" + "\n".join(here)] if here else [])


@cache
def all_laws():
    """The laws of all crates in the order of crates.txt, each by its crate and name."""
    return {f"{crate}::{call.name}": call for crate in crates() for call in calls_of(crate) if call.law}


def laws(names):
    """A table of these laws."""
    found = all_laws()
    rows = ["| Law | Crate | What it says |", "|---|---|---|"]
    for name in names:
        crate, _, call = name.partition("::")
        said = re.sub(NOTHING, "", found[name].first) if name in found else ""
        rows.append(f"| `{call}` | `{crate}` | {cell(said)} |")
    return "\n".join(rows) + "\n"


def item_of(text, name):
    """The function, type or constant of this name in the text of a source file, with the comment above it; nothing where
    there is none."""
    above = r"(?:^(?://|#\[)[^\n]*\n)*^(?:pub )?"
    found = re.search(rf"{above}(?:(?:fn|struct|enum) {name}\b.*?^\}}|const {name}\b.*?;)\n", text, re.M | re.S)
    return found[0] if found else ""


def statements_of(text, name, above=()):
    """The statements of a function in the text of a source file, four spaces to the left. Those of another function of
    that file stand in the place of a line that calls it or hands it on, without the line that it answers: a test may
    lend what it owns to functions of its own."""
    lines = item_of(text, name).splitlines()
    begun = next((at for at, line in enumerate(lines) if re.search(r"(^| )\{$", line)), len(lines))
    others = [it for it in re.findall(r"^(?:pub )?fn (\w+)", text, re.M) if it not in (name, *above)]
    told = []
    for at, line in enumerate(lines[begun + 1 : -1], begun + 2):
        called = [it for it in others if re.search(rf"(?<![\w.:]){it}[(,)]", line)]
        if called:
            told += [it for other in called for it in statements_of(text, other, (name, *above))]
        elif not above or at < len(lines) - 1 or line.endswith((";", "}")):
            told.append(line.removeprefix("    "))
    return told


def told_calls_of_head(crate):
    """Tells where the head of a crate shows a call that is not the text of its test."""
    section = "\n".join(head_lines(crate)).partition(CALL)[2]
    shown = SHOWN.fullmatch(section.strip())
    if section and not shown:
        return [f"the head of {crate} does not say which test it shows, or shows no code"]
    if not section:
        return []
    path = TOP / f"crates/{shown[1]}/src/{shown[2]}.rt"
    text = path.read_text() if path.is_file() else ""
    within = "".join(f"{line}\n" for line in statements_of(text, shown[3]))
    is_there = "#[test]" in item_of(text, shown[3]) and f"\n{shown[4]}" in f"\n{within}"
    return [] if is_there else [f"the head of {crate} shows what is not in the test {shown[3]} of {path.relative_to(TOP)}"]


def costs():
    """What docstrings say of time and memory, crate by crate."""
    rows = ["| Crate | Call | What it takes |", "|---|---|---|"]
    # (a command takes what its answer takes)
    for crate in (it for it in crates() if not it.endswith("_commands")):
        for call in calls_of(crate):
            told = " ".join(it for it in re.split(r"(?<=\.) +(?=[A-Z`])", call.doc) if TIME.search(it))
            if told:
                name = f"{call.kind}::{call.name}" if call.kind else call.name
                rows.append(f"| `{crate}` | `{name}` | {cell(told)} |")
    return "\n".join(rows) + "\n"


def time_of(lines, of_types):
    """How long so many lines of definitions take at two a minute, with so many of types at ten a minute: in minutes up to
    an hour and a half, and else in hours."""
    minutes = lines / 2 + of_types / 10
    return f"{max(1, round(minutes))} minutes" if minutes < 90 else f"{round(minutes / 60)} hours"


def reading(specs, names):
    """How much each of these definitions rests on. Where the first of them rests on all the others, a line tells what it
    rests on without these, its frame, and a column how much is to be read of each with that."""
    types, roots = Types(), {at: name for name in names for at in definitions_named(specs, name)}
    below = {at: specs.below([at]) for at in roots}
    first, others = list(roots)[:1], list(roots)[1:]
    frame = set(specs.below(first, but=others)) if others and set(others) <= set(below[first[0]]) else set()

    def size_of(reached):
        declared = types.below(specs.types_of(reached))
        return sum(map(specs.length, reached)), sum(map(types.lines.get, declared)), len(declared)

    def row(name, file, reached):
        (lines, of_types, kinds), whole = size_of(reached), size_of(frame | set(reached))
        counts = [len(reached), kinds, lines + of_types, *([whole[0] + whole[1]] if frame else [])]
        return f"| {' | '.join([name, file, *(f'{it:,}' for it in counts), time_of(*whole[:2])])} |"

    columns = ["Definition", "File", "Definitions", "Types", "Lines", *(["With the frame"] if frame else []), "Time"]
    rows = [f"| {' | '.join(columns)} |", "|---" * len(columns) + "|"]
    rows += [row(f"`{at[2]}`", f"`{at[0]}/specs/{at[1]}.antt`", below[at]) for at in roots]
    if frame:
        rows.insert(3, row("its frame", "", frame))
    return "\n".join(rows) + "\n"


class Pages:
    """What the blocks hold, and what was found missing."""

    def __init__(self):
        self.specs = Specs()
        self.told, self.laws, self.blocks = [], set(), {block.title: block for block in blocks_in(TOP)}
        # (the kinds and titles of blocks that were written)
        self.written = set()

    def is_there(self, names):
        """Tells each of these names that no definition has."""
        self.told += [f"{name} is to be shown, and no definition" for name in names if not definitions_named(self.specs, name)]
        return names

    def table_of_laws(self, names):
        """A table of the laws of these names, which are told from then on."""
        self.told += [f"{name} is to be told, and no law" for name in names if name not in all_laws()]
        self.laws.update(names)
        return laws(names)

    def code(self, file, names):
        """These items of a source file, one below the other."""
        path = TOP / "crates" / file
        text = path.read_text() if path.is_file() else ""
        self.told += [f"{name} of {file} is to be shown, and is not there" for name in names if not item_of(text, name)]
        return "```rust\n" + "\n".join(item_of(text, name) for name in names) + "```\n"

    def heads(self, title):
        """The heads of the crates of a block, in their order."""
        if title not in self.blocks:
            self.told.append(f"the heads of {title} are to be told, and it is no block of crates.txt")
            return ""
        return "\n".join(f"### `{crate}`\n\n{head_of(crate)}" for crate in self.blocks[title].crates)

    def block(self, found):
        self.written.add(found[1])
        if found[2]:
            body = self.heads(found[2])
        elif found[1] == "blocks":
            body = table_of_blocks()
        elif found[3]:
            body = list_of(self.specs, self.is_there(found[3].split()))
        elif found[4]:
            body = reading(self.specs, self.is_there(found[4].split()))
        elif found[1] == "costs":
            body = costs()
        elif found[1] in ("edits", "kept edits"):
            body = edits(IN_GATE if found[1] == "edits" else KEPT)
        elif found[5]:
            names = found[5].split()
            self.told += [f"{name} is to be tried, and no edit of the gate" for name in names if name not in all_edits(IN_GATE)]
            body = table_of_edits(names)
        elif found[6]:
            body = self.table_of_laws(found[6].split())
        elif found[7]:
            if found[7] not in crates():
                self.told.append(f"the laws of {found[7]} are to be told, and it is no crate")
            body = self.table_of_laws([it for it in all_laws() if it.startswith(f"{found[7]}::")])
        elif found[8]:
            body = self.code(found[8], found[9].split())
        else:
            body = laws([it for it in all_laws() if it not in self.laws])
        return f"<!-- {found[1]} -->\n{body}<!-- end -->\n"

    def write(self, is_check):
        for path in [TOP / "README.md", *sorted(TOP.glob("docs/*.md"))]:
            old = path.read_text()
            new = BLOCK.sub(self.block, old)
            if new != old and is_check:
                self.told.append(f"{path.relative_to(TOP)} is not what the sources say: run tools/make_pages.py")
            elif new != old:
                path.write_text(new)

    def look_for_missing(self):
        expected = ["blocks", *(f"heads of {title}" for title in self.blocks)]
        self.told += [f"no page has what <!-- {it} --> writes" for it in expected if it not in self.written]
        self.told += [told for crate in crates() for told in told_calls_of_head(crate)]
        self.told += out_of_order(TOP, head_lines) + leads_nowhere(TOP)


def main(is_check):
    pages = Pages()
    pages.write(is_check)
    pages.look_for_missing()
    for line in pages.told:
        print(line)
    return 1 if pages.told else 0


if __name__ == "__main__":
    sys.exit(main("--check" in sys.argv[1:]))
