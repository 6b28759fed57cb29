#!/usr/bin/env python3
"""Tells whether the public calls and types of tools/signatures.txt stand in the sources as that file has them.

    tools/check_signatures.py

The head of the file says how it is read. An item of it begins with `pub` or `impl`. What the file leaves out is left out
of the sources too. An item stands in a crate where the crate's root file hands it on, be it of the crate itself or of
another one, which its line of crates.txt names. Crates of one's own are passed over. Each crate of the file is named by
a row of the tables of docs/LIBRARY.md that lead from questions to calls.

There is a line for each item that is lacking or that reads otherwise, for each line of items that were described
otherwise at first whose item, or whose entry of docs/DECISIONS.md, is lacking, and for each crate that no row names; the
last line tells how many items and faults there are, and the exit status is 0 where there is no fault.
"""
import re
import sys

from common import TOP, blocks_in

ITEM = re.compile(r"(?:pub (?:fn|struct|enum|trait|const)|impl) (\w+ for \w+|\w+(?:::\w+)?)")
SIGNATURE = r"fn (\w+).*?(?=\s(?:requires|ensures)\b|\s*\{|;)"


def bare(text):
    """A text without comments and attributes."""
    return re.sub(r"//[^\n]*|#\[(?:[^\[\]]|\[[^\]]*\])*\]", "", text)


def plain(text):
    """An item without what the file leaves out, and without spaces."""
    text = re.sub(r"'\w+,?\s*", "", re.sub(r"\b_?alloc: Global,?", "", text))
    text = re.sub(r"\s+|;$", "", re.sub(r"\b_(?=\w+:)", "", text).strip())
    return re.sub(r",(?=[)\]}>])|<>|;(?=\})", "", text)


def fields_of(body):
    """The public fields of a struct, and `..` where it has private ones."""
    fields = [it.strip() for it in re.split(r",\s*\n", body) if it.strip()]
    shown = [it for it in fields if it.startswith("pub ")]
    return ", ".join(shown + ([".."] if len(shown) < len(fields) else []))


def items_of(text):
    """The public items of a source file, each with its name."""
    for found in re.finditer(rf"^pub {SIGNATURE}", text, re.M | re.S):
        yield found[1], found[0]
    for found in re.finditer(r"^(pub struct (\w+)(?:<[^\n{;]*>)?)(;| \{([^\n]*|\n.*?\n)\}$)", text, re.M | re.S):
        yield found[2], found[1] + (f" {{ {fields_of(found[4])} }}" if found[4] is not None else "")
    for found in re.finditer(r"^pub enum (\w+).*?^\}", text, re.M | re.S):
        yield found[1], found[0]
    for found in re.finditer(r"^pub const (\w+):[^;]*;", text, re.M):
        yield found[1], found[0]
    for found in re.finditer(r"^(pub trait (\w+)[^\n]*?) \{$(.*?)^\}", text, re.M | re.S):
        members = re.finditer(rf"^ {{4}}(?:{SIGNATURE}|const [^;]*)", found[3], re.M | re.S)
        yield found[2], f"{found[1]} {{ {'; '.join(it[0].strip() for it in members)} }}"
    for trait, kind in re.findall(r"^impl(?:<[^\n]*?>)? (\w+) for (\w+)", text, re.M):
        yield f"{trait} for {kind}", f"impl {trait} for {kind}"
    for found in re.finditer(r"^impl(?:<[^\n]*?>)? ((\w+)(?:<[^\n]*>)?) \{$(.*?)^\}", text, re.M | re.S):
        for call in re.finditer(rf"^ {{4}}pub {SIGNATURE}", found[3], re.M | re.S):
            name = f"{found[2]}::{call[1]}"
            signature = call[0].strip().replace(f"fn {call[1]}", f"fn {name}", 1)
            yield name, re.sub(r"\bSelf\b", found[1], signature)


class Sources:
    """What the crates hand on: of each the crate or module that it is from, and the items of all crates by name."""

    def __init__(self):
        self.handed_on, self.items = {}, {}
        self.lines = {crate: others for block in blocks_in(TOP) for crate, others in block.crates.items()}
        for crate in self.lines:
            self.read(crate)

    def read(self, crate):
        """Reads what a crate hands on, and its items."""
        root = TOP / f"crates/{crate}/src/lib.rt"
        if root.is_file():
            for origin, many, one in re.findall(r"^pub use ([\w:]+)::(?:\{([^}]*)\}|(\w+));", root.read_text(), re.M):
                for name in (many or one).split(","):
                    self.handed_on[crate, name.strip()] = origin.partition("::")[0]
        for path in sorted((TOP / f"crates/{crate}/src").glob("**/*.rt")):
            for name, text in items_of(bare(path.read_text())):
                self.items.setdefault((crate, name), []).append(text)

    def found(self, crate, name):
        """The items of this name that the crate hands on, of its own or of another crate."""
        shown = re.split("::| for ", name)[-1 if " for " in name else 0]
        origin = self.handed_on.get((crate, shown))
        while origin in self.lines and origin in self.lines[crate]:
            crate, origin = origin, self.handed_on.get((origin, shown))
        return self.items.get((crate, name), []) if origin else []


def sections(text):
    """What stands below each line in brackets, with its name."""
    kept = re.sub(r"^#.*\n", "", text, flags=re.M)
    return re.findall(r"^\[(\w+)\]\n(.*?)(?=^\[\w+\]$|\Z)", kept, re.M | re.S)


def listed(text):
    """The items of the file, each with its crate and name."""
    for crate, body in sections(text):
        for item in re.split(r"^(?=pub |impl )", body, flags=re.M):
            if ITEM.match(item):
                yield crate, ITEM.match(item)[1], item


def otherwise(text):
    """The items for which another form was open, each with its entry."""
    for name, body in sections(text):
        if name == "otherwise":
            for item, _, entry in re.findall(r"^(\S+) \| (.*) \| (.*)$", body, re.M):
                yield item, entry


def faults_of(text, decisions):
    """What of the file does not stand in the sources, and which lines name no item or no entry."""
    sources, names = Sources(), set()
    for crate, name, item in listed(text):
        names.add(f"{crate}::{name}")
        found = sources.found(crate, name)
        if not found:
            yield f"{crate} hands on no {name}"
        elif plain(item) not in map(plain, found):
            yield f"{crate}: {name} reads otherwise: {' '.join(found[0].split())}"
    entries = {it.rstrip(".") for it in re.findall(r"^- \*\*(.*?)\*\*", decisions, re.M)}
    for item, entry in otherwise(text):
        if item not in names:
            yield f"{item} stands below [otherwise], and is no item"
        if entry.rstrip(".") not in entries:
            yield f"docs/DECISIONS.md has no entry {entry}"


def not_led_to(text, page):
    """The crates of the file that no row of a table of the page names."""
    named = {name for row in re.findall(r"^\| .*$", page, re.M) for name in re.findall(r"`(\w+)`", row)}
    for crate in dict.fromkeys(crate for crate, _, _ in listed(text)):
        if crate not in named:
            yield f"docs/LIBRARY.md leads to no call of {crate}"


def main():
    text = (TOP / "tools/signatures.txt").read_text()
    told = list(faults_of(text, (TOP / "docs/DECISIONS.md").read_text()))
    told += not_led_to(text, (TOP / "docs/LIBRARY.md").read_text())
    for line in told:
        print(line)
    print(f"{len(list(listed(text)))} items, {len(told)} faults")
    return 1 if told else 0


if __name__ == "__main__":
    sys.exit(main())
