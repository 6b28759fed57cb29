#!/usr/bin/env python3
"""Shows what a caller has to know of a public call: its docstring, its signature, its clauses, the definitions that these
name, and the lines of `use` that a file with the call and these clauses has.

    tools/show_call.py CRATE::NAME
    tools/show_call.py CRATE::TYPE::NAME

NAME is a call, or a struct, an enum or a trait, of which the whole text is shown, with what contracts see of it, the names
of its calls with the first sentence of each, and the line by which a file of specs/ names it; of a call on a value its type
stands before it, as teg_check::LiveNet::copy. The crate may hand it on from another one. Definitions are shown with the
comment above them, those alone that the clauses name (tools/check_definitions.py --below NAME goes on from there); those
of std are left out. The exit status is 0 where there is such a call, and else 1.
"""
import re
import signal
import sys

from check_definitions import Specs, imports_of
from common import TOP


def origin_of(crate, name):
    """The crate that the name is of, where this one hands it on."""
    root = TOP / f"crates/{crate}/src/lib.rt"
    text = root.read_text() if root.is_file() else ""
    own = set(re.findall(r"^(?:pub )?mod (\w+);", text, re.M))
    for origin, many, one in re.findall(r"^pub use (\w+)(?:::\w+)*::(?:\{([^}]*)\}|(\w+));", text, re.M):
        if name in {it.strip() for it in (many or one).split(",")} and origin not in own and (TOP / "crates" / origin).is_dir():
            return origin_of(origin, name)
    return crate


def above(lines, at):
    """The number of the first line of the docstring and the attributes above this line."""
    while at > 0 and lines[at - 1].strip().startswith(("///", "#[")):
        at -= 1
    return at


def shown_from(lines, at):
    """The lines of the item whose first line is this one, with its docstring and attributes, up to a body."""
    first, last = above(lines, at), at
    indent, is_call = re.match(r" *", lines[at])[0], "fn " in lines[at]
    ends = (lambda line: line.endswith((" {", ";")) or line == f"{indent}{{") if is_call else (lambda line: line == "}")
    if is_call or lines[at].endswith("{"):
        last = next(it for it in range(at, len(lines)) if ends(lines[it]))
    last -= lines[last] == f"{indent}{{"
    shown = [line.removeprefix(indent) for line in lines[first : last + 1]]
    return shown[:-1] + [shown[-1].removesuffix(" {")] if is_call else shown


def item_in(path, kind, name):
    """Where the item stands in a file, its lines, and what the `ghost use` lines there bring in; nothing where it does not."""
    lines, block, inner = path.read_text().splitlines(), None, []
    for at, line in enumerate(lines):
        opened = re.match(r"(pub trait|impl)\b(?:<[^{]*?>)? ?(?:\w+ for )?(\w+)", line)
        if opened:
            block, inner = opened[2], [it for it in inner if it[0] is None]
            member = "    fn" if opened[1] == "pub trait" else "    pub fn"
        elif line == "}":
            block = None
        if "ghost use " in line:
            inner.append((block, line.strip()))
        head = member if kind and block == kind else None if kind else "pub (?:fn|struct|enum|trait|const)"
        if head and re.match(rf"{head} {name}\b", line):
            return at + 1, shown_from(lines, at), [it for there, it in inner if there in (None, block)]
    return None


def named_by(use, text):
    """The line of `ghost use` with the names alone that the text has; nothing where it has none."""
    many = re.fullmatch(r"ghost use ([\w.]+)\.\{(.*)\};", use)
    if not many:
        return use
    path, names = many.groups()
    words = set(re.findall(r"[^\W\d][\w'\-]*", text))
    kept = []
    for name in (it.strip() for it in names.split(",")):
        here = name.rpartition(" as ")[2]
        if here in words if "◌" not in here else all(it in text for it in here.split("◌")):
            kept.append(name)
    return f"ghost use {path}.{{{', '.join(kept)}}};" if kept else ""


def joined(lines):
    """These lines of `use`: one for each module, with each of its names once."""
    found = {}
    for line in lines:
        module, _, names = line.removesuffix("};").partition(".{")
        found.setdefault(module, {}).update(dict.fromkeys(names.split(", ")))
    return [f"{module}.{{{', '.join(names)}}};" if "" not in names else module for module, names in found.items()]


def definition(specs, at):
    """A definition as it stands, below where that is and the comment above it."""
    lines = (TOP / f"crates/{at[0]}/specs/{at[1]}.antt").read_text().splitlines()[specs.lines[at] - 1 :]
    last = next((it for it, line in enumerate(lines) if not line.strip()), len(lines))
    return [f"-- crates/{at[0]}/specs/{at[1]}.antt:{specs.lines[at]}", f"-- {specs.words[at]}", *lines[:last]]


def seen_of(path, name):
    """What contracts see of a type: the lines of its `impl Model`, without those of its invariant; and its `ghost use` lines."""
    lines = path.read_text().splitlines()
    first = next((at for at, line in enumerate(lines) if re.match(rf"impl\b(?:<[^{{]*?>)? ?Model for {name}\b", line)), None)
    if first is None:
        return [], []
    block = lines[first + 1 : lines.index("}", first)]
    said = [line.strip() for line in block if line.strip().startswith(("ghost Value", "ghost view"))]
    return said, [line.strip() for line in block if "ghost use " in line]


def first_sentence(lines, at):
    """The first sentence of the docstring above this line."""
    said = (line.strip().removeprefix("///").strip() for line in lines[above(lines, at) : at] if "///" in line)
    return re.split(r"(?<=\.) ", " ".join(filter(None, said)))[0]


def calls_of(crate, name):
    """The public calls on values of a type, in whichever file of the crate they stand, each with its first sentence."""
    calls = []
    for path in sorted((TOP / f"crates/{crate}/src").glob("**/*.rt")):
        lines, inside = path.read_text().splitlines(), False
        for at, line in enumerate(lines):
            if re.match(rf"impl\b(?:<[^{{]*?>)? ?{name}\b", line):
                inside = True
            elif line == "}":
                inside = False
            call = re.match(r"    pub (?:\w+ )*fn (\w+)", line)
            if inside and call:
                calls.append(f"{name}::{call[1]}: {first_sentence(lines, at)}")
    return calls


def path_in_specs(origin, path, name):
    """The line by which a file of specs/ names a type of the code that contracts see as it stands."""
    module = ".".join(path.relative_to(TOP / f"crates/{origin}/src").with_suffix("").parts)
    return f"use Rattle.{origin}.specs.declared.{module + '.' if module != 'lib' else ''}{name}.{{{name}}}"


def show(crate, kind, name):
    """Prints what there is to know of the call; whether there is one."""
    origin = origin_of(crate, kind or name)
    for path in sorted((TOP / f"crates/{origin}/src").glob("**/*.rt")):
        found = item_in(path, kind, name)
        if not found:
            continue
        number, shown, uses = found
        specs, text = Specs(), "\n".join(line for line in shown if not line.strip().startswith("///"))
        clauses = re.search(r"^ *(requires|ensures)\b.*", text, re.M | re.S)
        said = clauses[0] if clauses else ""
        is_type = not kind and bool(re.search(r"^pub (struct|enum)\b", text, re.M))
        if is_type:
            seen, more = seen_of(path, name)
            said, uses = "\n".join(seen), more
            shown += [f"// contracts see of it: {line}" for line in seen] + [f"// call: {line}" for line in calls_of(origin, name)]
        print("\n".join([f"// {path.relative_to(TOP)}:{number}", *shown]))
        for at in sorted(specs.named(said, imports_of("\n".join(uses)))):
            print("\n" + "\n".join(definition(specs, at)))
        print(f"\nuse {crate}::{kind or name};")
        if is_type:
            values = [named_by(use, seen[0]) for use in uses] if seen else [path_in_specs(origin, path, name)]
            print("\n".join(f"-- in specs/: {line.removeprefix('ghost ').removesuffix(';')}" for line in values if line))
        else:
            for line in joined(filter(None, (named_by(use, said) for use in uses))):
                print(line)
        return True
    return False


def main():
    words = sys.argv[1].split("::") if len(sys.argv) == 2 else []
    if len(words) not in (2, 3):
        sys.exit(__doc__)
    if not show(words[0], words[1] if len(words) == 3 else None, words[-1]):
        print(f"no public call or type {sys.argv[1]}")
        return 1
    return 0


if __name__ == "__main__":
    signal.signal(signal.SIGPIPE, signal.SIG_DFL)
    sys.exit(main())
