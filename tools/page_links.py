"""What in the pages leads nowhere: links to files and headings, names of the code that are no longer there, and names that are
told of a crate which does not have them."""
import re
from pathlib import Path

from common import crates_in

# Pages of the program's users, whose names are those of nets, and the page of edits, which is written from them.
OF_NETS = ("GUIDE", "GLOSSARY", "WRONG_BODIES")
# Names that stand for any name, and those of Rust's library that no source uses.
PLACEHOLDERS = {"min_by_key", "try_collect", "tell_x", "x_asked", "shown_x", "CodedX", "_laws"}
# Names with the crate that has them: one of it, or some with the crate in brackets behind the last.
OF_CRATE = re.compile(r"`([^`\n]+)` (?:of|in|from) `(\w+)`|((?:`[^`\n]+`(?:, then|, or|, and|,| and) )*`[^`\n]+`) \(`(\w+)`\)")


def pages_of(top):
    """The pages: those at the top and those of docs/."""
    return sorted([*top.glob("*.md"), *top.glob("docs/*.md")])


def without_fences(text):
    """A page without its fenced blocks."""
    return re.sub(r"^```.*?^```$", "", text, flags=re.M | re.S)


def anchor_of(heading):
    """The name by which a heading is linked to."""
    return re.sub(r"[^\w\- ]", "", heading.lower()).replace(" ", "-")


def anchors_of(text):
    """The names by which the headings of a page are linked to."""
    return set(map(anchor_of, re.findall(r"^#+ (.*)$", without_fences(text), re.M)))


def broken_links(top):
    """The links of the pages to a file that is not there, or to a heading that its page does not have."""
    for page in pages_of(top):
        for target in re.findall(r"\]\(([^)\s]+)\)", without_fences(page.read_text())):
            path, _, anchor = target.partition("#")
            file = (page.parent / path).resolve() if path else page
            if re.match(r"\w+:", target):
                continue
            if not file.exists():
                yield f"{page.relative_to(top)} leads to {path}, which is not there"
            elif anchor and anchor not in anchors_of(file.read_text()):
                yield f"{page.relative_to(top)} leads to {target}, and there is no such heading"


def words_of_sources(top):
    """All words of the sources, of the tools and the example nets, and of the names of their files."""
    found = set()
    for part in ("src", "specs", "proofs"):
        for path in [*top.glob(f"crates/*/{part}/**/*.rt"), *top.glob(f"crates/*/{part}/**/*.antt")]:
            found |= set(re.findall(r"\w+", path.read_text())) | {path.stem}
    for path in [*top.glob("tools/*.py"), *top.glob("examples/*.toml")]:
        found |= set(re.findall(r"\w+", path.read_text())) | {path.stem}
    return found | set(re.findall(r"\w+", (top / "crates.txt").read_text()))


def lost_names(top):
    """The names of code in the pages that no source has: words with a low line, or a capital within."""
    there = words_of_sources(top) | PLACEHOLDERS
    for page in pages_of(top):
        if page.name.startswith(OF_NETS):
            continue
        quoted = re.findall(r"`([^`\n]+)`", without_fences(page.read_text()))
        code = (it for it in quoted if not re.fullmatch(r"\w+/\w+", it) and not it.startswith(("examples/", "tools/")))
        for name in sorted({name for it in code for name in re.findall(r"[A-Za-z_]\w+", it)} - there):
            if "_" in name or re.search("[a-z][A-Z]", name):
                yield f"{page.relative_to(top)} names {name}, which no source has"


def words_of_crate(top, crate):
    """All words of a crate's sources, and of the names of their files."""
    paths = [path for part in ("src", "specs", "proofs") for path in top.glob(f"crates/{crate}/{part}/**/*") if path.is_file()]
    return {word for path in paths for word in [path.stem, *re.findall(r"\w+", path.read_text())]}


def names_astray(top):
    """The names that pages tell of a crate in whose sources they are not: those of the crates themselves apart."""
    crates, words = set(crates_in(top)), {}
    for page in pages_of(top):
        for found in OF_CRATE.finditer(without_fences(page.read_text())):
            names, crate = found[1] or " ".join(re.findall(r"`([^`]+)`", found[3])), found[2] or found[4]
            if crate not in crates:
                continue
            there = words.setdefault(crate, words_of_crate(top, crate) | crates | {"src", "specs", "proofs", "antt", "rt"})
            for name in dict.fromkeys(re.findall(r"[A-Za-z_]\w+", names)):
                if name not in there:
                    yield f"{page.relative_to(top)} tells {name} of {crate}, which does not have it"


def leads_nowhere(top):
    """All of these, told one by one."""
    return [*broken_links(Path(top)), *lost_names(Path(top)), *names_astray(Path(top))]
