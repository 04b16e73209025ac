"""Walks the pages, and fails where a path or a name leads nowhere or a line is too long.

    python3 tests/test_pages.py

Of every page but docs/CHANGES.md and docs/PORT.md, which name things as they were then: paths into a crate
(crates/NAME/.., NAME/specs/Module.name, NAME/must-fail/edit), functions `crate::name`, definitions
of docs/METHOD.md (`Module.name` of crates/fund/specs), every other name between backticks, commands,
files and folders of this repository, links to other pages.  Of all pages: prose is wrapped and no
cell of a table is long; the claims and each landing's note are short.  Of pages and sources:
`METHOD n` is a section of docs/METHOD.md and `§n` a request in its last table.  And
docs/WRONG-PROGRAMS.md is what docs/wrong_programs.py writes today.
"""

import re
import sys
from functools import lru_cache
from pathlib import Path

ROOT = Path(__file__).resolve().parent.parent
sys.path.insert(0, str(ROOT / "docs"))
import wrong_programs

CRATES = ROOT / "crates"
DOCS = ROOT / "docs"
HISTORY = DOCS / "CHANGES.md"
# Sets old words beside new ones, as they stand.
PORT = DOCS / "PORT.md"
METHOD = DOCS / "METHOD.md"
# The pages about the wording of the two documents that the method was asked for in.
ABOUT_WORDING = (METHOD, DOCS / "READINGS.md", DOCS / "FORMS.md")
FOLDERS = ("docs", "tests", "scripts", "bench", "fuzz", "examples", "include", "crates")
SOURCES = ("crates/*/src/**/*.rt", "crates/*/specs/**/*.antt", "crates/*/proofs/**/*.antt", "crates/*/must-fail/*", "crates/*/edits/*",
           "include/*", "scripts/*", "tests/*", "bench/*", "fuzz/*", "examples/*.*", "docs/*.py", "price", "compare", "reprice", "sheet_bytes", "crates.txt")
MOST_PROSE, MOST_CELL, MOST_CLAIMS, MOST_NOTE = 100, 200, 12000, 1500

IN_CRATE = re.compile(r"(?<![\w/.])(?:crates/)?([a-z_]+)/(specs|proofs|src|must-fail|edits)/([\w./-]+)")
FUNCTION = re.compile(r"`([a-z_]+)::([\w:]+)`")
OWN_FILE = re.compile(rf"(?<![\w/.-])((?:{'|'.join(FOLDERS)})/[\w./-]*\w)")
DEFINITION = re.compile(r"`([A-Z]\w+)(?:\.([\w-]+))?`")
LINK = re.compile(r"\]\(([^)#:]+)\)")
QUOTED = re.compile(r"`([^`]+)`")
WORD = re.compile(r"[^\W\d][\w'-]*")
SPELLED = re.compile(rf"{WORD.pattern}(?:(?:\.|::){WORD.pattern})*")
COMMAND = re.compile(r"(?:python3 )?(\.?\.?/?[\w.-]+(?:/[\w.-]+)*)(?: .*)?")
REFERENCE = re.compile(r"METHOD (\d+)(?: (?:and|to) (\d+))?|§(\d+)")
# Words of the machine, of C and of the toolchain.
OUTSIDE = {"rt", "cc", "rustc", "python3", "clang", "ci", "NaN", "must-fail"}


@lru_cache(None)
def text_of(path):
    return path.read_text(encoding="utf-8") if path.is_file() else None


@lru_cache(None)
def code_of(crate):
    return "\n".join(path.read_text(encoding="utf-8") for path in sorted((CRATES / crate).glob("src/**/*.rt")))


def sources():
    for pattern in SOURCES:
        for path in sorted(ROOT.glob(pattern)):
            if path.is_file() and path.suffix not in (".md", ".pyc", ".ods", ".sheet", ".svg"):
                yield path


@lru_cache(None)
def words():
    """Every word of the sources, and the names of files, folders and edits."""
    found = set(OUTSIDE)
    for path in sources():
        found.update(WORD.findall(path.read_text(encoding="utf-8")))
        found.update((path.name, path.stem))
    found.update(path.name for path in CRATES.glob("*/*"))
    found.update(path.name for path in [*ROOT.iterdir(), *CRATES.iterdir(), *DOCS.iterdir(), *(ROOT / "examples").iterdir()])
    return found


def declares(text, name):
    return re.search(rf"(?<![\w-]){re.escape(name)}(?![\w-])", text) is not None


def in_crate(crate, kind, rest):
    """Whether such a path leads somewhere."""
    rest = rest.rstrip(".")
    folder = CRATES / crate / kind
    if kind in ("must-fail", "edits"):
        return (folder / f"{rest}.edit").is_file() or (folder / rest).is_file()
    if kind == "src" or (folder / rest).exists():
        return (folder / rest).exists()
    module, _, name = rest.partition(".")
    text = text_of(folder / f"{module}.antt")
    return text is not None and (name in ("", "antt") or declares(text, name.split(".")[0]))


def in_fund(module, name):
    text = text_of(CRATES / "fund" / "specs" / f"{module}.antt")
    return text is None or not name or declares(text, name)


def known(quoted):
    """Whether what stands between backticks, if it is a name, a key or a command, is one of ours."""
    if SPELLED.fullmatch(quoted):
        return quoted in words() or all(part in words() for part in re.split(r"\.|::", quoted))
    if re.fullmatch(rf"({WORD.pattern})=.*", quoted):
        return WORD.match(quoted)[0] in words()
    if quoted.startswith(("./", ".ci", "python3 ")) and COMMAND.fullmatch(quoted):
        return (ROOT / COMMAND.fullmatch(quoted)[1]).exists()
    return True


def lost(page):
    """Places of a page whose path or name leads nowhere."""
    fenced = False
    for number, line in enumerate(page.read_text(encoding="utf-8").split("\n"), 1):
        fenced ^= line.startswith("```")
        for found in IN_CRATE.finditer(line):
            if not in_crate(*found.groups()):
                yield number, found[0]
        for found in FUNCTION.finditer(line):
            crate, name = found.groups()
            last = name.split("::")[-1]
            if (CRATES / crate).is_dir() and not re.search(rf"(?:fn|struct|enum|const|mod) {last}\b", code_of(crate)):
                yield number, found[0]
        for found in OWN_FILE.finditer(line):
            path = found[1]
            if not IN_CRATE.search(path) and not path.startswith("crates/NAME") and not (ROOT / path).exists():
                yield number, path
        for found in LINK.finditer(line):
            if not (page.parent / found[1]).exists():
                yield number, found[1]
        if page == METHOD:
            for found in DEFINITION.finditer(line):
                if not in_fund(*found.groups()):
                    yield number, found[0]
        if not fenced and not line.startswith("    "):
            for found in QUOTED.finditer(line):
                if not known(found[1]):
                    yield number, found[0]


def long_ones(page):
    """Lines of prose that are not wrapped, and cells of a table that are too long."""
    fenced = False
    for number, line in enumerate(page.read_text(encoding="utf-8").split("\n"), 1):
        fenced ^= line.startswith("```")
        if line.startswith("|"):
            yield from ((number, f"a cell of {len(cell)} characters") for cell in line.split("|") if len(cell.strip()) > MOST_CELL)
        elif len(line) > MOST_PROSE and not fenced and not line.startswith("    "):
            yield number, f"a line of {len(line)} characters"


def references(path):
    """References that lead to no section and to no request."""
    method = METHOD.read_text(encoding="utf-8")
    sections = set(re.findall(r"(?m)^## (\d+)\. ", method))
    requests = set(re.findall(r"(?m)^\| §(\d+) ", method))
    for number, line in enumerate(path.read_text(encoding="utf-8").split("\n"), 1):
        if path not in (*ABOUT_WORDING, HISTORY, Path(__file__).resolve()) and re.search(r"[Dd]ocument 0?[12]\b", line):
            yield number, "a document that is not here"
        for first, last, request in REFERENCE.findall(line):
            if request not in requests | {""} and path != METHOD or not {first, last} <= sections | {""}:
                yield number, f"METHOD {first}{last}" if first else f"§{request}"


def too_long():
    """The claims, and each landing's note."""
    if len((DOCS / "CLAIMS.md").read_bytes()) > MOST_CLAIMS:
        yield "docs/CLAIMS.md is too long"
    for note in re.split(r"(?m)^## ", HISTORY.read_text(encoding="utf-8"))[1:]:
        size = len(note.encode()) + 3
        if size > MOST_NOTE and not note.startswith("Sizes and times"):
            yield f"docs/CHANGES.md: {note.splitlines()[0]}: {size} bytes"


def pages():
    found = [ROOT / "README.md", *sorted(DOCS.glob("*.md"))]
    return found + [path for folder in ("tests", "bench", "fuzz", "examples") for path in sorted((ROOT / folder).glob("*.md"))]


def faults():
    for page in pages():
        name = page.relative_to(ROOT)
        if page not in (HISTORY, PORT):
            yield from (f"{name}:{number}: {what} leads nowhere" for number, what in lost(page))
        if page != PORT:
            yield from (f"{name}:{number}: {what}" for number, what in long_ones(page))
    for path in [*pages(), *sources()]:
        yield from (f"{path.relative_to(ROOT)}:{number}: {what} leads nowhere" for number, what in references(path))
    yield from too_long()
    if wrong_programs.PAGE.read_text(encoding="utf-8") != wrong_programs.page():
        yield "docs/WRONG-PROGRAMS.md is not what docs/wrong_programs.py writes"


def main():
    found = list(faults())
    for fault in found:
        print(fault)
    print(f"{len(pages())} pages, {len(found)} faults")
    return 1 if found else 0


if __name__ == "__main__":
    sys.exit(main())
