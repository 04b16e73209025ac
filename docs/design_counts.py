"""Counts the places of docs/DESIGN-PASS.md at two commits, and prints the page's table of counts.

    python3 docs/design_counts.py [OLD [NEW]]

OLD is the page's first line where none is given, NEW is HEAD.  A pattern is counted by
`git grep -hE PATTERN COMMIT -- 'crates/*/src/*.rt' | wc -l`; the other counts are of files,
of lines, and of functions by their text.
"""

import collections
import re
import subprocess
import sys
from pathlib import Path

ROOT = Path(__file__).resolve().parent.parent
PUB = r"(pub(\([a-z]+\))? )?"
ITERATOR = "iter|iter_mut|chunks|zip|rev|map|all|any|position|fill|starts_with|split|step_by|take"
PATTERNS = (
    (1, "enums", rf"^\s*{PUB}enum "),
    (1, "fields that are flags", rf"^\s+{PUB}[a-z_]+: bool,$"),
    (1, "lines that name Option or Result", r"\b(Option|Result)<"),
    (1, "lines with `?`", r"\)\?[;.,)]"),
    (2, "traits", rf"^{PUB}trait "),
    (2, "const parameters and type parameters of own functions and types", r"<const [A-Z]+: |\bfn [a-z_]+<[A-Z]|struct [A-Za-z]+<[A-Z]"),
    (3, "while and loop", r"^\s*(while|loop)\b"),
    (3, "lines that count by one", r"[a-z_.]+ [+-]= 1;$"),
    (3, "for", r"^\s*for "),
    (3, "lines with an iterator or a method of slices", rf"\.({ITERATOR})\("),
    (4, "derives of Clone and Copy", r"derive\(Clone, Copy"),
    (4, "derives of PartialEq and Eq", r"derive\(.*PartialEq, Eq"),
    (4, "derives of Drop", r"derive\(.*Drop"),
    (4, "impls of a trait", r"^impl.* for "),
    (4, "`==` on two fields of one name", r"\b[a-z]+(\.[a-z_]+) == [a-z]+\1\b"),
    (5, "a text and a place as parameters", r"text: &mut \[u8\], at: usize"),
    (5, "`transform: &mut` (five slices, or two)", r"transform: &mut"),
    (6, "arrays of rows with a count beside them", r"\[(Rate|Member|ModelPoint|rate|member|none|0usize|usize); "),
    (6, "lines that name ArrayVec", r"\bArrayVec\b"),
    (7, "match on a step's number", r"match (k|step|i|n) \{"),
    (7, "dyn, function pointers", r"\bdyn |: fn\("),
)


def git(*words):
    return subprocess.run(("git", "-C", str(ROOT), *words), capture_output=True, text=True).stdout


def matches(pattern, commit):
    return len(git("grep", "-hE", pattern, commit, "--", "crates/*/src/*.rt").splitlines())


def files(commit, ending):
    return [path for path in git("ls-tree", "-r", "--name-only", commit, "crates").splitlines() if re.search(ending, path)]


def functions(commit):
    """Each function from its parameters on, without comments."""
    for path in files(commit, r"/src/.*\.rt$"):
        text = re.sub(r"//[^\n]*", "", git("show", f"{commit}:{path}"))
        for start in re.finditer(r"(?m)^( *)(?:pub(?:\([a-z]+\))? )?fn \w+", text):
            end = text.find(f"\n{start[1]}}}\n", start.end())
            yield text[start.end() : end]


def shape(text):
    """A function's text with one letter for each name and one for each number."""
    words = re.findall(r"\w+|[^\w\s]", text)
    return " ".join("0" if word[0].isdigit() else "x" if word[0].isalpha() or word[0] == "_" else word for word in words)


def counts(commit):
    for point, what, pattern in PATTERNS:
        yield point, what, matches(pattern, commit)
    found = list(functions(commit))
    shapes = collections.Counter(map(shape, found))
    yield 2, "functions whose text is another's but for names and numbers", sum(n for n in shapes.values() if n > 1)
    yield 5, "functions of seven or more parameters", sum(text.partition("{\n")[0].partition(") ->")[0].count(": ") > 6 for text in found)
    yield 8, "files of answers", len(files(commit, r"/proofs/.*(Answers|Invariants)\.antt$"))
    yield 8, "lines of proofs", sum(git("show", f"{commit}:{path}").count("\n") for path in files(commit, r"/proofs/.*\.antt$"))


def main():
    old = sys.argv[1] if len(sys.argv) > 1 else (ROOT / "docs" / "DESIGN-PASS.md").read_text(encoding="utf-8").split("\n")[0]
    new = sys.argv[2] if len(sys.argv) > 2 else "HEAD"
    print("| Point | What is counted | Before | Now |")
    print("|---|---|---|---|")
    rows = [(point, what, n, m) for (point, what, n), (_, _, m) in zip(counts(old), counts(new))]
    for point, what, n, m in sorted(rows, key=lambda row: row[0]):
        print(f"| {point} | {what} | {n:,} | {m:,} |")


if __name__ == "__main__":
    main()
