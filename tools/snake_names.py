#!/usr/bin/env python3
"""Spells the repository's own definitions, lemmas and fields of records in snake case, as the library spells its own.

usage: tools/snake_names.py [--list]     at the top of the repository, right after the kit's port script

A name that a file of specs/ or proofs/ declares, and that begins with no capital (or has a dash behind one), gets _ for each dash and
each inner capital: `cellAt` is `cell_at`, `near-unique` is `near_unique`. Types and modules keep their names, and so does what the
prover makes of a function: its goals, its steps and the proof `f-spec`. --list prints the names and writes nothing.
"""
import collections
import os
import re
import sys

TOKEN = re.compile(r"[^\s(){}.;,@\"«»\[\]\\`]+")
DECLARED = re.compile(r"^\s*((?:(?:pub|abbrev|unfoldable|record|data)\s+)*)([^\s(){}.;,@\"«»\[\]\\]+)(?:\s+[({].*)?\s*:\s+(.*)")
OPERATOR = re.compile(r"◌|^_|_$")
LIBRARY = (("getD", "get_or"), ("natAbs", "nat_abs"), ("negℤ", "neg_ℤ"), ("leb", "leb"))
# Names that would fall together with others, and what they are called instead.
OTHERWISE = {
    "add-l": "add_left",
    "add_r": "add_right",
    "mul-l": "mul_left",
    "answer-of": "answer_of_recursed",
    "first-lines": "first_lines_length",
    "half-line": "half_line_of",
    "line-terms": "line_terms_of",
    "point-terms": "point_terms_of",
    "mostAmount": "most_amount_file",
}
# A lemma that would have its function's name gets _lem.
LEMMAS = """all-numbers answer-by at-end bits-of cell-distance digits-within exact-move exact-under few-numbers figures-in file-in in-force
in-ranges is-number member-fits member-joined member-row member-taken members-of next-in odds-sum one-life quantile-read rate-fits
rate-joined rate-row rate-taken same-member no_line no_member not_negative other_row read_answer rows_behind rows_left step_sum sum_below
text_at told_of""".split()
# Names of the library, which some texts declare too.
OF_LIBRARY = set("""le_of_suc-le-suc add-zero zero-add not-false zero-mul mul-zero and-true or-false mul-one one-mul
le_of_mul-le-mul_right""".split())


def texts(kinds):
    for folder, dirs, files in os.walk("crates"):
        dirs[:] = sorted(d for d in dirs if d != "out")
        for f in sorted(files):
            if f.endswith(kinds):
                yield os.path.join(folder, f)


def read(path):
    with open(path, encoding="utf-8") as f:
        return f.read()


def snake(name):
    if name in OTHERWISE:
        return OTHERWISE[name]
    if name in LEMMAS:
        return re.sub("-", "_", name) + "_lem"
    for old, new in LIBRARY:
        name = name.replace(old, new)
    if not name[0].isupper() or "-" in name:
        name = re.sub(r"(?<=[a-z0-9])[A-Z]", lambda m: "_" + m[0].lower(), name)
    # an operator in a name keeps its own dash
    return re.sub(r"-(?!ℤ|$)", "_", name)


def declared():
    """The names that the texts declare: those of every file, and those that a proof of a function declares for a goal."""
    own, fields, goals = collections.Counter(), set(), set()
    for p in texts((".antt",)):
        inside = None
        for line in read(p).split("\n"):
            bare = re.sub(r"--.*", "", line)
            if not bare.strip():
                continue
            depth = len(bare) - len(bare.lstrip())
            if inside is not None and depth <= inside:
                inside = None
            m = DECLARED.match(bare)
            if not m or m[2] in ("let", "use", "module", "open", ":"):
                continue
            if re.match(r"(tie|goal)\.(Need|invariant|decreases)", m[3]) or m[2].endswith("-spec") and p.endswith("Proof.antt"):
                goals.add(m[2])
                continue
            own[m[2]] += 1
            if inside is not None:
                fields.add(m[2])
            if re.search(r"\b(record|data)\b", m[1]):
                inside = depth
    return own, fields, goals


def changes():
    own, fields, goals = declared()
    turned = {}
    for name in own:
        if OPERATOR.search(name) or name in OF_LIBRARY:
            continue
        new = snake(name)
        if new != name:
            turned[name] = new
    return turned, own, fields, goals


def fall_together(turned, own):
    met = collections.defaultdict(set)
    for name in own:
        met[turned.get(name, name)].add(name)
    return {new: olds for new, olds in met.items() if len(olds) > 1}


def is_own(module):
    parts = module.split(".")
    return parts[0] == "Rattle" and os.path.isdir(os.path.join("crates", parts[1]))


def turn(text, turned, fields, path):
    def one(m):
        t = m[0]
        if t not in turned:
            return t
        before = text[: m.start()]
        if before.endswith(".") and not before.endswith(".."):
            head = re.search(r"[^\s(){};,@\"«»\[\]\\]*$", before[:-1])[0]
            if not (head in ALIASES[path][0] or t in fields and head not in ALIASES[path][1]):
                return t
        return turned[t]

    return TOKEN.sub(one, text)


ALIASES = {}


def main(argv):
    turned, own, fields, goals = changes()
    turned["_≤Z_"] = "◌≤Z◌"
    together = fall_together(turned, own)
    if "--list" in argv:
        for name in sorted(turned):
            print(name, turned[name], "field" if name in fields else "", "goal" if name in goals else "")
        for new, olds in sorted(together.items()):
            print("together:", new, *sorted(olds))
        return 0
    if together:
        print("names fall together:", *(f"{n}: {sorted(o)}" for n, o in sorted(together.items())), sep="\n")
        return 1
    for p in texts((".antt", ".rt")):
        old = read(p)
        used = re.findall(r"\buse ([^\s;{]+) as ([^\s;]+)", old)
        ALIASES[p] = ({n for m, n in used if is_own(m)}, {n for m, n in used if not is_own(m)})
        new = turn(old, turned, fields, p)
        if new != old:
            with open(p, "w", encoding="utf-8") as f:
                f.write(new)
    print(len(turned), "names")
    return 0


if __name__ == "__main__":
    raise SystemExit(main(sys.argv[1:]))
