"""Checks of ./sheet_bytes, on .csv and .ods files made here and on the example's.

    python3 tests/test_sheet_bytes.py

A check is a pair (name, holds).  The last line printed counts them.
"""

import resource
import struct
import subprocess
import sys
import tempfile
import zipfile
from pathlib import Path

import pricing
import sheets

ROOT = Path(__file__).resolve().parent.parent
EXAMPLE = ROOT / "examples" / "sheets"
BLANK = struct.pack("<Q", 0x7ff8000000000000)

MEMBERS = struct.pack("<5d", 40, 1, 12, 8, 1) + struct.pack("<3d", 61, 2, 3) + BLANK + struct.pack("<d", 30)
RATES = struct.pack("<3d", 40, 1530 / 1000000, 1421 / 1000000) + struct.pack("<3d", 41, 1, 0)

SPACES = "".join(f' xmlns:{prefix}="urn:oasis:names:tc:opendocument:xmlns:{prefix}:1.0"' for prefix in ("office", "table", "text"))
SPACES += ' xmlns:calcext="urn:org:documentfoundation:names:experimental:calc:xmlns:calcext:1.0"'


# Sheets

def number(value, kind="float", inner=""):
    return f'<table:table-cell office:value-type="{kind}" office:value="{value}">{inner}<text:p>shown</text:p></table:table-cell>'


def text(words):
    return f'<table:table-cell office:value-type="string"><text:p>{words}</text:p></table:table-cell>'


def empty(repeated=1):
    return f'<table:table-cell table:number-columns-repeated="{repeated}"/>'


def row(*cells, repeated=1):
    return f'<table:table-row table:number-rows-repeated="{repeated}">{"".join(cells)}</table:table-row>'


def numbers(*values):
    return row(*map(number, values))


def table(*rows, name="one"):
    return f'<table:table table:name="{name}"><table:table-column/>{"".join(rows)}</table:table>'


def content(*tables):
    return (f"<office:document-content{SPACES}><office:body><office:spreadsheet>{''.join(tables)}"
            "</office:spreadsheet></office:body></office:document-content>")


def ods(path, *tables, part="content.xml"):
    with zipfile.ZipFile(path, "w") as parts:
        parts.writestr(part, tables[0] if len(tables) == 1 and tables[0].startswith("not") else content(*tables))


# One run: the exit status, what is said, and the bytes written or None

def run(folder, name, columns, *options, most=resource.RLIM_INFINITY):
    """Where most is given, no file can get longer, as on a disk that is full."""
    made = folder / "made"
    made.unlink(missing_ok=True)
    done = subprocess.run([sys.executable, ROOT / "sheet_bytes", "--columns", str(columns), *options, folder / name, made],
                          stdout=subprocess.PIPE, stderr=subprocess.PIPE, text=True,
                          preexec_fn=lambda: resource.setrlimit(resource.RLIMIT_FSIZE, (most, most)))
    return done.returncode, done.stdout + done.stderr, made.read_bytes() if made.exists() else None


def made(found, wanted):
    return (found[0], found[2]) == (0, wanted)


def faulty(found, *words):
    """Status 2, nothing written, and the words said."""
    return (found[0], found[2]) == (2, None) and all(word in found[1] for word in words)


TITLES = "age,group,death amount,disability amount,lives\n"
ROWS = "40,1,12,8,1\n61,2,3,,30\n"
# Without the fifth column each row has a blank there, which is for the pricing to refuse.
FOUR_COLUMNS = struct.pack("<4d", 40, 1, 12, 8) + BLANK + struct.pack("<3d", 61, 2, 3) + BLANK * 2

CSV_MADE = {
    "rows": (ROWS, MEMBERS), "titles": (TITLES + ROWS, MEMBERS), "two rows of titles": ("members,,,,\n" + TITLES + ROWS, MEMBERS),
    "an empty row behind the titles": (TITLES + ",,,,\n" + ROWS, MEMBERS),
    "empty rows at the end": (ROWS + ",,,,\n\n,,,,\n", MEMBERS), "no last line feed": (ROWS[:-1], MEMBERS),
    "carriage returns": (ROWS.replace("\n", "\r\n"), MEMBERS), "a byte order mark": ("\ufeff" + ROWS, MEMBERS),
    "quoted": ('"40","1","12","8","1"\n"61","2","3","","30"\n', MEMBERS), "rows without their last cells": ("40,1,12,8\n61,2,3\n", FOUR_COLUMNS),
    "spaces": (" 40, 1 ,12,8 , 1\n61,2,3, ,30 \n", MEMBERS), "more columns": ("40,1,12,8,1,note\n61,2,3,,30,7\n", MEMBERS),
    "spelled otherwise": ("4e1,+1,12.0,8.,1\n61,2,.3e1,,3E1\n", MEMBERS), "nothing": ("", b""), "empty rows alone": (",,,,\n\n", b""),
    "minus zero and a half": ("-0,0.5,1e300,-1,1001\n", struct.pack("<5d", -0.0, 0.5, 1e300, -1, 1001)),
    "the least": ("5e-324,0,0,0,0\n", struct.pack("<5d", 5e-324, 0, 0, 0, 0)),
}
CSV_FAULTY = {
    "text": (ROWS + "40,x,1,1,1\n", "B3: text (x)"), "text behind titles": (TITLES + ROWS + "1,1,1,none,1\n", "D4: text (none)"),
    "text in the first row": ("40,1,12,eight,1\n", "D1: text (eight)"), "titles again": (ROWS + TITLES, "A3: text (age)"),
    "text for the lives": ("40,1,12,8,one\n", "E1: text (one)"), "a title where lives belong": ("40,1,12,8,lives\n", "E1: text (lives)"),
    "an empty row": ("40,1,12,8,1\n,,,,\n61,2,3,,30\n", "row 2 is empty, and row 3"), "nan": ("40,1,nan,8\n", "C1"), "inf": ("40,1,inf,8\n", "C1"),
    "an underscore": ("40,1,1_2,8\n", "C1"), "a decimal comma": ('40,1,"1,5",8\n', "C1"), "a percentage": ("40,1,5%,8\n", "C1"),
    "hexadecimal": ("40,1,0x1,8\n", "C1"), "another digit": ("40,1,\u0664,8\n", "C1"), "an open quote": ('40,1,"12,8\n', "not a .csv"),
    "a failed formula": ("40,1,#DIV/0!,8\n", "C1"), "another separator": ("40;1;12;8\n61;2;3;\n", "text alone"), "titles alone": (TITLES, "text alone"),
}
MEMBER_COLUMNS = 5


def csv_checks(folder):
    path = folder / "sheet.csv"
    for name, (given, wanted) in CSV_MADE.items():
        path.write_bytes(given.encode())
        yield f"csv: {name}", made(run(folder, path.name, MEMBER_COLUMNS), wanted)
    for name, (given, words) in CSV_FAULTY.items():
        path.write_bytes(given.encode())
        yield f"csv: {name}: an error", faulty(run(folder, path.name, MEMBER_COLUMNS), "sheet.csv: ", words)
    path.write_bytes(ROWS.replace(",", ";").encode())
    yield "csv: separated by semicolons", made(run(folder, path.name, MEMBER_COLUMNS, "--separator", ";"), MEMBERS)
    path.write_bytes(b"40,1,\xff,8\n")
    yield "csv: bytes that are no text: an error", faulty(run(folder, path.name, MEMBER_COLUMNS), "not a .csv")
    path.write_text("age,q,i\n40,0.00153,0.001421\n41,1,0\n")
    yield "csv: three columns", made(run(folder, path.name, 3), RATES)


MEMBER_ROWS = (numbers(40, 1, 12, 8, 1), row(*map(number, (61, 2, 3)), empty(), number(30), empty(1019)))
END = row(empty(1024), repeated=1048000)

ODS_MADE = {
    "rows": ((table(*MEMBER_ROWS),), MEMBERS), "titles": ((table(row(text("age"), text("group")), *MEMBER_ROWS, END),), MEMBERS),
    "empty rows first": ((table(row(empty(9), repeated=4), *MEMBER_ROWS),), MEMBERS),
    "a row four times": ((table(row(*map(number, (40, 1, 12, 8, 1)), repeated=4)),), MEMBERS[:40] * 4),
    "no fifth column": ((table(numbers(40, 1, 12, 8), row(*map(number, (61, 2, 3)), empty(1021))),), FOUR_COLUMNS),
    "a number in four columns": ((table(row(number(40), number(2).replace("<table:table-cell", '<table:table-cell table:number-columns-repeated="4"'))),),
                                 struct.pack("<5d", 40, 2, 2, 2, 2)),
    "rows in groups": ((table(f"<table:table-header-rows>{row(text('age'))}</table:table-header-rows>",
                              f"<table:table-row-group>{MEMBER_ROWS[0]}</table:table-row-group>", MEMBER_ROWS[1]),), MEMBERS),
    "a percentage and a currency": ((table(row(number(40), number(1, "percentage"), number(12, "currency"), number(8), number(1)), MEMBER_ROWS[1]),), MEMBERS),
    "a note at a cell": ((table(row(number(40, inner="<office:annotation><text:p>note</text:p></office:annotation>"), number(1), number(12),
                                    number(8), number(1)), MEMBER_ROWS[1]),), MEMBERS),
    "an empty text": ((table(MEMBER_ROWS[0], row(*map(number, (61, 2, 3)), text(""), number(30))),), MEMBERS),
    "a covered cell": ((table(MEMBER_ROWS[0], row(*map(number, (61, 2, 3)), "<table:covered-table-cell/>", number(30))),), MEMBERS),
    "more columns": ((table(row(*map(number, (40, 1, 12, 8, 1)), text("note")), MEMBER_ROWS[1]),), MEMBERS),
    "the first of two sheets": ((table(*MEMBER_ROWS), table(numbers(1, 1, 1, 1, 1), name="two")), MEMBERS),
    "exponents": ((table(row(number("4E+1"), number("1"), number("1.2E1"), number("8"), number("1E0")), MEMBER_ROWS[1]),), MEMBERS),
    "no rows": ((table(),), b""), "empty rows alone": ((table(END),), b""),
}
ODS_FAULTY = {
    "text": ((table(*MEMBER_ROWS, row(number(1), text("x"))),), "B3: text (x)"),
    "a number entered as text": ((table(row(text("age")), row(text("40"), number(1), number(1), number(1))),), "A2: a number entered as text (40)"),
    "a first row entered as text": ((table(row(*map(text, ("40", "1", "12", "8")))),), "A1: a number entered as text (40)"),
    "a date": ((table(row(number(1), '<table:table-cell office:value-type="date"><text:p>1.1.30</text:p></table:table-cell>')),), "B1: a date (1.1.30)"),
    "a truth value": ((table(row(number(1), '<table:table-cell office:value-type="boolean"><text:p>TRUE</text:p></table:table-cell>')),), "B1: a truth value"),
    "a formula that failed": ((table(row(number(1), '<table:table-cell office:value-type="string" office:string-value="" '
                                        'calcext:value-type="error"><text:p>#DIV/0!</text:p></table:table-cell>')),), "B1: a formula that failed (#DIV/0!)"),
    "a number without its value": ((table(row(number(1), '<table:table-cell office:value-type="float"/>')),), "B1: a number that is not there"),
    "an empty row": ((table(MEMBER_ROWS[0], row(empty(4), repeated=2), MEMBER_ROWS[1]),), "row 2 is empty, and row 4 is not"),
    "text behind rows that are repeated": ((table(row(number(1), repeated=5), row(text("sum"))),), "A6: text (sum)"),
    "titles alone": ((table(row(text("age"))),), "text alone"), "no sheet": ((), "no sheet in it"), "broken": (("not xml",), "not an .ods"),
}


def ods_checks(folder):
    path = folder / "sheet.ods"
    for name, (tables, wanted) in ODS_MADE.items():
        ods(path, *tables)
        yield f"ods: {name}", made(run(folder, path.name, MEMBER_COLUMNS), wanted)
    for name, (tables, words) in ODS_FAULTY.items():
        ods(path, *tables)
        yield f"ods: {name}: an error", faulty(run(folder, path.name, MEMBER_COLUMNS), "sheet.ods: ", words)
    ods(path, table(numbers(1, 1, 1, 1, 1)), table(*MEMBER_ROWS, name="two"))
    yield "ods: a sheet by its name", made(run(folder, path.name, MEMBER_COLUMNS, "--sheet", "two"), MEMBERS)
    yield "ods: no sheet of that name: an error", faulty(run(folder, path.name, MEMBER_COLUMNS, "--sheet", "three"), "no sheet three", "one, two")
    ods(path, table(numbers(40, "0.00153", "0.001421"), numbers(41, 1, 0)))
    yield "ods: three columns", made(run(folder, path.name, 3), RATES)
    ods(path, table(), part="other.xml")
    yield "ods: another archive: an error", faulty(run(folder, path.name, MEMBER_COLUMNS), "not an .ods")
    path.write_bytes(b"40,1,12,8\n")
    yield "ods: no archive: an error", faulty(run(folder, path.name, MEMBER_COLUMNS), "not an .ods")


def use_checks(folder):
    (folder / "sheet.txt").write_text(ROWS)
    (folder / "sheet.csv").write_text(ROWS)
    ods(folder / "sheet.ods", table(*MEMBER_ROWS))
    yield "use: another ending: an error", faulty(run(folder, "sheet.txt", 5), "neither .ods nor .csv")
    yield "use: no file: an error", faulty(run(folder, "none.csv", 5), "none.csv: No such file")
    yield "use: four columns: an error", faulty(run(folder, "sheet.csv", 4), "--columns")
    yield "use: six columns: an error", faulty(run(folder, "sheet.csv", 6), "--columns")
    yield "use: a separator of two characters: an error", faulty(run(folder, "sheet.csv", 5, "--separator", "ab"), "one character")
    yield "use: a separator for .ods: an error", faulty(run(folder, "sheet.ods", 5, "--separator", ";"), "is for .csv")
    yield "use: a sheet for .csv: an error", faulty(run(folder, "sheet.csv", 5, "--sheet", "one"), "is for .ods")
    for most in (0, 1, 40, 79):
        yield f"use: no room for more than {most} bytes: an error", faulty(run(folder, "sheet.csv", 5, most=most), "made: File too large")
    yield "use: room for all bytes", made(run(folder, "sheet.csv", 5, most=80), MEMBERS)
    yield "use: how many rows", run(folder, "sheet.csv", 5)[1] == "2 rows of 5 cells\n"


def example_checks(folder):
    """The example's sheets give its bytes, and the bytes the answer of the file."""
    for name, columns in (("rates", 3), ("members", MEMBER_COLUMNS)):
        (folder / f"{name}.ods").write_bytes((EXAMPLE / f"{name}.ods").read_bytes())
        yield f"example: {name}", made(run(folder, f"{name}.ods", columns), (EXAMPLE / f"{name}.sheet").read_bytes())
    data = (ROOT / "examples" / "sixty-members.fund").read_bytes()
    three = [(EXAMPLE / name).read_bytes() for name in ("header.txt", "rates.sheet", "members.sheet")]
    yield "example: priced as the file", sheets.price_sheets(*three, level=10 ** 11) == pricing.price(data, level=10 ** 11)


def checks():
    found = []
    with tempfile.TemporaryDirectory() as directory:
        for part in (csv_checks, ods_checks, use_checks, example_checks):
            found += part(Path(directory))
    return found


def main():
    found = checks()
    bad = [name for name, holds in found if not holds]
    for name in bad:
        print(f"  FAILED {name}")
    print(f"{len(found) - len(bad)} passed, {len(bad)} failed")
    return 1 if bad else 0


if __name__ == "__main__":
    sys.exit(main())
