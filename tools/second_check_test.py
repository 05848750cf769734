#!/usr/bin/env python3
"""What the second checker answers to a report, to forgeries of it, and to databases that are refused.

    tools/second_check_test.py
"""

import os
import re
import subprocess
import sys
import tempfile
import unittest

from database import Database, Refused, System

HERE = os.path.dirname(os.path.abspath(__file__))
ROWS = os.path.join(HERE, "..", "crates", "run_tables")

ONE_ELEMENT = """ELEMENT VA VACUUM 0 0 0 !
ELEMENT A ALPHA 10 0 0 !
PHASE ALPHA % 1 1 !
CONSTITUENT ALPHA :A: !
PARAMETER G(ALPHA,A;0) 1 -1000; 6000 N !
PHASE BETA % 1 1 !
CONSTITUENT BETA :A: !
PARAMETER G(BETA,A;0) 1 -500-1*T; 6000 N !
"""

TWO_COMPOUNDS = """ELEMENT A A 10 0 0 !
ELEMENT B B 10 0 0 !
PHASE A2B % 2 2 1 !
CONSTITUENT A2B :A:B: !
PARAMETER G(A2B,A:B;0) 1 -30000; 6000 N !
PHASE AB2 % 2 1 2 !
CONSTITUENT AB2 :A:B: !
PARAMETER G(AB2,A:B;0) 1 -30000; 6000 N !
"""

COMPOUNDS_REPORT = """equilibrium 1
temperature 100000
lattice 10
elements A B
phases A2B AB2
asked 10000000000 10000000000
entries 2
entry A2B 333333333 10 : 10
entry AB2 333333333 10 : 10
total 9999999990 9999999990
energy -19999999980000000000
tolerance 10
gap 1999999997694825
potentials -65542553599999 -65542553599999
tree A2B
L 0 0
tree AB2
L 0 0
end
"""

# The lines of a report that are put in another's place, and the answer.
FORGERIES = {
    "the report itself": ({}, "accepted 1"),
    "other multipliers": ({16: "L 5 7"}, "accepted 1"),
    "another lattice": ({3: "lattice 20"}, "line 8 rule entry"),
    "entries that fall": ({8: "entry AB2 333333333 10 : 10", 9: "entry A2B 333333333 10 : 10"}, "line 9 rule entry"),
    "another amount": ({8: "entry A2B 333333334 10 : 10"}, "line 10 rule total"),
    "another total": ({10: "total 9999999991 9999999990"}, "line 10 rule total"),
    "another energy": ({11: "energy -19999999980000000001"}, "line 11 rule energy"),
    "a tolerance that is too small": ({12: "tolerance 9"}, "line 12 rule tolerance"),
    "a gap that is too small": ({13: "gap 1999999997694824"}, "line 13 rule gap"),
    "a potential that is too large": ({14: "potentials 10384593717069655257060992658440192 0"}, "line 14 rule potentials"),
    "potentials above a phase": ({14: "potentials -65535999999999 -65535999999999"}, "line 16 rule tree"),
    "potentials that touch both phases": ({14: "potentials -65536000000000 -65536000000000"}, "accepted 1"),
    "an empty node over a list with content": ({16: "E"}, "line 16 rule tree"),
    "a split where there is none": ({16: "S 0 5\nL 0 0\nL 0 0"}, "line 16 rule tree"),
    "a number with a zero in front": ({12: "tolerance 010"}, "line 12 rule text"),
    "a name that is no phase": ({8: "entry A3B 333333333 10 : 10"}, "line 8 rule text"),
    "phases in another order": ({5: "phases AB2 A2B", 15: "tree AB2", 17: "tree A2B"}, "line 5 rule system"),
    "elements in another order": ({4: "elements B A"}, "line 4 rule system"),
    "a multiplier too few": ({16: "L 0"}, "line 16 rule tree"),
}

# Changes of lines of the first database, 9 and above being behind its end, and the refusal.
DATABASES = {
    "a word that is no command": ({1: "XYZ A !"}, "refused database line 1 rule word"),
    "a word of two letters": ({1: "IF X !"}, "refused database line 1 rule word"),
    "a form that is left out": ({1: "FTP_FILE X !"}, "refused database line 1 rule left-out"),
    "unfinished text": ({9: "PHASE GAMMA % 1 1"}, "refused database line 9 rule unfinished"),
    "functions in a circle": (
        {8: "PARAMETER G(BETA,A;0) 1 +F1#; 6000 N !", 9: "FUNCTION F1 1 +F2#; 6000 N !", 10: "FUNCTION F2 1 +F1#; 6000 N !"},
        "refused system cycle line 10",
    ),
    "a name that is no function": (
        {8: "PARAMETER G(BETA,A;0) 1 +F1#; 6000 N !", 9: "FUNCTION F1 1 +F2#; 6000 N !"},
        "refused system missing line 9",
    ),
    "a form that is not supported": ({8: "PARAMETER G(BETA,A;0) 1 EXP(T); 6000 N !"}, "refused system unsupported line 8"),
    "a number that is too large": ({8: "PARAMETER G(BETA,A;0) 1 1E19; 6000 N !"}, "refused system too-large line 8"),
    "an energy that is too large": ({8: "PARAMETER G(BETA,A;0) 1 36028737018.963969; 6000 N !"}, "refused system energy BETA"),
    "a ratio with six decimals": ({6: "PHASE BETA % 1 0.333333 !"}, "refused system ratios line 6"),
    "a ratio that is too large": ({6: "PHASE BETA % 1 100001 !"}, "refused system ratios line 6"),
    "an ionic liquid": ({6: "PHASE BETA:Y % 1 1 !"}, "refused system ionic line 6"),
    "another word for a parameter": ({5: "PAR G(ALPHA,A;0) 1 -1000; 6000 N !", 8: "PAR G(BETA,A;0) 1 -500-1*T; 6000 N !"}, "accepted 1"),
    "a comment within a command": ({5: "PARAMETER G(ALPHA,A;0)\n$ note !\n 1 -1000; 6000 N !"}, "accepted 1"),
}

ONE_REPORT = """equilibrium 1
temperature 100000
lattice 10
elements A
phases ALPHA BETA
asked 10000000000
entries 1
entry BETA 1000000000 10
total 10000000000
energy -1500000000000000000
tolerance 0
gap 999999999847413
potentials -9836953599999
tree ALPHA
L 0
tree BETA
L 0
end
"""


def with_lines(text, changes):
    lines = text.splitlines()
    for place, line in sorted(changes.items()):
        lines[place - 1 : place] = [line]
    return "\n".join(lines) + "\n"


def answer(database, report):
    with tempfile.TemporaryDirectory() as room:
        names = []
        for name, text in (("database", database), ("report", report)):
            names.append(os.path.join(room, name))
            with open(names[-1], "w") as file:
                file.write(text)
        said = subprocess.run([sys.executable, f"{HERE}/second_check.py", *names], capture_output=True, text=True)
        return said.stdout.strip() or said.stderr


class SecondCheck(unittest.TestCase):
    def test_forgeries(self):
        for name, (changes, wanted) in FORGERIES.items():
            with self.subTest(name):
                report = with_lines(COMPOUNDS_REPORT, changes)
                wanted = wanted if wanted.startswith("accepted") else f"refused report {wanted}"
                self.assertEqual(answer(TWO_COMPOUNDS, report), wanted)

    def test_a_report_cut_short_is_refused_behind_its_last_line(self):
        for lines in range(19):
            text = "".join(COMPOUNDS_REPORT.splitlines(keepends=True)[:lines])
            self.assertEqual(answer(TWO_COMPOUNDS, text), f"refused report line {lines + 1} rule text")

    def test_databases(self):
        for name, (changes, wanted) in DATABASES.items():
            with self.subTest(name):
                self.assertEqual(answer(with_lines(ONE_ELEMENT, changes), ONE_REPORT), wanted)

    def test_the_rows_of_the_program_have_the_same_refusals(self):
        for shown, text, words, wanted in equilibria():
            with self.subTest(shown):
                self.assertEqual(refusal(text, words), wanted)

    def test_the_documents_of_the_program_are_judged_alike(self):
        for shown, database, report, wanted in documents():
            with self.subTest(shown):
                self.assertEqual(answer(database, report), wanted)


# ---- the rows of crates/run_tables: a name, a text with lines that stand in place of its own, words, what the program printed


def own(*path):
    with open(os.path.join(ROWS, *path), encoding="latin-1") as file:
        return file.read()


def texts():
    source = own("src", "texts.rt")
    lists = {}
    for name, body in re.findall(r"static (\w+): \[&\[u8\]; \d+\] = \[(.*?)\n\];", source, re.S):
        lists[name] = re.findall(r'b"((?:[^"\\]|\\.)*)"', body)
    named = re.findall(r'"(\w+)" => (\w+)\.', source)
    return {"": [], **{name: lists[of] for name, of in named}}


def text_of(known, named):
    """The text of a name, with lines in place of its own, at its end, or taken out."""
    base, *changes = named.split("|")
    lines = list(known[base])
    for change in changes:
        place, mark, text = int(change[:2]) if change[:2].isdigit() else 0, change[2:3], change[3:]
        if not 0 < place <= len(lines):
            lines.append(text)
        else:
            lines[place - 1 : place] = [] if mark == "-" else [text]
    return "".join(line.replace("^", "\n") + "\n" for line in lines)


def rows():
    """Of each row: its name, the database, the words, the text of the second file, if any, and what the program printed."""
    known = texts()
    for row, printed in zip(own("stdin").splitlines(), own("stdout").splitlines()):
        shown, named, words, *more = row.split("~")
        yield shown, text_of(known, named), words, text_of(known, more[1]) if len(more) > 1 else None, printed[len(shown) + 2 :]


def equilibria():
    """Of each row whose words are read: its name, the database, the options, and the refusal of the database or the system, or None."""
    for shown, text, words, _, printed in rows():
        if words.startswith("equilibrium ") and printed[:1] in "0234":
            refused = re.match(r"[23] (refused (?!system infeasible).*)/", printed)
            pairs = words.split(" ")[1:]
            yield shown, text, dict(zip(pairs[::2], pairs[1::2])), refused and refused.group(1)


def documents():
    """Of each row that checks a second file: its name, the database, the file, and the answer."""
    for shown, database, words, report, printed in rows():
        if words == "check --db DB --report R":
            yield shown, database, report, printed[2:].rstrip("/")


def refusal(text, options):
    t = round(float(options["--t"]) * 100)
    elements = [item.split("=")[0].upper() for item in options["--amounts"].split(",")]
    try:
        db = Database(text)
        listed = options["--phases"].upper().split(",") if "--phases" in options else list(db.phases)
        System(db, t, int(options["--lattice"]), elements, listed)
    except Refused as refused:
        return str(refused)
    return None


if __name__ == "__main__":
    unittest.main()
