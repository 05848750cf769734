#!/usr/bin/env python3
"""Compares the program's `check` with the second checker, on reports over random databases and on forgeries of them.

    tools/beside.py PROGRAM [REPORTS]

PROGRAM is the program itself (or the launcher); a hundred reports are made where no number is given. Each report is judged by both, and so are
a dozen copies of it in each of which one line was changed, taken out or written twice. It prints how many were judged and how many of these
were accepted, and each file on which the two differ; it ends with 1 where there is one. It is no part of what is proved.
"""

import os
import random
import subprocess
import sys
import tempfile
from pathlib import Path

import second_check

FORGERIES = 12


def line(text):
    return text + "\n"


def solution(rng, name, elements):
    """A phase of one or two sublattices, with interactions of every form."""
    ratios = rng.choice([["1"], ["1"], ["3", "1"], ["0.5", "1.5"]])
    rows = [sorted(rng.sample(elements, rng.randint(1, len(elements)))) for _ in ratios]
    if rng.random() < 0.3:
        rows[-1] = sorted(rows[-1] + ["VA"]) if len(rows) > 1 else rows[-1]
    text = line(f"PHASE {name} % {len(ratios)} {' '.join(ratios)} !") + line(f"CONSTITUENT {name} :{':'.join(','.join(r) for r in rows)}: !")
    for _ in range(rng.randint(1, 5)):
        array = [rng.sample(row, min(len(row), rng.choice([1, 1, 2, 2, 3]))) for row in rows]
        sizes = sorted(map(len, array))
        order = rng.randint(0, 2) if sizes[-1] == 2 and sizes[:-1] in ([], [1]) else rng.randint(0, 2) if sizes[-1] == 3 and sizes[:-1] in ([], [1]) else 0
        if sizes[-1] == 3 and sizes[:-1] not in ([], [1]):
            continue
        value = f"{rng.randint(-40000, 40000)}{rng.choice(['', '-7.5*T', '+3*T', '+2*T*LN(T)'])}"
        text += line(f"PARAMETER G({name},{':'.join(','.join(one) for one in array)};{order}) 1 {value}; 6000 N !")
    return text


def case(rng):
    """A database, and the words of a run over it."""
    elements = ["A", "B", "C"][: rng.randint(1, 3)]
    text = "".join(line(f"ELEMENT {e} X 10 0 0 !") for e in ["VA"] + elements)
    text += "".join(solution(rng, f"P{i}", elements) for i in range(rng.randint(1, 3)))
    amounts = ",".join(f"{e}={rng.randint(1, 9)}" for e in elements)
    words = ["--t", str(rng.randint(300, 2000)), "--amounts", amounts, "--lattice", rng.choice(["10", "20", "25"]), "--gap", "1", "--budget", "100000"]
    return text, words


def forged(rng, lines):
    """A copy with one line changed, taken out or written twice."""
    found, place = list(lines), rng.randrange(len(lines))
    words = found[place].split(" ")
    numbers = [i for i, w in enumerate(words) if w.lstrip("-").isdigit()]
    way = rng.random()
    if words[0] in ("L", "A") and way < 0.3:
        words[0] = "A" if words[0] == "L" else "L"
        found[place] = " ".join(words)
    elif numbers and way < 0.85:
        i = rng.choice(numbers)
        words[i] = str(rng.choice([int(words[i]) + 1, int(words[i]) - 1, 0, -int(words[i]), 2 * int(words[i])]))
        found[place] = " ".join(words)
    elif way < 0.93:
        del found[place]
    else:
        found.insert(place, found[place])
    return found


def judged_by_second(database, report):
    try:
        return f"accepted {second_check.judge_document(second_check.Database(database), second_check.document(report.encode()))}"
    except second_check.Refused as refusal:
        return str(refusal)


def main(program, reports):
    sys.setrecursionlimit(10**6)
    rng, made, judged, accepted, apart = random.Random(1), 0, 0, 0, 0
    with tempfile.TemporaryDirectory() as folder:
        db, report = os.path.join(folder, "DB"), os.path.join(folder, "R")
        while made < reports:
            text, words = case(rng)
            Path(db).write_text(text)
            run = subprocess.run([program, "equilibrium", "--db", db, *words], stdout=subprocess.PIPE, stderr=subprocess.DEVNULL, check=False)
            if run.returncode:
                continue
            made += 1
            lines = run.stdout.decode().split("\n")[:-1]
            for copy in [lines] + [forged(rng, lines) for _ in range(FORGERIES)]:
                written = "".join(map(line, copy))
                Path(report).write_text(written)
                check = subprocess.run([program, "check", "--db", db, "--report", report], stdout=subprocess.PIPE, stderr=subprocess.DEVNULL, check=False)
                first, second = check.stdout.decode().strip(), judged_by_second(text, written)
                judged += 1
                accepted += first.startswith("accepted")
                if first != second:
                    apart += 1
                    print(f"{first} beside {second}:\n{text}{written}")
    print(f"{made} reports and their forgeries: {judged} judged, {accepted} accepted, {apart} apart")
    return 1 if apart else 0


if __name__ == "__main__":
    if len(sys.argv) not in (2, 3):
        sys.exit(__doc__)
    sys.exit(main(sys.argv[1], int(sys.argv[2]) if len(sys.argv) == 3 else 100))
