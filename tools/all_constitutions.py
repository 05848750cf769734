#!/usr/bin/env python3
"""The least energy of any assemblage of all lattice constitutions, by a floating simplex method, beside that of a report.

    tools/all_constitutions.py DATABASE REPORT

It lists every constitution of every phase of the report's system, and has HiGHS (Debian's package python3-scipy) find the amounts with the
report's totals that cost least. It is another way to the number that a certificate bounds, slow and in floating numbers, and no part of what is
proved. It ends with 1 where the printed energy lies further above that least energy than the printed gap.
"""

import sys
import time
from itertools import product

from database import Database, Refused, System
from second_check import Path, document


def rows_of(n, sites):
    """All lists of counts of so many sites that add to n."""
    if sites == 1:
        return [(n,)]
    return [(k,) + rest for k in range(n + 1) for rest in rows_of(n - k, sites - 1)]


def constitutions(phase):
    return product(*(rows_of(phase.n, len(row)) for row in phase.sites))


def columns(system):
    """Of each constitution with content, its energy and what a mol of formula units holds of each component, times N."""
    energies, contents = [], []
    for phase in system.phases:
        for counts in constitutions(phase):
            content = [phase.content(counts, c) for c in range(len(system.elements))]
            if any(content):
                energies.append(phase.energy(counts))
                contents.append(content)
    return energies, contents


def main(words):
    if len(words) != 2:
        sys.exit(__doc__)
    try:
        from scipy.optimize import linprog
    except ImportError:
        sys.exit("scipy is missing (package python3-scipy)")

    with open(words[0], encoding="latin-1") as database, open(words[1], "rb") as text:
        db, report = Database(database.read()), document(text.read())
    if isinstance(report, Path):
        sys.exit("a path: give one of its reports")
    energies, contents = columns(System(db, report.t, report.n, report.elements, report.phases))
    unit = sum(report.total)
    begun = time.monotonic()
    found = linprog(
        [energy / 10**6 for energy in energies],
        A_eq=list(map(list, zip(*contents))),
        b_eq=[total / unit for total in report.total],
        method="highs-ds",
    )
    took = time.monotonic() - begun
    # in J for each mol of components
    least, printed = found.fun * report.n, report.energy / unit * report.n / 10**6
    gap = report.gap / unit * report.n / 10**6
    print(f"constitutions {len(energies)}")
    print(f"least energy of all of them {least:.6f} J/mol by HiGHS, in {took:.3f} s")
    print(f"printed energy {printed:.6f} J/mol, proved gap {gap:.6f} J/mol")
    return 0 if printed - least <= gap + 1e-6 * abs(printed) else 1


if __name__ == "__main__":
    try:
        sys.exit(main(sys.argv[1:]))
    except Refused as refused:
        sys.exit(str(refused))
