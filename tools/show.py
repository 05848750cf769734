#!/usr/bin/env python3
"""A report or a path for reading: kelvins, mole fractions, J/mol. It is no part of what is proved and checks nothing.

    tools/show.py DATABASE REPORT            a page, and of a path one for each step
    tools/show.py DATABASE REPORT --row      a record: temperature, then the share of each phase
    tools/show.py DATABASE PATH --row        a record for each step: temperature, the fraction of solid, then the share of each phase

The database is read for the ratios of the phases, which a report does not hold.
"""

import sys

from database import Database, Refused, System
from second_check import Path, document


def plain(value, unit, places=6):
    """A whole number of parts of a unit, as a decimal."""
    return f"{value / unit:.{places}f}"


class View:
    """An equilibrium and its phases."""

    def __init__(self, db, report):
        self.report = report
        self.system = System(db, report.t, report.n, report.elements, report.phases)

    def moles(self, entry):
        """Of each element, in mol, what an entry holds."""
        _, place, amount, counts = entry
        phase = self.system.phases[place]
        return [amount * phase.content(counts, c) / (self.report.n * 10**9) for c in range(len(self.report.elements))]

    def shares(self):
        """Of each phase the share of all components that its entries hold."""
        whole = sum(self.report.total) / (self.report.n * 10**9)
        found = [0.0] * len(self.report.phases)
        for entry in self.report.entries:
            found[entry[1]] += sum(self.moles(entry)) / whole if whole else 0
        return found

    def page(self):
        report = self.report
        whole = sum(report.total) / (report.n * 10**9)
        yield f"{plain(report.t, 100, 2)} K, lattice 1/{report.n}, {plain(whole, 1)} mol of components"
        per_mole = f", {report.energy / whole / 10**15:.6f} J/mol" if whole else ""
        yield f"energy {plain(report.energy, 10**15)} J{per_mole}"
        yield f"no assemblage with these totals is lower by more than {report.gap / 10**15:.6g} J"
        yield ""
        yield f"{'phase':12} {'share':>9}  " + "".join(f"{'x(' + e + ')':>10}" for e in report.elements) + "  site fractions"
        for entry in report.entries:
            moles = self.moles(entry)
            fractions = "".join(f"{b / sum(moles):10.6f}" for b in moles)
            sites = " : ".join(" ".join(f"{k / report.n:g}" for k in row) for row in entry[3])
            yield f"{report.phases[entry[1]]:12} {sum(moles) / whole:9.6f}  {fractions}  {sites}"
        yield ""
        yield f"{'element':12} {'asked, mol':>14} {'held, mol':>14} {'potential below, J/mol':>24}"
        for name, asked, held, m in zip(report.elements, report.asked, report.total, report.potentials):
            unit = report.n * 10**9
            yield f"{name:12} {plain(asked, unit, 9):>14} {plain(held, unit, 9):>14} {m * report.n / 65536 / 10**6:24.3f}"

    def row(self, *more):
        return ",".join([plain(self.report.t, 100, 2), *more] + [f"{share:.6f}" for share in self.shares()])


def solid_fraction(path, step):
    """The share of what was asked first that is no longer liquid behind a step."""
    return 1 - sum(step.left) / sum(path.steps[0].report.asked)


def path_rows(db, path):
    yield ",".join(["temperature", "solid", *path.steps[0].report.phases])
    for step in path.steps:
        yield View(db, step.report).row(f"{solid_fraction(path, step):.6f}")


def path_pages(db, path):
    for step in path.steps:
        yield f"step {step.number}, {100 * solid_fraction(path, step):.4f} % solid behind it"
        yield from View(db, step.report).page()
        yield ""
    first = path.steps[0].report
    yield f"finish: {path.finish}"
    yield f"{'element':12} {'solid, mol':>14} {'remains, mol':>14} {'lost, mol':>14}"
    for name, *numbers in zip(first.elements, path.solids, path.remains, path.lost):
        yield f"{name:12} " + " ".join(f"{plain(number, first.n * 10**9, 9):>14}" for number in numbers)


def shown(db, found, as_rows):
    if isinstance(found, Path):
        return path_rows(db, found) if as_rows else path_pages(db, found)
    view = View(db, found)
    return [view.row()] if as_rows else view.page()


def main(words):
    try:
        with open(words[0], "rb") as file:
            db = Database(file.read().decode("latin-1"))
        with open(words[1], "rb") as file:
            found = document(file.read())
        print("\n".join(shown(db, found, words[2:] == ["--row"])))
    except Refused as refusal:
        print(refusal, file=sys.stderr)
        return refusal.status
    return 0


if __name__ == "__main__":
    if len(sys.argv) < 3 or sys.argv[3:] not in ([], ["--row"]):
        sys.exit(__doc__)
    sys.exit(main(sys.argv[1:]))
