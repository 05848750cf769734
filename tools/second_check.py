#!/usr/bin/env python3
"""A second checker of certificates, for who does not trust the first: slow, plain, and no part of what is proved.

    tools/second_check.py DATABASE REPORT

The report may be a path. It prints `accepted 1`, or as many as the path has steps, or the line of the refusal, and ends with 0 or with the
status of the README's table. It is written from docs/DEFINITIONS.md and docs/FORMAT.md, with Python's standard library alone, and shares
no line with the program.
"""

import re
import sys
from math import prod

from database import NAME, Database, Refused, System

LATTICES = (10, 20, 25, 40, 50, 100, 125, 200, 250, 500, 1000)


def broken(line, rule):
    return Refused(5, f"refused report line {line} rule {rule}")


# ---- the text of a report

WHOLE = re.compile(r"0|-?[1-9][0-9]*")


class Lines:
    """The lines of a report, from the front; the first at which no text goes on is refused."""

    def __init__(self, data):
        self.lines, self.at = data.decode("latin-1").split("\n"), 0
        self.whole = len(self.lines) - 1

    def fault(self):
        return broken(self.at, "text")

    def peek(self):
        """The first word of the next line."""
        return self.lines[self.at].split(" ")[0] if self.at < self.whole else ""

    def next(self, word):
        """The words of the next line behind its first, which is given."""
        self.at += 1
        words = self.lines[self.at - 1].split(" ") if self.at <= self.whole else []
        if words[:1] != [word]:
            raise self.fault()
        return words[1:]

    def number(self, text, low=-(2**120), high=2**120):
        if not WHOLE.fullmatch(text) or not low <= int(text) <= high:
            raise self.fault()
        return int(text)

    def numbers(self, word, count, low=-(2**120), high=2**120):
        words = self.next(word)
        if len(words) != count:
            raise self.fault()
        return [self.number(w, low, high) for w in words]

    def names(self, word, most):
        words = self.next(word)
        if not 1 <= len(words) <= most or len(set(words)) < len(words) or not all(NAME.fullmatch(w) for w in words):
            raise self.fault()
        return words

    def node(self):
        """A node, with its line."""
        word, *rest = self.lines[self.at].split(" ") if self.at < self.whole else [""]
        self.next(word)
        if word == "S" and len(rest) == 2:
            return self.at, "S", [self.number(w, 0, 65535) for w in rest]
        if word in ("L", "A") and rest:
            return self.at, word, [self.number(w) for w in rest]
        if word == "E" and not rest:
            return self.at, "E", []
        raise self.fault()


class Report:
    """A report, with the line of each part."""

    def __init__(self, lines):
        self.line = {}
        if lines.next("equilibrium") != ["1"]:
            raise lines.fault()
        self.first = lines.at
        self.t = lines.numbers("temperature", 1, 100, 600000)[0]
        self.n = lines.numbers("lattice", 1)[0]
        if self.n not in LATTICES:
            raise lines.fault()
        self.elements, self.phases = lines.names("elements", 8), lines.names("phases", 2**28)
        count = len(self.elements)
        self.asked = lines.numbers("asked", count, 0, 2**50)
        self.entries = [self.entry(lines) for _ in range(lines.numbers("entries", 1, 0, 32)[0])]
        for name, size, low, high in (
            ("total", count, -(2**120), 2**120),
            ("energy", 1, -(2**120), 2**120),
            ("tolerance", 1, 0, 2**60),
            ("gap", 1, 0, 2**110),
            ("potentials", count, -(2**120), 2**120),
        ):
            found = lines.numbers(name, size, low, high)
            setattr(self, name, found if size == count and name in ("total", "potentials") else found[0])
            self.line[name] = lines.at
        self.trees = [self.tree(lines, name) for name in self.phases]
        if lines.next("end"):
            raise lines.fault()

    def entry(self, lines):
        words = lines.next("entry")
        if len(words) < 3 or words[0] not in self.phases:
            raise lines.fault()
        rows = [part.split(" ") for part in " ".join(words[2:]).split(" : ")]
        if len(rows) > 10 or sum(map(len, rows)) > 90:
            raise lines.fault()
        counts = [[lines.number(w, 0, 65535) for w in row] for row in rows]
        return lines.at, self.phases.index(words[0]), lines.number(words[1], 1, 2**50), counts

    def tree(self, lines, name):
        if lines.next("tree") != [name]:
            raise lines.fault()
        nodes, open_parts = [], 1
        while open_parts:
            nodes.append(lines.node())
            open_parts += 1 if nodes[-1][1] == "S" else -1
        return nodes


class Step:
    """A step of a path."""

    def __init__(self, lines):
        self.number = lines.numbers("step", 1, 1, 10000)[0]
        self.line, self.report = lines.at, Report(lines)
        self.left = lines.numbers("left", len(self.report.elements))
        self.left_line = lines.at


class Path:
    """A path, with the line of each part."""

    def __init__(self, lines):
        if lines.next("path") != ["1"]:
            raise lines.fault()
        self.liquid = lines.names("liquid", 1)[0]
        self.descent = lines.numbers("descent", 1, 1, 600000)[0]
        self.floor = lines.numbers("floor", 1, 100, 600000)[0]
        self.stop = lines.numbers("stop", 1, 0, 1000000)[0]
        self.steps = [Step(lines)]
        while len(self.steps) < 10000 and lines.peek() == "step":
            self.steps.append(Step(lines))
        words = lines.next("finish")
        if len(words) != 1 or words[0] not in ("no-liquid", "fraction", "temperature"):
            raise lines.fault()
        self.finish, self.finish_line = words[0], lines.at
        count = len(self.steps[0].report.elements)
        self.solids, self.remains, self.lost = (lines.numbers(word, count) for word in ("solids", "remains", "lost"))


def document(data):
    """A report or a path, by the first line."""
    lines = Lines(data)
    found = (Path if lines.peek() == "path" else Report)(lines)
    lines.at += 1
    if lines.lines[lines.at - 1 :] != [""]:
        raise lines.fault()
    return found


# ---- the rules


def tightened(n, box):
    """The box whose ranges are the counts that members take there, or None where there is no member."""
    found = []
    for row in box:
        low, high = sum(a for a, _ in row), sum(b for _, b in row)
        if any(a > b for a, b in row) or low > n or high < n:
            return None
        found.append([(max(a, n - high + b), min(b, n - low + a)) for a, b in row])
    return found


def slope(phase, potentials, s, i):
    component = phase.sites[s][i]
    return 0 if component is None else potentials[component] * phase.ratios[s]


def sublattice_parts(phase, potentials, box, multipliers, rises):
    """Of each sublattice its multiplier times N and the least of each site, whose slope is lessened by its rise."""
    found, places = 0, iter(rises)
    for s, row in enumerate(box):
        heights = phase.mixing(s)
        found += multipliers[s] * phase.n
        for i, (low, high) in enumerate(row):
            m = slope(phase, potentials, s, i) + multipliers[s] - next(places)
            found += min(65536 * heights[k] - m * k for k in range(low, high + 1))
    return found


def bound(phase, potentials, box, multipliers):
    """2^16 times the lows, and the parts of the sublattices."""
    rises = [0 for row in box for _ in row]
    return 65536 * phase.lows(box) + sublattice_parts(phase, potentials, box, multipliers, rises)


def signed_products(phase, parameter):
    """The products of counts whose sum a parameter is: coefficients and sites, counted on over the sublattices; None where it is no such sum."""
    _, array, order, weighted = parameter
    starts = [sum(map(len, phase.sites[:s])) for s in range(len(array))]
    lists = [[starts[s] + i for i in one] for s, one in enumerate(array)]
    sites, several = sum(lists, []), [one for one in lists if len(one) > 1]
    if weighted:
        one = several[0]
        return [(3, sites + [one[order]]), (phase.n, sites)] + [(-1, sites + [i]) for i in one]
    if len(several) == 1 and len(several[0]) == 2 and order:
        i, j = several[0]
        return [(1, sites + [i]), (-1, sites + [j])] if order == 1 else None
    return [(1, sites)]


def minorant(phase, parameter, box):
    """The affine minorant of a parameter on a box: a slope for each site and a constant, or None where it has none."""
    products, micro = signed_products(phase, parameter), parameter[0]
    if products is None:
        return None
    lows, highs = ([r[end] for row in box for r in row] for end in (0, 1))
    slopes = [0] * len(lows)
    if all(lows[i] == highs[i] for _, sites in products for i in sites):
        return slopes, 65536 * phase.range_of(parameter, box)[0]
    den = phase.n ** max(len(sites) for _, sites in products) * (3 if parameter[3] else 1)
    corner = 0
    for f, sites in products:
        earlier = lows if micro * f >= 0 else highs
        for j, i in enumerate(sites):
            z = prod(earlier[p] for p in sites[:j]) * prod(lows[p] for p in sites[j + 1 :])
            slopes[i] += 65536 * micro * f * z // den
        corner += micro * f * prod(lows[p] for p in sites) // den
    return slopes, 65536 * (corner - 1) - sum(a * k for a, k in zip(slopes, lows))


def affine_bound(phase, potentials, box, multipliers):
    """The same with minorants in place of the lows of the parameters that have one."""
    rises = [0 for row in box for _ in row]
    found = 65536 * phase.magnetic_low(box) if phase.magnetic else 0
    for parameter in phase.parameters["G"]:
        plane = minorant(phase, parameter, box)
        if plane is None:
            found += 65536 * phase.range_of(parameter, box)[0]
        else:
            rises = [a + b for a, b in zip(rises, plane[0])]
            found += plane[1]
    return found + sublattice_parts(phase, potentials, box, multipliers, rises)


def parts(phase, box, place, at):
    """The two parts of a box at a place over all sublattices, both tightened, or None where there is no such part."""
    s, i = 0, place
    while s < len(box) and i >= len(box[s]):
        i, s = i - len(box[s]), s + 1
    if s == len(box) or not box[s][i][0] <= at < box[s][i][1]:
        return None
    halves = []
    for cut_range in ((box[s][i][0], at), (at + 1, box[s][i][1])):
        part = [list(row) for row in box]
        part[s][i] = cut_range
        halves.append(tightened(phase.n, part))
    return halves


def judge_tree(phase, potentials, nodes):
    """The nodes in order, each over the box that it stands for."""
    boxes = [tightened(phase.n, [[(0, phase.n)] * len(row) for row in phase.sites])]
    for line, kind, numbers in nodes:
        box, well = boxes.pop(), False
        if kind == "S":
            halves = parts(phase, box, *numbers)
            well = halves is not None
            boxes += reversed(halves or [])
        elif kind == "E":
            counts = [[a for a, _ in row] for row in box]
            single = all(a == b for row in box for a, b in row)
            well = single and not any(k for row, sites in zip(counts, phase.sites) for k, c in zip(row, sites) if c is not None)
        elif len(numbers) == len(box) and all(abs(x) * phase.n <= 2**117 for x in numbers):
            well = (affine_bound if kind == "A" else bound)(phase, potentials, box, numbers) >= 0
        if not well:
            raise broken(line, "tree")


def is_constitution(phase, counts):
    if [len(row) for row in counts] != [len(row) for row in phase.sites] or any(sum(row) != phase.n for row in counts):
        return False
    return any(k and c is not None for row, sites in zip(counts, phase.sites) for k, c in zip(row, sites))


def nothing(rule):
    """What no path asks of a report that stands alone."""


def judge(system, report, path_rule=nothing):
    """Every rule, in the order of the lines; at each line of the head a path may ask more."""
    path_rule("temperature")
    path_rule("lattice")
    if report.elements != system.elements:
        raise broken(report.first + 3, "system")
    path_rule("elements")
    if report.phases != [phase.name for phase in system.phases]:
        raise broken(report.first + 4, "system")
    path_rule("phases")
    path_rule("asked")
    last = None
    for line, place, _, counts in report.entries:
        key = (place, [k for row in counts for k in row])
        if not is_constitution(system.phases[place], counts) or (last is not None and key <= last):
            raise broken(line, "entry")
        last = key
    totals = totals_of(system, report.entries)
    energy = sum(n * system.phases[place].energy(counts) for _, place, n, counts in report.entries)
    worth = sum(m * b for m, b in zip(report.potentials, report.total))
    for rule, well in (
        ("total", report.total == totals),
        ("energy", report.energy == energy),
        ("tolerance", all(abs(b - a) <= report.tolerance for a, b in zip(report.asked, report.total))),
        ("gap", 65536 * report.energy - worth <= 65536 * report.gap),
        ("potentials", all(abs(m) * system.widest <= 2**117 for m in report.potentials)),
    ):
        if not well:
            raise broken(report.line[rule], rule)
    for phase, nodes in zip(system.phases, report.trees):
        judge_tree(phase, report.potentials, nodes)


def totals_of(system, entries):
    """The content of the entries, of each element."""
    return [sum(n * system.phases[place].content(counts, c) for _, place, n, counts in entries) for c in range(len(system.elements))]


def finish_of(path, step):
    """The first of the three ends that holds behind a step, or None."""
    if not any(step.left):
        return "no-liquid"
    if sum(step.left) * 10**6 <= path.stop * sum(path.steps[0].report.asked):
        return "fraction"
    return "temperature" if step.report.t - path.descent < path.floor else None


def head_rule(path, step, before):
    """What a path asks of the head of a step's report, line by line."""
    first, report = path.steps[0].report, step.report
    wanted = {
        "temperature": (1, before is None or report.t == before.report.t - path.descent),
        "lattice": (2, report.n == first.n),
        "elements": (3, report.elements == first.elements),
        "phases": (4, report.phases == first.phases),
        "asked": (5, before is None or report.asked == before.left),
    }

    def rule(name):
        line, well = wanted[name]
        if not well:
            raise broken(report.first + line, "path")

    return rule


def judge_path(db, path):
    """The rules of the path and of its reports, the first line first."""
    if path.liquid not in path.steps[0].report.phases:
        raise broken(2, "path")
    count, before = len(path.steps[0].report.elements), None
    solids, lost = [0] * count, [0] * count
    for place, step in enumerate(path.steps):
        if step.number != place + 1 or (before is not None and finish_of(path, before) is not None):
            raise broken(step.line, "path")
        report = step.report
        system = System(db, report.t, report.n, report.elements, report.phases)
        judge(system, report, head_rule(path, step, before))
        liquid = report.phases.index(path.liquid)
        if step.left != totals_of(system, [entry for entry in report.entries if entry[1] == liquid]):
            raise broken(step.left_line, "path")
        solid = totals_of(system, [entry for entry in report.entries if entry[1] != liquid])
        solids = [a + b for a, b in zip(solids, solid)]
        lost = [a + b - c for a, b, c in zip(lost, report.asked, report.total)]
        before = step
    for line, well in enumerate(
        (path.finish == finish_of(path, before), path.solids == solids, path.remains == before.left, path.lost == lost)
    ):
        if not well:
            raise broken(path.finish_line + line, "path")


def judge_document(db, found):
    """How many equilibria were accepted."""
    if isinstance(found, Path):
        judge_path(db, found)
        return len(found.steps)
    judge(System(db, found.t, found.n, found.elements, found.phases), found)
    return 1


def main(words):
    sys.setrecursionlimit(10**6)
    try:
        if len(words) != 2:
            raise Refused(1, "refused usage")
        try:
            texts = [open(name, "rb").read() for name in words]
        except OSError:
            raise Refused(6, "refused read") from None
        if len(texts[0]) > 2**24 or len(texts[1]) > 2**28:
            raise Refused(8, "refused long")
        db = Database(texts[0].decode("latin-1"))
        count = judge_document(db, document(texts[1]))
    except Refused as refusal:
        print(refusal)
        return refusal.status
    print(f"accepted {count}")
    return 0


if __name__ == "__main__":
    sys.exit(main(sys.argv[1:]))
