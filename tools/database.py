"""The text of a database, and the system that it gives for what is asked: what the second checker and the reader's view rest on.

It is written from docs/DEFINITIONS.md and docs/FORMAT.md, with Python's standard library alone, and shares no line with the program.
"""

import re
from functools import lru_cache
from math import comb, prod

MOST_NANO = 10**27


class Refused(Exception):
    """The line of a refusal, and the status behind it."""

    def __init__(self, status, line):
        super().__init__(line)
        self.status = status


def bad_database(line, rule):
    return Refused(2, f"refused database line {line} rule {rule}")


def bad_system(cause):
    return Refused(3, f"refused system {cause}")


# ---- numbers


def cut(a, b):
    """a / b, cut towards 0."""
    return a // b if a >= 0 else -(-a // b)


def trimmed(mantissa, exponent):
    while abs(mantissa) >= 10**18:
        mantissa, exponent = cut(mantissa, 10), exponent + 1
    return mantissa, exponent


def times(a, b):
    return trimmed(a[0] * b[0], a[1] + b[1])


def power(base, n):
    found = (1, 0)
    for _ in range(abs(n)):
        found = times(found, base)
    return found if n >= 0 else trimmed(cut(10**36, found[0]), -36 - found[1])


NUMBER = re.compile(r"[+-]?(?:[0-9]+\.?[0-9]*|\.[0-9]+)(?:E[+-]?[0-9]+)?")


def decimal(text):
    """The decimal that a text is, or None."""
    if not NUMBER.fullmatch(text) or len(text) > 64:
        return None
    body, _, tail = text.partition("E")
    whole, _, behind = body.lstrip("+-").partition(".")
    digits = (whole + behind).lstrip("0")
    if not digits:
        return 0, 0
    exponent = int(tail or 0) - len(behind) + max(0, len(digits) - 18)
    mantissa = int(digits[:18])
    return (-mantissa if body[0] == "-" else mantissa, exponent) if -200 <= exponent <= 200 else None


def scaled(number, places):
    """The number times a power of ten, rounded down."""
    mantissa, exponent = number
    return mantissa * 10 ** (exponent + places) if exponent + places >= 0 else mantissa // 10 ** -(exponent + places)


def decimals(number):
    """How many decimals a number has, trailing zeros left out."""
    mantissa, exponent = number
    while mantissa and mantissa % 10 == 0:
        mantissa, exponent = mantissa // 10, exponent + 1
    return max(0, -exponent) if mantissa else 0


LOGS = [0, 0]


def log(n):
    """The integer logarithm, in units of 10^-15."""
    while len(LOGS) <= n:
        base = 2 * len(LOGS) - 1
        LOGS.append(LOGS[-1] + sum(2 * 10**15 // (m * base**m) for m in range(1, 31, 2)))
    return LOGS[n]


def log_of_moment(micro):
    q, r = divmod(micro, 1000)
    return log(1000 + q) - log(1000) + (log(1001 + q) - log(1000 + q)) * r // 1000


# ---- the text of a database

WORDS = (
    "ELEMENT SPECIES FUNCTION PHASE CONSTITUENT PARAMETER TYPE_DEFINITION DEFINE_SYSTEM_DEFAULT DEFAULT_COMMAND TEMPERATURE_LIMITS"
    " DATABASE_INFORMATION ASSESSED_SYSTEMS VERSION_DATE REFERENCE_FILE LIST_OF_REFERENCES ADD_REFERENCES DIFFUSION ZERO_VOLUME_SPECIES"
    " ZEROVOLUME_SPECIES FTP_FILE ADD_CONSTITUENT COMPOUND_PHASE ALLOTROPIC_PHASE CASE TABLE"
).split()
LEFT_OUT = {"SPECIES", "FTP_FILE", "ADD_CONSTITUENT", "COMPOUND_PHASE", "ALLOTROPIC_PHASE", "CASE", "TABLE"}
NAME = re.compile(r"[A-Z][A-Z0-9_]{0,39}")
CONSTITUENT = re.compile(r"[A-Z][A-Z0-9_+\-/.]{0,39}|/-")
UNREAD = re.compile(r"(?:M[QF]|D[QF])(?:&.*)?|V0|VA|VS")


def tokens_of(text):
    return [token for token in text.split(" ") if token]


def fits(token, pattern):
    parts, wanted = token.replace("-", "_").split("_"), pattern.split("_")
    return len(parts) <= len(wanted) and all(p and w.startswith(p) for p, w in zip(parts, wanted))


def commands(text):
    """The commands with their lines, and the line of unfinished text or None."""
    found, part, line = [], "", None
    for number, row in enumerate(text.split("\n"), 1):
        row = "".join(" " if ord(c) < 33 or ord(c) == 127 else c.upper() if c.isascii() else c for c in row)
        row = " " if row.lstrip(" ").startswith("$") else row + " "
        for place, piece in enumerate(row.split("!")):
            if place > 0:
                if line:
                    found.append((line, part))
                part, line = "", None
            part, line = part + piece, line or (number if piece.strip(" ") else None)
    return found, line


def ranged(text):
    """The pieces of a ranged text, each an expression and its high limit, or None."""
    front = NUMBER.match(text.lstrip(" "))
    if not front or decimal(front.group()) is None:
        return None
    text, pieces = text.lstrip(" ")[front.end() :], []
    while True:
        expression, mark, text = text.partition(";")
        if not mark:
            return None
        text = text.lstrip(" ,")
        high, limit = NUMBER.match(text), (6000, 0)
        if high:
            limit, text = decimal(high.group()), text[high.end() :].lstrip(" ,")
        if limit is None or text[:1] not in ("", "Y", "N"):
            return None
        pieces.append((expression, limit))
        if text[:1] != "Y":
            return pieces
        text = text[1:]


class Database:
    def __init__(self, text):
        self.elements, self.functions, self.phases, self.parameters, self.types = {}, {}, {}, {}, []
        found, unfinished = commands(text)
        for line, command in found:
            token = tokens_of(command)[0]
            words = [w for w in WORDS if len(token) >= 3 and fits(token, w)]
            rest = command.lstrip(" ")[len(token) :]
            if len(words) != 1:
                raise bad_database(line, "word")
            if words[0] in LEFT_OUT:
                raise bad_database(line, "left-out")
            if WORDS.index(words[0]) < 7:
                kind = "type" if words[0] == "TYPE_DEFINITION" else words[0].lower()
                if not getattr(self, "read_" + kind)(line, rest):
                    raise bad_database(line, kind)
        if unfinished:
            raise bad_database(unfinished, "unfinished")

    def read_element(self, line, rest):
        name = (tokens_of(rest) or [""])[0]
        if not NAME.fullmatch(name) and name != "/-":
            return False
        self.elements[name] = line
        return True

    def read_function(self, line, rest):
        name = (tokens_of(rest) or [""])[0]
        pieces = ranged(rest.lstrip(" ")[len(name) :]) if NAME.fullmatch(name) else None
        if pieces:
            self.functions[name] = (line, pieces)
        return bool(pieces)

    def read_phase(self, line, rest):
        tokens = tokens_of(rest) + ["", "", ""]
        name, colon, suffix = tokens[0].partition(":")
        count = int(tokens[2]) if re.fullmatch(r"[0-9]+", tokens[2]) else 0
        ratios = [decimal(t) for t in tokens[3 : 3 + count]]
        if not NAME.fullmatch(name) or (colon and not re.fullmatch("[A-Z]+", suffix)) or not 1 <= count <= 10:
            return False
        if len(ratios) < count or any(r is None or r[0] <= 0 for r in ratios):
            return False
        self.phases[name] = {"line": line, "suffix": suffix, "codes": tokens[1], "ratios": ratios, "lists": []}
        return True

    def read_constituent(self, line, rest):
        rest = rest.partition(">")[0].lstrip(" ")
        head, colon, _ = rest.partition(":")
        close, body = not head.endswith(" "), rest.replace(" ", "")
        phase = self.phases.get(head.strip(" ").replace(" ", ""))
        if not phase or not colon:
            return False
        lists = body[len(head.replace(" ", "")) + 1 :].removesuffix(":").split(":")
        if len(lists) == len(phase["ratios"]) + 1 and close and re.fullmatch("[A-Z]", lists[0]):
            lists = lists[1:]
        lists = [[item.removesuffix("%") for item in one.split(",")] for one in lists]
        if len(lists) != len(phase["ratios"]) or any(len(set(one)) < len(one) for one in lists):
            return False
        if not all(CONSTITUENT.fullmatch(item) for one in lists for item in one):
            return False
        phase["lists"] = lists
        return True

    def read_parameter(self, line, rest):
        form = re.match(r" +([A-Z0-9]+(?:&[^(]*)?)\(([^)]*)\)", rest)
        if not form:
            return False
        kind, inner = form.group(1), form.group(2).replace(" ", "")
        name, comma, inner = inner.partition(",")
        name, colon, suffix = name.partition(":")
        array, semicolon, order = inner.partition(";")
        lists = [[] if one == "*" else one.split(",") for one in array.split(":")]
        pieces = ranged(rest[form.end() :])
        if "&" in kind and not CONSTITUENT.fullmatch(kind.partition("&")[2]) or (colon and not re.fullmatch("[A-Z]+", suffix)):
            return False
        if not NAME.fullmatch(name) or not comma or (semicolon and not re.fullmatch("[0-9]", order)) or not pieces:
            return False
        if not all(CONSTITUENT.fullmatch(item) for one in lists for item in one):
            return False
        kind = {"L": "G", "BMAG": "BMAGN"}.get(kind, kind)
        key = (kind, name, tuple(map(tuple, lists)), int(order or 0))
        self.parameters[key] = (line, pieces)
        return True

    def read_type(self, line, rest):
        first = (tokens_of(rest) or [""])[0]
        if len(first) != 1:
            return False
        tokens = [first] + tokens_of(rest.lstrip(" ")[1:].replace(",", " "))
        phase, kind = "@", ("other",)
        if len(tokens) > 4 and tokens[1] == "GES" and fits(tokens[2], "AMEND_PHASE_DESCRIPTION"):
            phase = tokens[3]
            if fits(tokens[4], "MAGNETIC_ORDERING"):
                numbers = [decimal(t) for t in tokens[5:7]]
                if len(numbers) < 2 or None in numbers:
                    return False
                kind = ("magnetic", *numbers)
            elif fits(tokens[4], "MAJOR_CONSTITUENTS") or fits(tokens[4], "COMPOSITION_SETS"):
                kind = ("plain",)
        elif tokens[1:2] == ["SEQ"]:
            kind = ("plain",)
        self.types.append((line, first, phase, kind))
        return True


# ---- expressions and their values

FACTOR = re.compile(
    r" *(?:(?P<number>[0-9]+\.?[0-9]*(?:E[+-]?[0-9]+)?|\.[0-9]+(?:E[+-]?[0-9]+)?)"
    r"|(?P<t>T)(?![A-Z0-9_]) *(?:\*\* *(?:(?P<plain>[0-9]+)|\( *(?P<sign>[+-]?) *(?P<inside>[0-9]+) *\)))?"
    r"|(?P<log>LN) *\( *T *\)"
    r"|(?P<name>[A-Z][A-Z0-9_]{0,39})(?![A-Z0-9_(])(?: *#)?)"
)


@lru_cache(maxsize=None)
def products(text):
    """The products of an expression, each its sign and its factors, or None where the text is none."""
    found, at, text = [], 0, text.rstrip(" ")
    while True:
        signs = re.compile(r"[ +-]*").match(text, at).group()
        if found and not signs.strip(" "):
            return found if at + len(signs) == len(text) else None
        at, factors = at + len(signs), []
        while True:
            match = FACTOR.match(text, at)
            if not match:
                return None
            factors.append(factor(match))
            if factors[-1] is None:
                return None
            at = match.end()
            star = re.compile(r" *\*(?!\*)").match(text, at)
            if not star:
                break
            at = star.end()
        if len(factors) > 16:
            return None
        found.append((-1 if signs.count("-") % 2 else 1, factors))


def factor(match):
    if match["number"]:
        number = decimal(match["number"])
        return None if number is None else ("number", number)
    if match["t"]:
        power_of = int((match["sign"] or "") + (match["inside"] or match["plain"] or "1"))
        return ("power", power_of) if abs(power_of) <= 20 else None
    if match["log"]:
        return ("log",)
    return None if match["name"] in ("T", "LN", "P", "EXP", "LOG") else ("name", match["name"])


class Values:
    """The values of ranged texts at one temperature, in nano, and their refusals."""

    def __init__(self, functions, t):
        self.functions, self.t, self.kept, self.followed = functions, t, {}, set()

    def of(self, line, pieces):
        return self.value(line, pieces)[0]

    def value(self, line, pieces):
        """The value and the height."""
        here = [e for e, high in pieces if scaled(high, 2) > self.t or (scaled(high, 2) == self.t and high[1] < -2 and high[0] % 10 ** (-2 - high[1]))]
        sums = products(here[0] if here else pieces[-1][0])
        if sums is None:
            raise bad_system(f"unsupported line {line}")
        total, height = 0, 0
        for sign, factors in sums:
            found = (sign, 0)
            for one in factors:
                number, high = self.factor(line, one)
                found, height = times(found, number), max(height, high)
            nano = scaled(found, 9) if found[1] < 60 or not found[0] else MOST_NANO + 1
            total += nano
            if abs(nano) > MOST_NANO or abs(total) > MOST_NANO:
                raise bad_system(f"too-large line {line}")
        return total, height + 1

    def factor(self, line, one):
        if one[0] == "number":
            return one[1], 0
        if one[0] == "power":
            return power((self.t, -2), one[1]), 0
        if one[0] == "log":
            return (log(self.t) - log(100), -15), 0
        name = one[1]
        if name == "R" and name not in self.functions:
            return (831451, -5), 0
        if name not in self.functions:
            raise bad_system(f"missing line {line}")
        if name in self.followed:
            raise bad_system(f"cycle line {line}")
        if name not in self.kept:
            self.followed.add(name)
            self.kept[name] = self.value(*self.functions[name])
            self.followed.remove(name)
        value, height = self.kept[name]
        if height > 64:
            raise bad_system(f"unsupported line {line}")
        return trimmed(value, -9), height


# ---- the system


class Phase:
    """A selected phase: ratios whole, sites as numbers of components or None, parameters in whole numbers."""

    def __init__(self, name, t, lattice, scale, ratios, sites):
        self.name, self.t, self.n, self.scale, self.ratios, self.sites = name, t, lattice, scale, ratios, sites
        self.parameters, self.magnetic = {"G": [], "TC": [], "BMAGN": []}, None
        self.tables = {}

    # sigma: no energy of the phase is greater
    def size(self):
        energies = sum(abs(micro) for micro, *_ in self.parameters["G"]) + 600000 * self.t * sum(self.ratios)
        return energies + (10**6 * self.scale * (self.t + 10**6) if self.magnetic else 0)

    def content(self, counts, component):
        return sum(a * k for a, row, sites in zip(self.ratios, counts, self.sites) for k, c in zip(row, sites) if c == component)

    def mixing(self, s):
        """The energies of mixing of a site of sublattice s, for each count."""
        if s not in self.tables:
            n, a = self.n, self.ratios[s]
            self.tables[s] = [0] + [-(831451 * self.t * a * k * (log(n) - log(k)) // (n * 10**16)) for k in range(1, n + 1)]
        return self.tables[s]

    def energy(self, counts):
        box = [[(k, k) for k in row] for row in counts]
        return self.lows(box) + sum(self.mixing(s)[k] for s, row in enumerate(counts) for k in row)

    def lows(self, box):
        """The lows of the parameters and of magnetism: of a box of one list, the energy without mixing."""
        low = sum(self.range_of(p, box)[0] for p in self.parameters["G"])
        return low + (self.magnetic_low(box) if self.magnetic else 0)

    def range_of(self, parameter, box):
        """The low and the high of a parameter on a box."""
        micro, array, order, weighted = parameter
        named = [box[s][i] for s, one in enumerate(array) for i in one]
        several = [[box[s][i] for i in one] for s, one in enumerate(array) if len(one) > 1]
        low, high, den, d = prod(a for a, _ in named), prod(b for _, b in named), self.n ** len(named), (1, 1)
        if len(several) == 1 and len(several[0]) == 2 and order:
            (a, b), (c, e) = several[0]
            ends = sorted(((a - e) ** order, (b - c) ** order))
            d = (0 if order % 2 == 0 and a - e <= 0 <= b - c else ends[0], ends[1])
            den *= self.n**order
        if weighted:
            (a, b), others = several[0][order], several[0][:order] + several[0][order + 1 :]
            d = (max(0, self.n + 2 * a - sum(y for _, y in others)), self.n + 2 * b - sum(x for x, _ in others))
            den *= 3 * self.n
        least = (low if d[0] >= 0 else high) * d[0]
        most = (high if d[1] >= 0 else low) * d[1]
        return tuple(sorted((micro * least // den, micro * most // den)))

    def sums(self, kind, box):
        """The range of what a sum of Curie temperatures or moments becomes."""
        ranges = [self.range_of(p, box) for p in self.parameters[kind]]
        low, high, a = sum(r[0] for r in ranges), sum(r[1] for r in ranges), self.magnetic[0]
        if low >= 0:
            return low, high
        return (-high // a, -low // a) if high <= 0 else (0, max(high, -low // a))

    def magnetic_low(self, box):
        (low, high), (least, most) = self.sums("TC", box), self.sums("BMAGN", box)
        joint, p4, found = 10**4 * self.t, self.magnetic[1], [0] if low == 0 else []
        if high > joint:
            found.append(g_above(10**9 * high // joint, 10**13 * self.t // max(low, joint + 1), p4))
        if max(low, 1) <= min(high, joint):
            found.append(g_below(10**9 * min(high, joint) // joint, p4))
        u = min(831451 * self.t * g // 10**9 for g in found)
        return u * self.scale * log_of_moment(most if u < 0 else least) // 10**16


def a9(p4):
    return 518 * 10**9 // 1125 + 11692 * 10**9 * (10**4 - p4) // (15975 * p4)


def share(x, y):
    return x * y // 10**9


def g_above(w, v, p4):
    """g where theta is above the temperature: w is theta over T, v is T over theta."""
    v3 = share(share(v, v), v)
    v9 = share(share(v3, v3), v3)
    v15 = share(share(v9, v3), v3)
    first = 79 * w * 10**4 // (140 * p4)
    second = 474 * (10**4 - p4) * (v3 // 6 + v9 // 135 + v15 // 600) // (497 * p4)
    return 10**9 - 10**9 * (first + second) // a9(p4)


def g_below(w, p4):
    w5 = share(share(share(share(w, w), w), w), w)
    w15 = share(share(w5, w5), w5)
    w25 = share(share(w15, w5), w5)
    return -(10**9 * (w5 // 10 + w15 // 315 + w25 // 1500) // a9(p4))


def kept_sites(row, components):
    return [components.index(c) if c in components else None for c in row if c in components or c == "VA"]


def selected(db, elements, listed):
    """The components and the names of the selected phases, in the order of the database."""
    for name in elements:
        if name not in db.elements or name in ("VA", "/-"):
            raise bad_system(f"unknown-element {name}")
    for name in listed:
        if name not in db.phases:
            raise bad_system(f"unknown-phase {name}")
    components = [name for name in db.elements if name in elements]
    names = []
    for name, phase in db.phases.items():
        rows = [kept_sites(row, components) for row in phase["lists"]]
        if name in listed and rows and all(rows) and any(c is not None for row in rows for c in row):
            names.append(name)
    if not names:
        raise bad_system("no-phase")
    return components, names


def whole_ratios(phase):
    d = max(map(decimals, phase["ratios"]))
    ratios = [scaled(r, d) for r in phase["ratios"]] if d <= 5 else []
    if not ratios or sum(ratios) > 10**5:
        raise bad_system(f"ratios line {phase['line']}")
    return d, ratios


def magnetism_of(db, name):
    """The magnetism of a phase: that of the last definition that applies to it, or None."""
    found = None
    for line, code, phase, kind in db.types:
        if code not in db.phases[name]["codes"] or phase not in ("@", name):
            continue
        if kind[0] == "other":
            raise bad_system(f"unsupported line {line}")
        if kind[0] == "magnetic":
            f, p4 = kind[1], scaled(kind[2], 4)
            if decimals(f) or not -9 <= scaled(f, 0) <= -1 or decimals(kind[2]) > 4 or not 1000 <= p4 <= 10000:
                raise bad_system(f"unsupported line {line}")
            found = (-scaled(f, 0), p4)
    return found


def has_form(array, order):
    sizes = sorted((len(one) for one in array), reverse=True) + [0]
    if any(len(set(one)) < len(one) for one in array) or sizes[0] > 3:
        return False
    if sizes[0] == 3:
        return sizes[1] < 2 and order <= 2
    return order == 0 if sizes[0] < 2 or sizes[1] == 2 and sizes[2:3] != [2] else sizes[1] < 2


def needed(db, name, components):
    """The needed parameters of a phase: key, line, pieces."""
    lists = [[c for c in row if c in components or c == "VA"] for row in db.phases[name]["lists"]]
    for key, (line, pieces) in db.parameters.items():
        if key[1] == name and (len(key[2]) != len(lists) or all(c in row for one, row in zip(key[2], lists) for c in one)):
            yield key, line, pieces


def add_parameters(phase, db, components, values):
    lists = [[c for c in row if c in components or c == "VA"] for row in db.phases[phase.name]["lists"]]
    wanted = list(needed(db, phase.name, components))
    keys = {key for key, _, _ in wanted}
    for key, line, pieces in wanted:
        kind, _, array, order = key
        if UNREAD.fullmatch(kind) or kind in ("TC", "BMAGN") and not phase.magnetic:
            continue
        if kind not in phase.parameters or len(array) != len(lists) or not has_form(array, order):
            raise bad_system(f"unsupported line {line}")
        value = values.of(line, pieces)
        micro = value * phase.scale // 1000 if kind == "G" else value // 1000
        weighted = any(len(one) == 3 for one in array) and any((kind, phase.name, array, v) in keys for v in (1, 2))
        places = [[row.index(c) for c in one] for one, row in zip(array, lists)]
        phase.parameters[kind].append((micro, places, order, weighted))


class System:
    def __init__(self, db, t, lattice, elements, listed):
        self.elements, names = selected(db, elements, listed)
        self.t, self.n, self.phases, values = t, lattice, [], Values(db.functions, t)
        for name in names:
            if db.phases[name]["suffix"] == "Y":
                raise bad_system(f"ionic line {db.phases[name]['line']}")
        wholes = [whole_ratios(db.phases[name]) for name in names]
        for name, (d, ratios) in zip(names, wholes):
            sites = [kept_sites(row, self.elements) for row in db.phases[name]["lists"]]
            phase = Phase(name, t, lattice, 10**d, ratios, sites)
            phase.magnetic = magnetism_of(db, name)
            add_parameters(phase, db, self.elements, values)
            self.phases.append(phase)
        self.limits()

    def limits(self):
        for phase in self.phases:
            sums = [sum(abs(micro) for micro, *_ in phase.parameters[kind]) for kind in ("TC", "BMAGN")]
            if phase.size() > 2**55 or sums[0] > 10**10 or sums[1] > 5 * 10**8:
                raise bad_system(f"energy {phase.name}")
        if sum(prod(comb(self.n + len(row) - 1, len(row) - 1) for row in phase.sites) for phase in self.phases) > 2**40:
            raise bad_system("lattice")
        self.widest = self.n * max(sum(phase.ratios) for phase in self.phases)
        powers, size = self.widest ** len(self.elements), max(phase.size() for phase in self.phases)
        degrees = [degree(p) for phase in self.phases for kind in phase.parameters.values() for p in kind]
        if powers > 2**62 or powers * size > 2**94 or any(self.n**d > 2**70 for d in degrees):
            raise bad_system("fine")


def degree(parameter):
    _, places, order, weighted = parameter
    return sum(map(len, places)) + (1 if weighted else 0 if max(map(len, places)) == 3 else order)
