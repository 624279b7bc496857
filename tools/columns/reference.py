"""The call over lent columns, worked out from document 01 ('The lent sheet', 'Turned back', 'Modules', 'Rules') and, for the shape of a
mark, from document 02.

Plain Python: whole numbers are unbounded, floats are IEEE 754 binary64 and each operation rounds once.
"""
import math
import struct

MAX_ROW, MAX_COL = 1_048_575, 16_383
TOP = 2**64 - 1
CELLIS, SCALE2, SCALE3, BAR, RANK, MEAN, SAME, EXPR = range(1, 9)
MARKS = ["regions", "rule_indices", "mark_kinds", "colours", "ppms", "shapes"]
COLUMNS = [*MARKS, "bar_rules", "bar_ppms", "scratch"]
BAR_RULES, BAR_PPMS, SCRATCH = range(len(MARKS), len(COLUMNS))
FIELDS = ["number", "place", "count", "actual", "marks", "deferred", "simplified"]


def bits_of(x):
    return struct.unpack("<Q", struct.pack("<d", x))[0]


def float_of(bits):
    return struct.unpack("<d", struct.pack("<Q", bits))[0]


class Turned(Exception):
    """A job that is turned back: number, place, count, actual."""


# ---- leaves


def numeric(cell):
    """The number that a cell reads as, or None."""
    if cell is None or cell["wraps"] > 64 or cell["kind"] not in (1, 2):
        return None
    x = float_of(cell["num"])
    return x if math.isfinite(x) else None


def key(cell):
    """The key by which duplicates are told, or None."""
    if cell is None or cell["wraps"] > 64:
        return None
    if cell["kind"] in (1, 2):
        x = numeric(cell)
        return None if x is None else ("number", bits_of(0.0 if x == 0 else x))
    if cell["kind"] == 3:
        text = cell["text"]
        if any(b > 127 for b in text) or b"*" in text or b"?" in text:
            return None
        return ("text", text.lower())
    return ("bool", cell["len"]) if cell["kind"] == 4 else None


def axis(target, reference, origin, absolute, most):
    if absolute:
        return reference
    at = target + reference - origin
    return at if 0 <= at <= most else None


def same_name(one, other):
    if one == other:
        return True
    ascii_only = all(b < 128 for b in one + other)
    return ascii_only and one.lower() == other.lower()


def ratio(value, least, greatest):
    if greatest <= least:
        return 1_000_000
    x = (value - least) / (greatest - least)
    if math.isnan(x):
        return 0
    x = min(max(x, 0.0), 1.0) * 1_000_000.0
    whole = math.floor(x)
    return whole + 1 if x - whole >= 0.5 else whole


PLAIN, FLAT, TOO_WIDE = range(3)
UPPER = 3


def shape(least, greatest):
    """What document 02 says of a ratio between these ends besides its ppm."""
    if greatest <= least:
        return FLAT
    return PLAIN if math.isfinite(greatest - least) else TOO_WIDE


def channel(start, end, part):
    total = start * 1_000_000 + (end - start) * part + 500_000
    cut = abs(total) // 1_000_000 * (1 if total >= 0 else -1)
    return min(max(cut, 0), 255)


def between_colours(start, end, part):
    mixed = [channel(start >> shift & 255, end >> shift & 255, part) for shift in (16, 8, 0)]
    return mixed[0] * 65_536 + mixed[1] * 256 + mixed[2]


def midpoint(ordered):
    n = len(ordered)
    if n % 2:
        return ordered[n // 2]
    return ordered[n // 2 - 1] / 2 + ordered[n // 2] / 2


def cellis_holds(op, value, first, second):
    return [
        lambda: first <= value <= second,
        lambda: value < first or value > second,
        lambda: value == first,
        lambda: value != first,
        lambda: value > first,
        lambda: value < first,
        lambda: value >= first,
        lambda: value <= first,
    ][op]()


def expr_holds(op, left, right):
    return [left == right, left != right, left < right, left <= right, left > right, left >= right][op]


# ---- the checks 1 to 6


def outside(job, at, length):
    return at + length > len(job["pool"])


def off_grid(row, col):
    return row > MAX_ROW or col > MAX_COL


def bad_value(job, i):
    kind, at, length = job["kinds"][i], job["ats"][i], job["lens"][i]
    return kind not in (1, 2, 3, 4, 5) or (kind == 3 and outside(job, at, length)) or (kind == 4 and length > 1)


def first_fall(rows, cols):
    for i in range(1, len(rows)):
        if (rows[i - 1], cols[i - 1]) >= (rows[i], cols[i]):
            return i
    return None


def used_operands(rule):
    if rule["kind"] == EXPR:
        return [rule["first"], rule["second"]]
    if rule["kind"] == CELLIS:
        return [rule["first"], rule["second"]] if rule["op"] in (0, 1) else [rule["first"]]
    return []


def check(job, lengths):
    start = job["start"]
    cells, regions = len(job["rows"]), len(job["region_rows"])
    same = all(len(job[c]) == cells for c in ("cols", "kinds", "wraps", "nums", "ats", "lens"))
    if not same or len(job["region_cols"]) != regions:
        raise Turned(1, 0, start, 0)
    if cells > 1024 or regions > 1024 or job["number"] > 64 or len(job["pool"]) > 65_536:
        raise Turned(2, 0, start, 0)
    for i in range(cells):
        if off_grid(job["rows"][i], job["cols"][i]) or bad_value(job, i):
            raise Turned(3, i, start, 0)
    for i in range(regions):
        if off_grid(job["region_rows"][i], job["region_cols"][i]):
            raise Turned(3, i, start, 0)
    for rows, cols in ((job["rows"], job["cols"]), (job["region_rows"], job["region_cols"])):
        fall = first_fall(rows, cols)
        if fall is not None:
            raise Turned(4, fall, start, 0)
    for i, rule in enumerate(job["rules"][: job["number"]]):
        for operand in used_operands(rule):
            if operand[0] == "reference" and operand[5] is not None and outside(job, *operand[5]):
                raise Turned(5, i, start, 0)
    if outside(job, *job["name"]):
        raise Turned(5, 64, start, 0)
    if min(lengths[BAR_RULES], lengths[BAR_PPMS]) < regions or lengths[SCRATCH] < cells:
        raise Turned(6, 0, start, 0)


# ---- the rules


class Run:
    """The rules of a job that was checked, under a limit."""

    def __init__(self, job, limit):
        self.job, self.limit, self.count = job, limit, job["start"]
        self.cells = {}
        for i, at in enumerate(zip(job["rows"], job["cols"])):
            cell = {field: job[column][i] for field, column in (("kind", "kinds"), ("wraps", "wraps"), ("num", "nums"), ("len", "lens"))}
            cell["text"] = bytes(job["pool"][job["ats"][i] : job["ats"][i] + job["lens"][i]])
            self.cells[at] = cell
        self.regions = list(zip(job["region_rows"], job["region_cols"]))
        self.stopped = set()
        self.bars = {}
        self.marks = []
        self.deferred = self.simplified = 0

    def charge_one(self):
        if self.count == TOP:
            raise Turned(8, 0, self.count, 0)
        self.count += 1
        if self.count > self.limit:
            raise Turned(7, 0, self.count, self.count)

    def charge_area(self, area):
        if self.count + area > TOP:
            raise Turned(8, 0, self.count, 0)
        if self.count + area > self.limit:
            raise Turned(7, 0, self.count, self.count + area)
        self.count += area

    def run(self):
        rules = self.job["rules"][: self.job["number"]]
        precedence = lambda i: (i + 1 if rules[i]["priority"] is None else rules[i]["priority"], i)
        for i in sorted(range(len(rules)), key=precedence):
            found = self.decide(rules[i])
            if found is None:
                self.deferred += 1
                continue
            for region, kind, colour, ppm, shaped in found:
                self.marks.append((region, i, kind, colour, ppm, shaped))
                if kind in (3, 4) and region not in self.bars:
                    self.bars[region] = (i + 1, ppm)
                if rules[i]["stop"]:
                    self.stopped.add(region)
        return self

    def decide(self, rule):
        """The marks of a rule, without its index; None where it is deferred."""
        top, left, bottom, right = rule["range"]
        if top > bottom or left > right:
            return None
        for operand in used_operands(rule):
            if operand[0] == "unread" or (operand[0] == "literal" and not math.isfinite(float_of(operand[1]))):
                return None
        inside = lambda at: top <= at[0] <= bottom and left <= at[1] <= right
        test = self.prepare(rule, inside)
        if test in ("deferred", "skipped"):
            return None if test == "deferred" else []
        found = []
        for region, at in enumerate(self.regions):
            if region in self.stopped:
                continue
            self.charge_one()
            if not inside(at):
                continue
            paint = self.paint(rule, test, at)
            if paint == "unresolved":
                return None
            if paint is not None:
                found.append((region, *paint))
        return found

    def prepare(self, rule, inside):
        """What is worked out ahead of the regions."""
        kind = rule["kind"]
        if kind in (CELLIS, EXPR):
            return {}
        if kind == SAME:
            return self.prepare_same(rule)
        values = []
        for at in sorted(self.cells):
            if inside(at):
                self.charge_one()
                x = numeric(self.cells[at])
                if x is not None:
                    values.append(x)
        if kind == BAR and values:
            self.simplified += 1
        if not values or (kind == RANK and rule["rank"] == 0):
            return "skipped"
        ordered = sorted(values)
        if kind == RANK:
            return {"threshold": self.threshold(rule, ordered)}
        if kind == MEAN:
            total = 0.0
            for x in values:
                total += x
            return {"mean": total / len(values)} if math.isfinite(total) else "deferred"
        return {"least": ordered[0], "greatest": ordered[-1], "midpoint": midpoint(ordered)}

    def prepare_same(self, rule):
        top, left, bottom, right = rule["range"]
        if bottom > MAX_ROW or right > MAX_COL:
            return "deferred"
        area = (bottom - top + 1) * (right - left + 1)
        self.charge_area(area)
        keys = [key(self.cells[at]) for at in sorted(self.cells) if top <= at[0] <= bottom and left <= at[1] <= right]
        return {"keys": keys} if len(keys) == area and None not in keys else "deferred"

    def threshold(self, rule, ordered):
        n, rank = len(ordered), rule["rank"]
        if rule["percent"]:
            selected = -(-n * min(rank, 100) // 100)
        else:
            selected = rank
        selected = min(max(selected, 1), n)
        return ordered[selected - 1] if rule["flag"] else ordered[n - selected]

    def resolve(self, rule, operand, at):
        if operand[0] == "literal":
            return float_of(operand[1])
        _, row, col, row_absolute, col_absolute, name = operand
        if name is not None:
            named = bytes(self.job["pool"][name[0] : name[0] + name[1]])
            own = self.job["name"]
            if not same_name(named, bytes(self.job["pool"][own[0] : own[0] + own[1]])):
                return None
        row = axis(at[0], row, rule["range"][0], row_absolute, MAX_ROW)
        col = axis(at[1], col, rule["range"][1], col_absolute, MAX_COL)
        return numeric(self.cells.get((row, col)))

    def paint(self, rule, test, at):
        """Kind, colour, ppm and shape of the mark at a region in range; None for no mark."""
        kind, cell = rule["kind"], self.cells.get(at)
        value = numeric(cell)
        if kind == EXPR:
            operands = [self.resolve(rule, o, at) for o in used_operands(rule)]
            if None in operands:
                return "unresolved"
            return self.filled(rule, expr_holds(rule["op"], *operands))
        if kind == SAME:
            return self.filled(rule, (test["keys"].count(key(cell)) == 1) == rule["flag"])
        if value is None:
            return None
        if kind == CELLIS:
            operands = [self.resolve(rule, o, at) for o in used_operands(rule)]
            if None in operands:
                return "unresolved"
            return self.filled(rule, cellis_holds(rule["op"], value, *(operands + [None])[:2]))
        if kind == RANK:
            return self.filled(rule, value <= test["threshold"] if rule["flag"] else value >= test["threshold"])
        if kind == MEAN:
            return self.filled(rule, value < test["mean"] if rule["flag"] else value > test["mean"])
        if kind == BAR:
            ends = test["least"], test["greatest"]
            return (4 if rule["imported"] else 3, rule["colours"][0], ratio(value, *ends), shape(*ends))
        return self.scaled(rule, test, value)

    def filled(self, rule, holds):
        if not holds:
            return None
        return (2, 0, 0, 0) if rule["imported"] else (1, rule["colours"][0], 0, 0)

    def scaled(self, rule, test, value):
        start, end, low, high = rule["colours"][0], rule["colours"][-1], test["least"], test["greatest"]
        half = 0
        if rule["kind"] == SCALE3:
            if value <= test["midpoint"]:
                end, high = rule["colours"][1], test["midpoint"]
            else:
                start, low, half = rule["colours"][1], test["midpoint"], UPPER
        shaped = shape(low, high) + half
        if rule["imported"]:
            return (2, 0, 0, shaped)
        return (1, between_colours(start, end, ratio(value, low, high)), 0, shaped)


# ---- the whole call


def resolve(job, limit, lengths):
    """The answer's seven fields and the nine columns, each without the zeros at its end."""
    try:
        check(job, lengths)
        done = Run(job, limit).run()
        if len(done.marks) > min(lengths[: len(MARKS)]):
            raise Turned(9, 0, done.count, len(done.marks))
    except Turned as turned:
        return list(turned.args) + [0, 0, 0], [[] for _ in COLUMNS]
    bars = [done.bars.get(region, (0, 0)) for region in range(len(done.regions))]
    columns = [[mark[field] for mark in done.marks] for field in range(len(MARKS))]
    columns += [[bar[0] for bar in bars], [bar[1] for bar in bars], []]
    return [0, 0, done.count, 0, len(done.marks), done.deferred, done.simplified], columns
