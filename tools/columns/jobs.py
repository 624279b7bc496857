"""The jobs of the list: every rule kind, the traps of document 01, every refusal, and random ones."""
import random

from reference import BAR, CELLIS, EXPR, MEAN, RANK, SAME, SCALE2, SCALE3, TOP, bits_of

RED, GREEN, BLUE, GREY = 0xFF0000, 0x00FF00, 0x0000FF, 0x808080
F = 1.7976931348623157e308
TINY = 5e-324
INF, NAN = float("inf"), float("nan")
NAME = b"Sheet"
CELL_COLUMNS = ("rows", "cols", "kinds", "wraps", "nums", "ats", "lens")
REGION_COLUMNS = ("region_rows", "region_cols")


# ---- builders


def sheet(cells, regions=None, start=0, name=NAME):
    """Cells as (row, col, value, wraps); a value is a number, ('d', number), bytes, a bool, None for an error, or ('bits', kind, bits)."""
    job = {c: [] for c in (*CELL_COLUMNS, *REGION_COLUMNS, "rules")}
    job.update(pool=bytearray(name), name=(0, len(name)), start=start, number=0)
    for row, col, value, *wraps in cells:
        kind = num = at = length = 0
        if isinstance(value, bool):
            kind, length = 4, int(value)
        elif isinstance(value, bytes):
            kind, at, length = 3, len(job["pool"]), len(value)
            job["pool"] += value
        elif value is None:
            kind = 5
        elif isinstance(value, tuple) and value[0] == "bits":
            kind, num = value[1:]
        elif isinstance(value, tuple):
            kind, num = 2, bits_of(value[1])
        else:
            kind, num = 1, bits_of(value)
        for column, x in zip(CELL_COLUMNS, (row, col, kind, wraps[0] if wraps else 0, num, at, length)):
            job[column].append(x)
    for row, col in [(c[0], c[1]) for c in cells] if regions is None else regions:
        job["region_rows"].append(row)
        job["region_cols"].append(col)
    return job


def down(*values, **more):
    """A column of cells from the first one down, each a region unless regions are given."""
    return sheet([(i, 0, v) if not isinstance(v, list) else (i, 0, *v) for i, v in enumerate(values)], **more)


def add(job, *rules):
    job["rules"] += rules
    job["number"] = len(job["rules"])
    return job


def pooled(job, text):
    at = len(job["pool"])
    job["pool"] += text
    return at, len(text)


def rule(kind, area, colours, priority=None, stop=False, imported=False, op=0, flag=False, rank=0, percent=False, first=None, second=None):
    return {
        "kind": kind,
        "range": area,
        "colours": list(colours),
        "priority": priority,
        "stop": stop,
        "imported": imported,
        "op": op,
        "flag": flag,
        "rank": rank,
        "percent": percent,
        "first": first or ("unread",),
        "second": second or ("unread",),
    }


def lit(x):
    return ("literal", bits_of(x))


def ref(row, col, absolute=0, name=None):
    return ("reference", row, col, absolute & 1, absolute >> 1, name)


def cellis(area, op, first, second=None, fill=RED, **more):
    return rule(CELLIS, area, [fill], op=op, first=first, second=second, **more)


def expr(area, op, left, right, fill=BLUE, **more):
    return rule(EXPR, area, [fill], op=op, first=left, second=right, **more)


def scale2(area, low, high, **more):
    return rule(SCALE2, area, [low, high], **more)


def scale3(area, low, mid, high, **more):
    return rule(SCALE3, area, [low, mid, high], **more)


def bar(area, colour=GREEN, **more):
    return rule(BAR, area, [colour], **more)


def rank(area, n, bottom=False, percent=False, fill=RED, **more):
    return rule(RANK, area, [fill], rank=n, flag=bottom, percent=percent, **more)


def mean(area, below=False, fill=RED, **more):
    return rule(MEAN, area, [fill], flag=below, **more)


def same(area, unique=False, fill=RED, **more):
    return rule(SAME, area, [fill], flag=unique, **more)


def rows(n):
    return (0, 0, n - 1, 0)


# ---- answered jobs

MIXED = [1.0, ("d", 2.0), b"2", True, None, [2.0, 64], [2.0, 65], INF, NAN, -0.0, 3.5]


def plain_jobs():
    yield "the worked job", add(down(1.0, 2.0, 3.0), bar(rows(3)), mean(rows(3), priority=0, stop=True))
    yield "nothing at all", down()
    yield "cells and no rule", down(1.0, 2.0, start=7)
    yield "a rule and no region", add(down(1.0, 2.0, regions=[]), cellis(rows(2), 4, lit(1.0)))
    yield "regions and no cell", add(sheet([], [(0, 0), (3, 2)], 4), expr((0, 0, 5, 5), 0, lit(1.0), lit(1.0)), bar((0, 0, 5, 5)))
    for op in range(8):
        yield f"cell-is, operator {op}", add(down(*MIXED, start=op), cellis(rows(11), op, lit(1.0), lit(2.0)))
    for op in range(6):
        pairs = [(op, lit(1.0), lit(2.0)), (op, lit(2.0), lit(1.0)), (op, lit(0.0), lit(-0.0))]
        yield f"expression, operator {op}", add(down(1.0, None, regions=[(0, 0), (1, 0), (2, 0)]), *[expr(rows(3), *p) for p in pairs])
    yield "cell-is between ends that are turned round", add(
        down(1.0, 2.0, 3.0),
        cellis(rows(3), 0, lit(3.0), lit(1.0)),
        cellis(rows(3), 1, lit(3.0), lit(1.0)),
    )
    yield "two colours", add(down(1.0, 2.0, 4.0, b"x", True), scale2(rows(5), 0xFF0000, 0x0080FF))
    yield "two colours, one value", add(down(4.0, None), scale2(rows(2), RED, GREEN))
    yield "two colours, imported", add(down(4.0, 5.0), scale2(rows(2), RED, GREEN, imported=True))
    yield "three colours, odd and even numbers of values", add(
        down(1.0, 2.0, 4.0, 8.0, 16.0), scale3(rows(5), RED, GREEN, BLUE), scale3(rows(4), GREY, RED, 0x010203)
    )
    yield "three colours, imported", add(down(4.0, 5.0), scale3(rows(2), RED, GREEN, BLUE, imported=True))
    yield "a midpoint below both values", add(down(TINY, TINY), scale3(rows(2), RED, GREEN, BLUE))
    yield "a midpoint above both values", add(down(3 * TINY, 3 * TINY), scale3(rows(2), RED, GREEN, BLUE))
    yield "a midpoint below negative values", add(down(-3 * TINY, -3 * TINY), scale3(rows(2), RED, GREEN, BLUE))
    yield "the widest span", add(down(-F, 0.0, F), bar(rows(3)), scale2(rows(3), RED, BLUE), scale3(rows(3), RED, GREEN, BLUE))
    yield "halves and neighbours of halves", add(
        down(0.0, 0.5, 1.5, 2.5, 0.49999999999999994, 1e6),
        bar(rows(6)),
        scale2(rows(6), 0, 0xFFFFFF),
    )
    yield "a bar over equal values", add(down(5.0, 5.0), bar(rows(2)))
    yield "a bar, imported", add(down(1.0, 3.0, 2.0), bar(rows(3), imported=True))
    yield "bars that overlap, the first in order wins", add(
        down(1.0, 2.0, 3.0, 4.0),
        bar((0, 0, 2, 0), RED),
        bar((1, 0, 3, 0), GREEN),
        bar(rows(4), BLUE),
    )
    yield "bars that overlap, the last index first", add(
        down(1.0, 2.0, 3.0, 4.0),
        bar((0, 0, 2, 0), RED, priority=9),
        bar((1, 0, 3, 0), GREEN, priority=4),
        bar((2, 0, 3, 0), BLUE, priority=0),
    )
    yield "a bar of 0 ppm stops and stays", add(down(1.0, 2.0), bar(rows(2), stop=True), bar(rows(2), RED), cellis(rows(2), 4, lit(0.0)))
    yield "a bar without values", add(down(b"a", None, True, INF), bar(rows(4)), bar((9, 9, 9, 9)))
    yield "a bar whose regions are all stopped", add(down(1.0, 2.0), cellis(rows(2), 4, lit(0.0), stop=True), bar(rows(2)))
    six = [3.0, 1.0, 4.0, 1.0, 5.0, 4.0]
    yield "rank by count", add(down(*six), rank(rows(6), 2), rank(rows(6), 2, True, fill=BLUE), rank(rows(6), 9), rank(rows(6), 1))
    yield "rank by percent", add(
        down(3.0, 1.0, 2.0, start=100),
        rank(rows(3), 50, percent=True),
        rank(rows(3), 50, True, True),
        rank(rows(3), 1, percent=True),
        rank(rows(3), 250, percent=True),
    )
    yield "rank by percent, 250 of 7", add(down(*range(7)), rank(rows(7), 250, percent=True), rank(rows(7), 43, True, True))
    yield "rank 0", add(down(*six), rank(rows(6), 0), rank(rows(6), 0, True, True), rank(rows(6), 4294967295, imported=True))
    yield "rank without values", add(down(b"a", None), rank(rows(2), 1))
    yield "rank over both zeros", add(down(0.0, -0.0, 1.0), rank(rows(3), 1, True), rank(rows(3), 3))
    yield "average", add(down(1.0, 2.0, 3.0, b"9", ("d", 6.0)), mean(rows(5)), mean(rows(5), True, BLUE), mean(rows(5), imported=True))
    yield "average of equal values", add(down(0.1, 0.1, 0.1), mean(rows(3)), mean(rows(3), True))
    yield "a sum that leaves the numbers", add(down(F, F, -F), mean(rows(3)), mean(rows(2), True), bar(rows(3)))
    yield "a sum that stays", add(down(F, -F, F), mean(rows(3)), mean(rows(3), True))
    yield "average without values", add(down(None, True), mean(rows(2)))
    yield "duplicates of every key", add(
        down(1.0, ("d", 1.0), b"1", b"Ab", b"aB", True, True, False, 0.0, -0.0, [1.0, 64], b""), same(rows(12)), same(rows(12), True, BLUE)
    )
    for what, value in (
        ("an error", None),
        ("a star", b"a*"),
        ("a question mark", b"?"),
        ("a byte that is not ASCII", "é".encode()),
        ("an infinity", INF),
        ("65 wraps", [b"a", 65]),
    ):
        yield f"duplicates with {what}", add(down(1.0, 1.0, value), same(rows(3)), same(rows(2), True), same(rows(2), imported=True))
    yield "duplicates with a blank", add(sheet([(0, 0, 1.0), (2, 0, 1.0)]), same(rows(3)), same((0, 0, 0, 0)), same((2, 0, 2, 0), True))
    yield "duplicates over rows and columns", add(
        sheet([(r, c, float(r * c)) for r in range(2, 4) for c in range(3, 6)]),
        same((2, 3, 3, 5)),
        same((2, 3, 3, 5), True),
    )
    yield "duplicates over the whole grid and beyond", add(
        down(1.0, start=3), same((0, 0, 1048575, 16383)), same((0, 0, 1048576, 0)), same((0, 0, 0, 16384)), same((0, 0, 0, 0), True)
    )
    yield from reference_jobs()
    yield from order_jobs()
    yield from shape_jobs()


def reference_jobs():
    yield "relative references", add(
        sheet([(r, c, float(r + c)) for r in range(3) for c in range(2)], [(0, 0), (1, 0), (2, 0)]),
        cellis((0, 0, 2, 0), 5, ref(0, 1)),
        expr((1, 0, 2, 0), 2, ref(0, 0), ref(1, 1)),
    )
    yield "absolute references, by row, by column, by both", add(
        sheet([(r, c, float(3 * r + c)) for r in range(3) for c in range(3)]),
        *[cellis((0, 0, 2, 2), 6, ref(1, 1, a), priority=a) for a in (1, 2, 3)],
        cellis((0, 0, 2, 2), 0, ref(0, 0, 3), ref(1, 1, 3), BLUE),
    )
    yield "a reference below the first row", add(down(1.0, 2.0), cellis((1, 0, 1, 0), 2, ref(0, 0)), cellis(rows(2), 2, ref(1, 0)))
    yield "a reference left of the first column and beyond the last", add(
        sheet([(0, 0, 1.0), (0, 1, 2.0), (0, 16383, 3.0)]),
        expr((0, 1, 0, 16383), 0, ref(0, 0), ref(0, 1)),
        expr((0, 0, 0, 16383), 1, ref(0, 16383), ref(0, 0)),
    )
    yield "a relative reference beyond the last row", add(
        sheet([(1048574, 0, 1.0), (1048575, 0, 2.0)]),
        cellis((1048574, 0, 1048575, 0), 4, ref(1048575, 0)),
    )
    yield "an absolute reference off the grid", add(
        down(1.0),
        cellis(rows(1), 2, ref(4294967295, 65535, 3)),
        expr(rows(1), 0, ref(1048576, 0, 3), lit(1.0)),
    )
    yield "marks ahead of an operand that is missing are dropped", add(
        down(1.0, 2.0, 3.0, 4.0), cellis(rows(4), 5, ref(1, 0), stop=True), cellis(rows(3), 5, ref(1, 0), fill=BLUE), mean(rows(4))
    )
    yield "a region without a number ahead of a missing operand", add(
        down(b"x", 1.0, 2.0),
        cellis(rows(3), 2, ref(5, 5, 3)),
        expr(rows(3), 2, ref(5, 5, 3), lit(0.0)),
    )
    yield "an operand that is a text, an error, 65 wraps, an infinity", add(
        sheet([(0, 0, 1.0), (0, 1, b"1"), (0, 2, None), (0, 3, 1.0, 65), (0, 4, INF), (0, 5, 1.0, 64)], [(0, 0)]),
        *[cellis((0, 0, 0, 0), 2, ref(0, c)) for c in range(1, 6)],
    )
    yield "the second operand is missing, used and not", add(
        down(1.0, 2.0),
        *[cellis(rows(2), op, lit(1.0), ref(9, 9, 3)) for op in range(8)],
    )
    yield "unread operands, used and not", add(
        down(1.0, 2.0, start=2),
        cellis(rows(2), 2, ("unread",)),
        cellis(rows(2), 0, lit(1.0), ("unread",)),
        cellis(rows(2), 1, ("unread",), lit(1.0)),
        cellis(rows(2), 2, lit(1.0), ("unread",)),
        expr(rows(2), 0, ("unread",), lit(1.0)),
        expr(rows(2), 0, lit(1.0), ("unread",)),
    )
    yield "literals that are not finite", add(
        down(1.0, 2.0),
        *[cellis(rows(2), 3, lit(x)) for x in (NAN, INF, -INF)],
        cellis(rows(2), 0, lit(0.0), lit(INF)),
        expr(rows(2), 1, lit(1.0), lit(NAN)),
        cellis(rows(2), 4, lit(0.5), lit(NAN)),
    )
    for title, own, other in (
        ("the same name", b"Sheet", b"Sheet"),
        ("a name in another case", b"Sheet", b"sHEET"),
        ("another name", b"Sheet", b"Sheet1"),
        ("a name that is not ASCII", "Größe".encode(), "Größe".encode()),
        ("a name that is not ASCII, in another case", "Größe".encode(), "GRöße".encode()),
        ("an empty name", b"", b""),
        ("an empty name for a sheet with one", b"Sheet", b""),
    ):
        job = down(1.0, 2.0, name=own)
        span = pooled(job, other)
        yield f"{title}", add(job, cellis(rows(2), 2, ref(0, 0, 0, span)), expr(rows(2), 0, ref(0, 0, 3, span), ref(0, 0, 3)))


def order_jobs():
    yield "priorities, ties and missing ones", add(
        down(1.0, 2.0),
        cellis(rows(2), 4, lit(0.0), fill=1),
        cellis(rows(2), 4, lit(0.0), fill=2, priority=1),
        cellis(rows(2), 4, lit(0.0), fill=3, priority=4294967295),
        cellis(rows(2), 4, lit(0.0), fill=4, priority=0),
        cellis(rows(2), 4, lit(0.0), fill=5, priority=4),
        cellis(rows(2), 4, lit(0.0), fill=6, priority=1),
        cellis(rows(2), 4, lit(0.0), fill=7),
    )
    yield "equal priorities by index", add(down(1.0), *[cellis(rows(1), 4, lit(0.0), fill=f, priority=7, stop=f == 2) for f in range(4)])
    yield "stopped regions are not charged", add(
        down(1.0, 2.0, 3.0),
        cellis((0, 0, 1, 0), 6, lit(2.0), stop=True),
        cellis(rows(3), 4, lit(0.0), fill=BLUE),
        bar(rows(3), stop=True),
        mean(rows(3)),
        same(rows(3), True),
    )
    yield "a stop that is deferred stops nothing", add(
        down(1.0, 2.0),
        cellis(rows(2), 5, ref(1, 0), stop=True),
        cellis(rows(2), 4, lit(0.0), fill=BLUE),
    )
    yield "a stop of a later rule", add(
        down(1.0, 2.0),
        cellis(rows(2), 4, lit(0.0), priority=2),
        cellis(rows(2), 4, lit(1.0), stop=True, priority=1, fill=BLUE),
    )
    yield "every kind imported, and stop", add(
        down(1.0, 2.0, 2.0, start=9),
        cellis((0, 0, 0, 0), 2, lit(1.0), imported=True, stop=True),
        *[bar(rows(3), imported=k) for k in (False, True)],
        *[rank(rows(3), 1, imported=k) for k in (False, True)],
        *[mean(rows(3), imported=k) for k in (False, True)],
        *[same(rows(3), imported=k) for k in (False, True)],
        *[expr(rows(3), 0, lit(0.0), lit(0.0), imported=k) for k in (False, True)],
    )
    upside, across = (2, 0, 1, 0), (0, 1, 2, 0)
    for title, area in (("upside down", upside), ("right to left", across)):
        yield f"a range that is {title}, of every kind", add(
            down(1.0, 2.0, 3.0, start=1),
            cellis(area, 2, lit(1.0)),
            scale2(area, RED, BLUE),
            scale3(area, RED, GREEN, BLUE),
            bar(area),
            rank(area, 1),
            mean(area),
            same(area),
            expr(area, 0, lit(1.0), lit(1.0)),
        )
    yield "a range at the numbers' end", add(
        sheet([(1048575, 16383, 1.0)]),
        bar((0, 0, 4294967295, 65535)),
        cellis((1048575, 16383, 4294967295, 65535), 2, lit(1.0)),
        same((1048575, 16383, 1048575, 16383)),
    )
    yield "a range beside every region", add(
        down(1.0, 2.0),
        cellis((5, 5, 6, 6), 2, lit(1.0)),
        bar((5, 5, 6, 6)),
        expr((5, 5, 6, 6), 0, lit(1.0), lit(1.0)),
    )
    yield "cells that are no regions, regions that are no cells", add(
        sheet([(0, 0, 1.0), (1, 0, 9.0), (2, 0, 5.0)], [(0, 0), (2, 0), (3, 0)]),
        bar(rows(4)),
        mean(rows(4)),
        rank(rows(4), 1),
        scale2(rows(4), RED, BLUE),
        cellis(rows(4), 5, lit(9.0)),
    )
    yield "a row of cells", add(
        sheet([(0, c, float(c)) for c in range(6)]),
        cellis((0, 1, 0, 4), 6, lit(3.0)),
        bar((0, 0, 0, 5)),
    )
    yield "64 rules", add(down(1.0, 2.0), *[cellis((i % 2, 0, i % 2, 0), 4, lit(0.0), fill=i, priority=63 - i) for i in range(64)])
    job = add(down(1.0), cellis(rows(1), 2, lit(1.0)), bar(rows(1)), cellis(rows(1), 2, ref(0, 0, 3, (4000000000, 4000000000))))
    job["number"] = 2
    yield "records past the number of rules", job
    yield "an unused name outside the pool", add(down(1.0), *[cellis(rows(1), op, lit(1.0), ref(0, 0, 3, (5, 1))) for op in range(2, 8)])
    job = down(1.0, 2.0, b"", b"")
    job["ats"][0], job["lens"][0], job["nums"][2], job["nums"][3], job["ats"][3] = 4294967295, 4294967295, 5, 2**64 - 1, 5
    yield "numbers where nothing is read", add(job, same((2, 0, 3, 0)), mean(rows(4)))


def shape_jobs():
    both = (False, True)
    plain, flat, wide = (0, 0, 1, 0), (2, 0, 3, 0), (3, 0, 4, 0)
    ends = lambda **more: down(1.0, 2.0, -F, -F, F, **more)
    yield "shapes of bars: plain, flat, too wide", add(ends(), *[bar(area, imported=k) for area in (plain, flat, wide) for k in both])
    yield "shapes of two colours: plain, flat, too wide", add(
        ends(start=5), *[scale2(area, RED, BLUE, imported=k) for area in (plain, flat, wide) for k in both]
    )
    yield "shapes of both zeros and of the least number", add(down(0.0, -0.0, TINY), bar(rows(2)), scale2((1, 0, 2, 0), RED, BLUE))
    yield "shapes on both sides of the widest difference", add(
        sheet([(0, 0, F), (0, 1, -(2.0**970 - 2.0**917)), (1, 0, F), (1, 1, -(2.0**970))]),
        *[make(area) for area in ((0, 0, 0, 1), (1, 0, 1, 1)) for make in (bar, lambda a: scale2(a, RED, BLUE))],
    )
    for title, values in (
        ("plain in both halves", (1.0, 2.0, 3.0)),
        ("flat in the lower half, plain in the upper", (1.0, 1.0, 2.0)),
        ("flat in the lower half, too wide in the upper", (-F, -F, F)),
        ("too wide in the lower half, plain in the upper", (-F, 0.9 * F, F)),
        ("too wide in the lower half alone", (-F, F, F)),
        ("too wide as a whole, plain in each half", (-F, 0.0, F)),
        ("flat as a whole", (7.0, 7.0, 7.0)),
    ):
        yield f"shapes of three colours: {title}", add(down(*values), *[scale3(rows(3), RED, GREEN, BLUE, imported=k) for k in both])
    yield "shapes of three colours whose midpoint is no value", add(
        down(TINY, TINY, 3 * TINY, 3 * TINY, -F, F),
        *[scale3(area, RED, GREEN, BLUE) for area in ((0, 0, 1, 0), (2, 0, 3, 0), (4, 0, 5, 0))],
    )
    yield "shapes of imported styles, with a ratio and without", add(
        down(5.0, 5.0, b"x"),
        *[make(rows(3), imported=k) for make in (lambda a, **m: cellis(a, 2, lit(5.0), **m), bar, mean, same) for k in both],
        scale2(rows(3), RED, BLUE, imported=True),
        scale3(rows(3), RED, GREEN, BLUE, imported=True, stop=True),
        expr(rows(3), 0, lit(1.0), lit(1.0), imported=True),
    )


# ---- jobs near the end of the counter, and large ones


def counter_jobs():
    one = lambda s: add(down(1.0, 2.0, start=s), cellis(rows(2), 4, lit(0.0)), bar(rows(2)))
    yield "the count ends at 2^64 - 1", one(TOP - 6)
    yield "overflow by one evaluation, the last", one(TOP - 5)
    yield "overflow by one evaluation, of a cell", one(TOP - 2)
    yield "overflow by one evaluation, of a region", one(TOP - 1)
    yield "overflow at the first", one(TOP)
    yield "no charge at 2^64 - 1", add(down(1.0, start=TOP), cellis((2, 0, 1, 0), 2, lit(1.0)), cellis(rows(1), 2, ("unread",)))
    area = lambda s: add(down(1.0, 1.0, 1.0, start=s), cellis((0, 0, 0, 0), 4, lit(0.0)), same(rows(3)))
    yield "an area that ends at 2^64 - 1", area(TOP - 9)
    yield "overflow by an area", area(TOP - 5)
    yield "an area up to 2^64 - 1, and overflow by one evaluation", area(TOP - 6)
    yield "overflow by the widest area", add(down(1.0, start=TOP - 1048576 * 16384 + 1), same((0, 0, 1048575, 16383)))


def large_jobs():
    cells = [(i // 32, i % 32, i % 3 == 0) for i in range(1024)]
    yield "1,024 cells, regions and marks", add(sheet(cells), expr((0, 0, 31, 31), 0, lit(1.0), lit(1.0), fill=5))
    yield "more marks than any space", add(sheet(cells), *[expr((0, 0, 31, 31), 0, lit(1.0), lit(1.0)) for _ in range(2)])


# ---- refusals 1 to 6


def base(start=5):
    job = add(
        sheet([(0, 0, 1.0), (0, 1, b"ab"), (1, 0, True), (1, 1, None)], [(0, 0), (1, 0), (2, 0)], start),
        bar((0, 0, 2, 2)),
        cellis((0, 0, 2, 2), 2, ref(0, 0, 0, (0, 5))),
    )
    return job


def refused_jobs():
    for column in (*CELL_COLUMNS, *REGION_COLUMNS):
        for more in (False, True):
            job = base()
            job[column] = job[column] + [9] if more else job[column][:-1]
            yield f"1: {column} {'longer' if more else 'shorter'}", job
    job = base()
    job["number"], job["region_cols"] = 65, []
    yield "1 ahead of 2", job
    yield from too_many_jobs()
    yield from bound_jobs()
    yield from fall_jobs()
    yield from name_jobs()
    yield "6: three regions and four cells", base()


def too_many_jobs():
    yield "2: 1,025 cells", sheet([(i, 0, None) for i in range(1025)], [], 5)
    yield "2: 1,025 regions", sheet([], [(i, 0) for i in range(1025)], 5)
    for number in (65, TOP):
        job = base()
        job["number"] = number
        yield f"2: {number} rules", job
    job = base()
    job["pool"] = job["pool"] + bytes(65537 - len(job["pool"]))
    yield "2: 65,537 pool bytes", job
    job = base()
    job["number"], job["rows"][0] = 65, 1048576
    yield "2 ahead of 3", job
    job = down(b"", start=5, name=b"")
    job["pool"], job["name"], job["lens"] = bytearray(65536), (65536, 0), [65536]
    yield "65,536 pool bytes, one text", add(job, cellis(rows(1), 2, ref(0, 0, 0, (65536, 0))))


def bound_jobs():
    def changed(title, *changes):
        job = base()
        for column, i, x in changes:
            job[column][i] = x
        return title, job

    yield changed("3: a cell's row off the grid", ("rows", 3, 1048576))
    yield changed("3: a cell's column off the grid", ("cols", 3, 16384))
    yield changed("3: kind 0", ("kinds", 1, 0))
    yield changed("3: kind 6", ("kinds", 0, 6))
    yield changed("3: a text one byte past the pool", ("lens", 1, 3))
    yield changed("3: an empty text past the pool", ("ats", 1, 8), ("lens", 1, 0))
    yield changed("3: a text whose end is past 2^32", ("ats", 1, 4294967295), ("lens", 1, 4294967295))
    yield changed("3: a bool of 2", ("lens", 2, 2))
    yield changed("3: a region's row off the grid", ("region_rows", 2, 1048576))
    yield changed("3: a region's column off the grid", ("region_cols", 1, 16384))
    yield changed("3: the first of two cells", ("kinds", 2, 0), ("kinds", 1, 9))
    yield changed("3: a later cell ahead of an earlier region", ("kinds", 3, 255), ("region_rows", 0, 4294967295))
    yield changed("3: a region ahead of cells that fall", ("rows", 0, 9), ("region_cols", 2, 65535))
    yield changed("an empty text at the pool's end", ("ats", 1, 7), ("lens", 1, 0))


def fall_jobs():
    def falls(title, cells, regions, name=NAME):
        job = add(sheet([(r, c, None) for r, c in cells], regions, 5), bar((0, 0, 9, 9)))
        job["name"] = (0, len(name))
        return title, job

    good = [(0, 0), (1, 1)]
    for title, at in (("the same twice", (1, 1)), ("a lower row", (0, 9)), ("a lower column", (1, 0))):
        yield falls(f"4: cells, {title}", good + [at, (0, 0)], good)
        yield falls(f"4: regions, {title}", good, good + [at, (9, 9)])
    yield falls("4: cells that fall later ahead of regions", good + [(0, 0)], [(5, 5), (5, 5)])
    yield falls("4 ahead of 5", good, [(1, 1), (0, 0)], b"Sheet and more")


def name_jobs():
    lost, sound = (3, 3), (0, 5)

    def named(title, *rules, own=(0, 5)):
        job = add(down(1.0, start=5), *rules)
        job["name"] = own
        return title, job

    fine = cellis(rows(1), 2, ref(0, 0, 0, sound))
    yield named("5: the sheet's name", fine, own=(0, 6))
    yield named("5: the sheet's name, empty and past the pool", own=(6, 0))
    yield named("5: the sheet's name, its end past 2^32", own=(4294967295, 2))
    for op in range(8):
        yield named(f"5: first operand, operator {op}", fine, cellis(rows(1), op, ref(0, 0, 0, lost), lit(1.0)))
    for op in (0, 1):
        yield named(f"5: second operand, operator {op}", cellis(rows(1), op, ref(0, 0, 0, sound), ref(0, 0, 0, lost)))
    yield named("5: left of an expression, the other side unread", fine, fine, expr(rows(1), 0, ref(0, 0, 0, lost), ("unread",)))
    yield named("5: right of an expression", fine, expr(rows(1), 5, lit(1.0), ref(0, 0, 0, (5, 1))))
    yield named("5: a rule with an inverted range", cellis((1, 0, 0, 0), 2, ref(0, 0, 0, lost)))
    two = [expr(rows(1), 0, lit(1.0), ref(0, 0, 0, lost)), cellis(rows(1), 2, ref(0, 0, 0, lost))]
    yield named("5: the first of two rules, ahead of the sheet's name", fine, *two, own=(5, 1))


# ---- random jobs


def random_cell(draw):
    pick = draw.randrange(10)
    wraps = draw.choice([0, 0, 0, 0, 1, 64, 65])
    if pick < 6:
        x = draw.choice([draw.randrange(-3, 4) * 1.0, draw.uniform(-5, 5), draw.choice([TINY, -TINY, F, -F, INF, NAN, -0.0])])
        return [("d", x) if draw.randrange(4) == 0 else x, wraps]
    if pick < 8:
        return [draw.choice([b"a", b"A", b"1", b"", b"a*", "é".encode()]), wraps]
    return [draw.choice([True, False, None]), wraps]


def random_operand(draw, spans):
    pick = draw.randrange(12)
    if pick < 6:
        return lit(draw.choice([draw.randrange(-3, 4) * 1.0, draw.uniform(-5, 5)]))
    if pick < 11:
        return ref(draw.randrange(5), draw.randrange(4), draw.randrange(4), draw.choice([None, None, None] + spans))
    return draw.choice([("unread",), lit(NAN)])


def random_rule(draw, spans):
    top, left = draw.randrange(3), draw.randrange(3)
    area = (top, left, top + draw.choice([0, 1, 2, 4, -1]) if top else draw.randrange(5), left + draw.randrange(3))
    more = {"priority": draw.choice([None, None, 0, 1, 2, 3]), "stop": draw.randrange(4) == 0, "imported": draw.randrange(4) == 0}
    colour = lambda: draw.randrange(1 << 24)
    operand = lambda: random_operand(draw, spans)
    flag = draw.randrange(2) == 1
    return draw.choice(
        [
            lambda: cellis(area, draw.randrange(8), operand(), operand(), colour(), **more),
            lambda: scale2(area, colour(), colour(), **more),
            lambda: scale3(area, colour(), colour(), colour(), **more),
            lambda: bar(area, colour(), **more),
            lambda: rank(area, draw.choice([0, 1, 2, 3, 30, 70, 200]), flag, draw.randrange(2) == 1, colour(), **more),
            lambda: mean(area, flag, colour(), **more),
            lambda: same(area, flag, colour(), **more),
            lambda: expr(area, draw.randrange(6), operand(), operand(), colour(), **more),
        ]
    )()


def random_jobs(number, seed):
    draw = random.Random(seed)
    grid = [(r, c) for r in range(5) for c in range(4)]
    for i in range(number):
        full = draw.random()
        cells = [(r, c, *random_cell(draw)) for r, c in grid if draw.random() < full]
        regions = [at for at in grid if draw.random() < draw.choice([0.2, 0.5])]
        job = sheet(cells, regions, draw.choice([0, 0, 3, 1000, TOP - 30]))
        spans = [pooled(job, text) for text in (b"SHEET", b"other")]
        yield f"random {i}", add(job, *[random_rule(draw, spans) for _ in range(draw.randrange(1, 6))])
