#!/usr/bin/env python3
"""Writes the lists of the program `tries`, and what it has to print on them. Run in the repository's root:

    tools/columns/make.py                writes crates/tries/data/*, crates/tries/args and crates/tries/stdout
    tools/columns/make.py --texts DIR    writes each job that a text can say, at each of its limits, as DIR/N-LIMIT.job, and its report
                                         as DIR/N-LIMIT.report

Every expected value is worked out by reference.py from documents 01 and 02, none by the program's own code.
"""
import copy
import os
import sys

sys.dont_write_bytecode = True

import jobs
from reference import BAR_PPMS, BAR_RULES, CELLIS, COLUMNS, EXPR, FIELDS, MARKS, SCRATCH, TOP, resolve

CRATE = os.path.join("crates", "tries")
LONGEST = 1040
HEAD = """\
# Jobs for the call over lent columns, and what it must give. Numbers are decimal; each has a space or a line end behind it.
# A column: its length, how many numbers follow, and these; the others are 0.
# A job: the start; the sheet name's at and len; the number of rules; a column with the 32 words of each record; columns row, col, kind,
#   wraps, num (as bits), at, len of the cells; row, col of the regions; the pool; the number of runs, and these.
# A record: top, left, bottom, right, priority written, priority, stop, imported, kind, operator or direction, rank, percent, three colours;
#   eight words for each of two operands (0 for unread; 1 and bits for a literal; 2, row, col, row absolute, col absolute, named, at and len
#   for a reference); and a 0.
# A run: the limit and the lengths of the nine columns lent for writing; then what is expected: number, place, count, actual, marks,
#   deferred, simplified; and of regions, rule_indices, mark_kinds, colours, ppms, shapes, bar_rules, bar_ppms and scratch (0 for zero,
#   else 1) how many numbers follow, and these; the others are 0.
"""


# ---- runs


def lent_lengths(job, space, turn):
    """The shortest of the mark columns is the space, each in its turn; the others, the bar columns and scratch are longer by a little."""
    number = len(MARKS)
    marks = [min(space + (0 if i == turn % number else 1 + (i + turn) % 3), LONGEST) for i in range(number)]
    regions, cells = len(job["region_rows"]), len(job["rows"])
    more = [min(n, LONGEST) for n in (regions + turn % 3, regions + (turn + 1) % 2, cells + turn % 4)]
    return marks + more


def limits_and_spaces(job):
    """Limits and mark spaces to run a job with."""
    (number, _, count, _, marks, _, _), _ = resolve(job, TOP, [1 << 20] * len(COLUMNS))
    start = job["start"]
    if number == 8:
        return [(limit, 3) for limit in sorted({0, start - 1, start, min(start + 1, TOP), TOP - 1, TOP})]
    if number:
        return [(0, 0), (TOP, 4)]
    limits = [x for x in {start, count - 1, count, count + 1, TOP} if 0 <= x <= TOP]
    spaces = [x for x in {0, marks - 1, marks, marks + 1} if 0 <= x <= LONGEST]
    if not spaces[1:]:
        spaces.append(LONGEST)
    if count == start:
        limits.append(0)
    if len(job["rows"]) <= 3 and marks <= 4:
        return [(limit, space) for limit in sorted(set(limits)) for space in sorted(spaces)]
    full = min(marks, LONGEST)
    return [(limit, full) for limit in sorted(set(limits))] + [(TOP, space) for space in sorted(spaces) if space != full]


def shape_lengths(job):
    """Mark columns of one length but for the shapes, which alone are too short, exact, the shortest, or the longest."""
    (_, _, _, _, marks, _, _), _ = resolve(job, TOP, [1 << 20] * len(COLUMNS))
    lent = lent_lengths(job, 0, 0)[len(MARKS) :]
    for others, shapes in ((marks + 2, 0), (marks + 2, marks - 1), (marks + 2, marks), (marks, marks + 3), (marks - 1, marks + 3)):
        yield [others] * (len(MARKS) - 1) + [shapes] + lent


def runs_of(turn, title, job):
    """The runs of a job; which column is the shortest in the first of them goes by the turn."""
    runs = [(limit, lent_lengths(job, space, turn + i)) for i, (limit, space) in enumerate(limits_and_spaces(job))]
    if title.startswith("6:"):
        enough = [9] * len(MARKS) + [len(job["region_rows"]), len(job["region_rows"]), len(job["rows"])]
        for limit in (0, TOP):
            runs += [(limit, [n - (i == short) for i, n in enumerate(enough)]) for short in (BAR_RULES, BAR_PPMS, SCRATCH, None)]
        runs += [(TOP, [9] * len(MARKS) + [0, 0, 0])]
    elif title[0] in "12345":
        runs += [(TOP, [0] * len(COLUMNS))]
    elif title.startswith("shapes"):
        runs += [(TOP, lengths) for lengths in shape_lengths(job)]
    return [(limit, lengths, *resolve(job, limit, lengths)) for limit, lengths in runs]


def entries():
    found = [*jobs.plain_jobs(), *jobs.counter_jobs(), *jobs.large_jobs(), *jobs.refused_jobs(), *jobs.random_jobs(48, 2026)]
    return [(title, job, runs_of(turn, title, job)) for turn, (title, job) in enumerate(found)]


# ---- texts of a list


def numbers(*xs):
    return " ".join(str(int(x)) for x in xs)


def prefix(xs):
    """How many numbers follow, and these: without the zeros at the end."""
    xs = list(xs)
    while xs and not xs[-1]:
        xs.pop()
    return numbers(len(xs), *xs)


def column(xs, length=None):
    return f"{len(xs) if length is None else length} {prefix(xs)}"


def operand_words(operand):
    if operand[0] == "literal":
        return [1, operand[1]]
    if operand[0] == "reference":
        name = operand[5]
        return [2, *operand[1:5], *((1, *name) if name is not None else (0, 0, 0))]
    return [0]


def padded(words, length):
    return words + [0] * (length - len(words))


def record_words(rule):
    """The 32 words of a record."""
    priority = [0, 0] if rule["priority"] is None else [1, rule["priority"]]
    colours = (rule["colours"] + [0, 0])[:3]
    direction = rule["op"] if rule["kind"] in (CELLIS, EXPR) else rule["flag"]
    words = [*rule["range"], *priority, rule["stop"], rule["imported"], rule["kind"], direction, rule["rank"], rule["percent"], *colours]
    return padded(words, 15) + padded(operand_words(rule["first"]), 8) + padded(operand_words(rule["second"]), 9)


def record_lines(rules):
    """One column of all words, a record to a line."""
    words = [word for rule in rules for word in record_words(rule)]
    length = len(words)
    while words and not words[-1]:
        words.pop()
    yield numbers(length, len(words))
    for at in range(0, len(words), 32):
        yield numbers(*words[at : at + 32])


def job_lines(title, index, job):
    yield f"# job {index}: {title}"
    yield numbers(job["start"], *job["name"])
    yield numbers(job["number"])
    yield from record_lines(job["rules"])
    for name in (*jobs.CELL_COLUMNS, *jobs.REGION_COLUMNS, "pool"):
        yield column(job[name])


def entry_text(index, title, job, runs):
    lines = [*job_lines(title, index, job), numbers(len(runs))]
    for limit, lengths, answer, columns in runs:
        lines += [numbers(limit, *lengths), numbers(*answer), " ".join(map(prefix, columns))]
    text = "\n".join(lines) + "\n"
    assert len(text) <= 65_000, (title, len(text))
    return text


def list_text(found):
    return numbers(len(found)) + "\n" + "".join(entry_text(i + 1, *entry) for i, entry in enumerate(found))


def counts(found):
    runs = [run for _, _, runs in found for run in runs]
    values = sum(7 + sum(lengths) for _, lengths, _, _ in runs)
    return f"{len(found)} jobs, {len(runs)} runs, {values} values compared"


# ---- the damaged copy


def damaged(found):
    """A copy with one wrong value of each kind, each in a job of its own, and the lines that say so."""
    wanted = [("field", i) for i in range(7)] + [(part, i) for i in range(len(COLUMNS)) for part in ("result", "tail", "refused")]
    found = copy.deepcopy(found)
    lines = []
    for index, (_, _, runs) in enumerate(found):
        for number, (_, lengths, answer, columns) in enumerate(runs):
            spot = next((w for w in wanted if fits(w, lengths, answer, columns)), None)
            if spot is None:
                continue
            wanted.remove(spot)
            name, expected, given = damage(spot, lengths, answer, columns)
            lines.append(f"job {index + 1} run {number + 1} {name}: expected {expected}, given {given}")
            break
    assert not wanted, wanted
    return found, lines


def fits(spot, lengths, answer, columns):
    part, i = spot
    if part == "field":
        # a field that is not zero, where there is one
        return answer[i] > 0 and (i != 0 or answer[0] == 7)
    if part == "refused":
        return answer[0] > 0 and lengths[i] > 1
    if answer[0] > 0:
        return False
    if part == "tail":
        return lengths[i] > max(len(columns[i]), 1)
    return lengths[i] > 1 if i == SCRATCH else any(columns[i])


def damage(spot, lengths, answer, columns):
    part, i = spot
    if part == "field":
        answer[i] += 1
        return FIELDS[i], answer[i], answer[i] - 1
    at = {"tail": lengths[i] - 1, "refused": lengths[i] // 2, "result": 0}[part]
    if part == "result" and i != SCRATCH:
        at = max(k for k, x in enumerate(columns[i]) if x)
    columns[i] += [0] * (at + 1 - len(columns[i]))
    given = columns[i][at]
    columns[i][at] += 1
    return f"{COLUMNS[i]} {at}", given + 1, given


# ---- lists that are damaged in their form


def faulty(entry):
    """Name, text, and where and what the fault is: a list of one job with one run, changed."""
    title, job, runs = entry
    sound = list_text([(title, job, runs[-1:])])
    last = sound.rindex(" ") + 1
    rows = sound.index("\n3 3 0 1 2\n") + 1
    yield "empty", "", 0, "the list ends early"
    yield "cut", sound[:last], last, "the list ends early"
    yield "cut_in_a_number", sound[:-1], last, "the list ends early"
    yield "half", sound[: rows + 1], rows, "the list ends early"
    yield "word", sound[:last] + "x" + sound[last:], last, "no number"
    yield "sign", sound[:rows] + "-" + sound[rows:], rows, "no number"
    yield "fraction", sound[:-1] + ".5\n", last, "no number"
    yield "large", sound[:last] + "18446744073709551616\n", last, "a number too large"
    yield "long_column", sound[:rows] + "1041" + sound[rows + 1 :], rows, "a number too large"
    yield "more", sound + "0\n", len(sound), "the list goes on past its last run"


def write(path, text):
    with open(path, "w", newline="\n") as file:
        file.write(text)


def write_lists():
    found = entries()
    wrong, lines = damaged(found)
    data = os.path.join(CRATE, "data")
    os.makedirs(data, exist_ok=True)
    names, out = ["true", "damaged"], [f"true: {counts(found)}, 0 mismatches", *lines, f"damaged: {counts(wrong)}, {len(lines)} mismatches"]
    write(os.path.join(data, "true"), HEAD + list_text(found))
    write(os.path.join(data, "damaged"), HEAD + list_text(wrong))
    for name, text, at, what in faulty(found[0]):
        write(os.path.join(data, name), text)
        names.append(name)
        out.append(f"{name}: FAULTY LIST at byte {at}: {what}")
    write(os.path.join(CRATE, "args"), "\n".join([*names, "absent"]) + "\n")
    write(os.path.join(CRATE, "stdout"), "\n".join([*out, "absent: NO LIST"]) + "\n")
    print("\n".join(out[:1] + out[len(lines) + 1 : len(lines) + 2]))


if __name__ == "__main__":
    if sys.argv[1:2] == ["--texts"]:
        from texts import write_texts

        write_texts(sys.argv[2], entries())
    else:
        write_lists()
