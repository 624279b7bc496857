#!/usr/bin/env python3
"""Writes what the program crates/replays is run on in the gate, and what it has to print: its data/, args and stdout.

  tools/replays/make.py STORED DAMAGED

STORED is a list of jobs with the reports of the original, DAMAGED a copy of it in which some reports are damaged; README.md beside this
file has the commands of tools/oracle that make both. The examples' list is that of tools/examples-list. Nothing here decides a job: what
is to be printed of DAMAGED is where it differs from STORED, and of a list damaged in its form, where and how it was damaged. A text
that its report refuses is refused alike when it is saved, and every other comes back.
"""

import pathlib
import sys

CRATE = pathlib.Path(__file__).resolve().parents[2] / "crates" / "replays"
EXAMPLES = CRATE / "data" / "examples.list"

EARLY = "the list ends early"
WORD = "another word is due"
NUMBER = "no number"
LARGE = "a number too large"
COUNT = "the list has another number of jobs"
MORE = "the list goes on past its end"
UNREADABLE = "the list cannot be read"

# the refusals of a text ahead of any rule
REFUSED = {2, 3, 4, 10, 11}

# how often the free parts of a job's columns are filled (ROUNDS, crates/replays/src/freeparts.rt)
ROUNDS = 3


def part(data, at, word):
    """The bytes behind a line `WORD N` at a place, and the place after them."""
    end = data.index(b"\n", at)
    if data[at : at + len(word)] != word:
        sys.exit(f"make.py: no '{word.decode()}' at byte {at}")
    length = int(data[at + len(word) : end])
    return data[end + 1 : end + 1 + length], end + 1 + length


def entries(data):
    """The jobs and reports of a list."""
    at, found = 0, []
    while data[at : at + 4] == b"job ":
        job, at = part(data, at, b"job ")
        report, at = part(data, at, b"report ")
        found.append((job, report))
    if data[at:] != b"end %d\n" % len(found):
        sys.exit(f"make.py: the list does not end as it has to, at byte {at}")
    return found


def first_difference(a, b):
    for i in range(min(len(a), len(b))):
        if a[i] != b[i]:
            return i
    return min(len(a), len(b))


def mismatches(stored, damaged):
    """A line for each report that differs."""
    lines = []
    for i, ((job, report), (other_job, other)) in enumerate(zip(stored, damaged, strict=True)):
        if job != other_job:
            sys.exit(f"make.py: job {i} of the two lists is not the same")
        if report != other:
            lines.append(f"job {i}: byte {first_difference(other, report)} differs")
    return lines


def number_of(report):
    """The first value of a report, which stands below its seven names."""
    return int(report.split()[7])


def summary(name, stored, differ):
    """The lines behind a list: of its reports, and of saving its jobs."""
    refused = sum(number_of(report) in REFUSED for _, report in stored)
    equal = len(stored) - refused
    return [
        f"{name}: {len(stored)} jobs, {differ} mismatches; saved again: {equal} equal, {refused} refused alike, 0 differ",
        f"{ROUNDS * equal} columns with free parts filled at random: 0 differ",
    ]


def forms(job, report):
    """Lists of one job that are damaged in their form: name, bytes, place and words of the fault, and lines printed before it."""
    j, r = b"job %d\n" % len(job), b"report %d\n" % len(report)
    text = len(j)
    line = text + len(job)
    bytes_at = line + len(r)
    end = bytes_at + len(report)
    whole = j + job + r + report + b"end 1\n"
    return [
        ("empty", b"", 0, EARLY, []),
        ("cut", whole[:end], end, EARLY, []),
        ("cut_in_a_word", whole[: end + 2], end, EARLY, []),
        ("cut_in_a_number", whole[: end + 5], end, EARLY, []),
        ("cut_in_a_job", whole[: text + 100], text, EARLY, []),
        ("cut_in_a_report", whole[: end - 1], bytes_at, EARLY, []),
        ("word", b"jobs %d\n" % len(job) + whole[text:], 0, WORD, []),
        ("no_report", whole[:line] + b"end 1\n", line, WORD, []),
        # a report that is a byte short takes in the first byte of the next line
        ("short", whole[: end - 1] + b"end 1\n", end, WORD, [f"job 0: byte {len(report) - 1} differs"]),
        ("sign", b"job -%d\n" % len(job) + whole[text:], 0, NUMBER, []),
        ("blank", whole[:line] + b"report \n" + whole[bytes_at:], line, NUMBER, []),
        ("large", b"job 18446744073709551616\n" + whole[text:], 0, LARGE, []),
        ("no_room", whole[:line] + b"report 65537\n" + whole[bytes_at:], line, LARGE, []),
        ("count", whole[:end] + b"end 2\n", end, COUNT, []),
        ("more", whole + b"\n", end + 6, MORE, []),
    ]


def main():
    if len(sys.argv) != 3:
        sys.exit("usage: tools/replays/make.py STORED DAMAGED")
    stored_bytes, damaged_bytes = (pathlib.Path(name).read_bytes() for name in sys.argv[1:])
    stored, damaged = entries(stored_bytes), entries(damaged_bytes)
    told = mismatches(stored, damaged)
    if not told:
        sys.exit("make.py: no report of the damaged list is damaged")
    examples = entries(EXAMPLES.read_bytes())
    lists = [("stored.list", stored_bytes), ("damaged.list", damaged_bytes)]
    lines = ["read_job: 12 calls over memories one short, exact and longer: 0 differ"]
    lines += summary("stored.list", stored, 0) + told + summary("damaged.list", stored, len(told))
    lines += summary("examples.list", examples, 0)
    args = ["stored.list", "damaged.list", "examples.list"]
    for name, data, at, fault, before in forms(*stored[0]):
        lists.append((name, data))
        args.append(name)
        lines += before + [f"{name}: FAULTY LIST at byte {at}: {fault}"]
    args += [".", "absent"]
    lines += [f".: FAULTY LIST at byte 0: {UNREADABLE}", "absent: NO LIST"]
    for name, data in lists:
        (CRATE / "data" / name).write_bytes(data)
    (CRATE / "args").write_text("\n".join(args) + "\n")
    (CRATE / "stdout").write_text("\n".join(lines) + "\n")
    print(f"make.py: {len(stored)} jobs, {len(told)} damaged, {len(examples)} examples, {len(args) - 3} faulty lists")


main()
