"""Job texts and reports of the jobs of the list that a text can say (document 01, and document 02 for bar cells and shapes)."""
import os

from reference import BAR, CELLIS, EXPR, MEAN, RANK, SAME, SCALE2, SCALE3
from reference import BAR_PPMS, BAR_RULES, COLUMNS, MARKS, TOP, float_of, resolve, used_operands


def pooled(job, at, length):
    return "t" + bytes(job["pool"][at : at + length]).hex()


def value(job, i):
    kind = job["kinds"][i]
    if kind in (1, 2):
        return f"{'nd'[kind - 1]}{job['nums'][i]:016x}"
    if kind == 3:
        return pooled(job, job["ats"][i], job["lens"][i])
    return f"b{job['lens'][i]}" if kind == 4 else "e"


def operand(job, given):
    if given[0] == "literal":
        x = float_of(given[1])
        return f"n{given[1]:016x}" if x - x == 0 else "u"
    if given[0] == "unread":
        return "u"
    _, row, col, row_absolute, col_absolute, name = given
    return f"r{row},{col},{row_absolute + 2 * col_absolute},{'-' if name is None else pooled(job, *name)}"


def parameters(job, rule):
    colours = [f"{c:06x}" for c in rule["colours"]]
    kind = rule["kind"]
    if kind in (CELLIS, EXPR):
        used = [operand(job, o) for o in used_operands(rule)]
        return ["cellis" if kind == CELLIS else "expr", str(rule["op"]), *(used + ["-"])[:2], colours[0]]
    direction = lambda low, high: high if rule["flag"] else low
    return {
        SCALE2: ["scale2", *colours, "-", "-"][:5],
        SCALE3: ["scale3", *colours, "-"][:5],
        BAR: ["bar", colours[0], "-", "-", "-"],
        RANK: ["rank", str(rule["rank"]), direction("top", "bottom"), "percent" if rule["percent"] else "count", colours[0]],
        MEAN: ["mean", direction("above", "below"), "-", "-", colours[0]],
        SAME: ["same", direction("duplicate", "unique"), "-", "-", colours[0]],
    }[kind]


def job_text(job, limit):
    rules = job["rules"][: job["number"]]
    lines = ["limit start cells regions rules name"]
    lines.append(f"{limit} {job['start']} {len(job['rows'])} {len(job['region_rows'])} {len(rules)} {pooled(job, *job['name'])}")
    lines.append("row col wraps value")
    lines += [f"{job['rows'][i]} {job['cols'][i]} {job['wraps'][i]} {value(job, i)}" for i in range(len(job["rows"]))]
    lines.append("row col")
    lines += [f"{row} {col}" for row, col in zip(job["region_rows"], job["region_cols"])]
    lines.append("top left bottom right priority stop imported rule p1 p2 p3 p4")
    for rule in rules:
        priority = "-" if rule["priority"] is None else rule["priority"]
        lines.append(" ".join(map(str, [*rule["range"], priority, int(rule["stop"]), int(rule["imported"]), *parameters(job, rule)])))
    return "\n".join(lines) + "\n"


def bar_cells(ppm):
    return max(1, 40 * ppm // 1_000_000) if ppm else 0


def report_text(job, answer, columns):
    lines = ["number place count actual marks deferred simplified", " ".join(map(str, answer))]
    if answer[0]:
        return "\n".join(lines) + "\n"
    lines.append("region rule kind colour ppm cells shape")
    for region, rule, kind, colour, ppm, shape in zip(*columns[: len(MARKS)]):
        painted = "-" if kind == 2 else f"{colour:06x}"
        bar = f"{ppm} {bar_cells(ppm)}" if kind in (3, 4) else "- -"
        shaped = shape if job["rules"][rule]["kind"] in (SCALE2, SCALE3, BAR) else "-"
        lines.append(f"{region} {rule} {kind} {painted} {bar} {shaped}")
    lines.append("region barrule ppm")
    bars = zip(columns[BAR_RULES], columns[BAR_PPMS])
    lines += [f"{region} {rule - 1} {ppm}" for region, (rule, ppm) in enumerate(bars) if rule]
    return "\n".join(lines) + "\n"


def write_texts(folder, found):
    """Each job under each of its limits, unless it is turned back ahead of the rules: 1 to 6 do not come from a text, or show no rule."""
    os.makedirs(folder, exist_ok=True)
    written = 0
    for index, (_, job, runs) in enumerate(found):
        for limit in sorted({run[0] for run in runs} | {TOP}):
            answer, columns = resolve(job, limit, [1024] * len(COLUMNS))
            text = job_text(job, limit) if answer[0] in (0, 7, 8, 9) else ""
            if not 0 < len(text) <= 65_536:
                continue
            for kind, content in (("job", text), ("report", report_text(job, answer, columns))):
                with open(os.path.join(folder, f"{index + 1}-{limit}.{kind}"), "w", newline="\n") as file:
                    file.write(content)
            written += 1
    print(f"{written} texts written to {folder}")
