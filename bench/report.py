#!/usr/bin/env python3
"""Makes the table out of the rows of `times.csv`.

    report.py TIMES.csv LIMIT OUT

LIMIT is the seconds that `measure` gave a run of the library.
"""
import statistics
import sys

import records
from solvers import LIMITS, SOLVERS


def milliseconds(nanoseconds):
    value = nanoseconds / 1e6
    return f"{value:.3f}" if value < 1 else f"{value:.1f}" if value < 100 else f"{value:.0f}"


def ratio(value):
    return f"{value:.2f}" if value < 10 else f"{value:.0f}"


def column(rows, name):
    return [row[name] for row in rows if name in row]


def times(rows, who):
    return column(rows, who + " ns")


def over(rows, who, base):
    return [row[who + " ns"] / row[base + " ns"] for row in rows if who + " ns" in row and base + " ns" in row]


def cells_line(cells):
    return "| " + " | ".join(cells) + " |"


def head_of(columns):
    return ["| " + columns + " |", "|---|" + "---:|" * columns.count("|")]


def solver_ratios(rows, solver):
    ratios = over(rows, solver, "library")
    return [ratio(statistics.median(ratios)), ratio(min(ratios))] if ratios else ["", ""]


def line(name, rows):
    cells = [name, str(len(rows))]
    cells += [milliseconds(f(times(rows, who))) for who in ("library", "plain") for f in (statistics.median, max)]
    cells += [ratio(f(over(rows, "library", "plain"))) for f in (statistics.median, max)]
    for solver in SOLVERS:
        cells += solver_ratios(rows, solver)
    return cells_line(cells)


def groups(rows, key):
    found = {}
    for row in rows:
        found.setdefault(row[key], []).append(row)
    return found.items()


ASKED = {"line": "20 disjoint orders on a line, 3^20 equal cuts: milliseconds",
         "structured": "structured procedures: median below 1, nearly all below 10",
         "classic": "classic algorithms: none above 5",
         "commit": "a commit procedure: none above 5"}


def sixty_table(rows):
    """Procedures of 60 nodes, beside what is asked for."""
    text = head_of("asked for, in milliseconds | files | library median | 99 of 100 | worst | plain worst "
                   "| library/plain worst")
    for name, group in groups(rows, "family"):
        ours = sorted(times(group, "library"))
        text.append(cells_line([ASKED[name], str(len(group)), milliseconds(statistics.median(ours)),
                                milliseconds(ours[max(0, len(ours) * 99 // 100 - 1)]), milliseconds(ours[-1]),
                                milliseconds(max(times(group, "plain"))),
                                ratio(max(over(group, "library", "plain")))]))
    return text


def real_line(name, rows):
    worst = "stopped" if any(column(rows, "library stopped")) else milliseconds(max(times(rows, "library")))
    cells = [name, str(len(rows)), milliseconds(statistics.median(times(rows, "ask median"))),
             milliseconds(max(times(rows, "ask worst"))), milliseconds(statistics.median(times(rows, "library"))),
             worst, ratio(statistics.median(over(rows, "library", "plain")))]
    for solver in SOLVERS:
        took = times(rows, solver)
        cells += [milliseconds(statistics.median(took)) if took else ""] + solver_ratios(rows, solver)
    return cells_line(cells)


def named(row):
    return (f"{row['family']}, {row['nodes']} nodes, {row['orders']} orders ({row['open']} open), "
            f"weights {row['weights']}")


def time_of(row, who):
    """A time; that of a stopped call is only known to be above it."""
    return f"{who} {'over ' if row[who + ' stopped'] else ''}{milliseconds(row[who + ' ns'])} ms"


def ahead(rows):
    """The files that a solver was done with before the library."""
    text = []
    for row in rows:
        quicker = [s for s in SOLVERS if s + " ns" in row and row[s + " ns"] < row["library ns"]]
        if quicker:
            text.append(f"- {named(row)}: " + ", ".join(time_of(row, who) for who in ["library"] + quicker))
    return text


def stopped(rows):
    """How many calls of each kind were stopped."""
    kinds = [("run", "library"), *((name, name) for name in SOLVERS)]
    return ", ".join(f"{sum(column(rows, who + ' stopped'))} of {name}" for name, who in kinds)


def rounds(rows):
    """How often each solver was started for one file."""
    counts = {name: column(rows, name + " rounds") for name in SOLVERS}
    return "; ".join(f"{name} median {statistics.median_low(c)}, most {max(c)}" for name, c in counts.items())


def real_section(rows, limit):
    text = ["", "## Procedures of 400 to 512 nodes", "",
            "Each family with each of 1, 2, 4, 8, 16 and 32 orders and each kind of weights. Ask's times are for",
            "one order: the median of the files' medians, and the worst of all. Run was stopped after "
            f"{limit} s, a solver",
            f"after {LIMITS['real']} s, all rounds together; such a call counts with that time. The solvers only",
            "get files with an open order.", ""]
    text += head_of("family | files | ask median | worst | run median | worst | run/plain median | glpsol median "
                    "| glpsol/run median | least | cbc median | cbc/run median | least")
    text += [real_line(name, group) for name, group in groups(rows, "family")] + [real_line("all", rows)]
    text += ["", f"Rounds: {rounds(rows)}. Stopped: {stopped(rows)}. A solver was ahead in these:", ""]
    return text + (ahead(rows) or ["- none"])


def corpus_section(rows):
    columns = ("library median | worst | plain median | worst | library/plain median | worst "
               "| glpsol/library median | least | cbc/library median | least")
    text = head_of("family | files | " + columns)
    text += [line(name, group) for name, group in groups(rows, "family")] + [line("all", rows), ""]
    text += head_of("weights | files | " + columns)
    text += [line(name, group) for name, group in groups(rows, "weights")]
    return text + ["", f"Rounds: {rounds(rows)}. Stopped, a solver after {LIMITS['corpus']} s: {stopped(rows)}."]


def where(row):
    if "emulator" not in row:
        return [f"Library, plain version and solvers ran directly on {row['machine']}."]
    return [f"This machine is {row['machine']}: library and plain version, both x86-64 code, ran under an emulator",
            f"({row['emulator']}), the solvers directly. So the ratio of library to plain version counts; the",
            "library's own times are too long, and the solvers' ratios too small, by the emulator's factor."]


def table(sets, limit):
    row = sets["corpus"][0]
    starts = [f"{milliseconds(row[name + ' start ns'])} ms ({name})" for name in SOLVERS]
    text = ["# Times of run and ask", "",
            "Made by `bench/run.sh`, from one run. Times are in milliseconds for one call.", "",
            "[times.csv](times.csv) has a row for each file of the three sets below (corpus, sixty and real), with",
            "times in nanoseconds. A cell is empty where nothing was measured; a stopped call has the time until",
            "then.", "", *where(row), "",
            "The solvers find the weight of the same cut (no tie rule) by an integer program: a variable for each",
            "edge, and a row for each unordered route, which one of its edges at least must cut. There may be very",
            "many such routes, so the program starts with a few: for each order one after the other, none over an",
            "edge of those before, until there is no more. As long as a solution leaves unordered routes, rows for",
            "such, found in the same way, are added, and the solver starts again: that is a round. Its time is",
            "that of its processes, all rounds together; our search for rows isn't counted. Starting a process",
            f"costs {' and '.join(starts)}, in each round.", "",
            "The plain version was fitted to the library: it takes routes in the library's order and drops the",
            "same edges from a branch, so that both search the same tree and the ratio is that of the code, not of",
            "the search. Its tables are as long as the file wants; the library's have room for 512 nodes, which is",
            "most of a short time.", "", "## Procedures of 8 to 62 nodes", ""]
    text += corpus_section(sets["corpus"])
    text += ["", "## Procedures of 60 nodes", "", "32 orders, equal weights; each file drawn anew.", ""]
    text += sixty_table(sets["sixty"]) + ["", "[AGAINST.md](AGAINST.md) has run and ask beside the build before."]
    text += real_section(sets["real"], limit)
    text += ["", "![Time against number of nodes](times.svg)", ""]
    return "\n".join(text)


def main():
    path, limit, out_path = sys.argv[1:]
    text = table(dict(groups(records.read(path), "set")), limit)
    print(text)
    with open(out_path, "w") as out:
        out.write(text)


if __name__ == "__main__":
    main()
