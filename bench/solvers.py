#!/usr/bin/env python3
"""Runs the solvers on the requests that `measure` wrote, each cut as an integer program.

    solvers.py RESULTS FOLDER OUT ROWS...

RESULTS is what `measure` printed, FOLDER where it wrote the requests. OUT gets the same rows with the solvers'
columns. ROWS is the command that starts `rows`; if it has several words, the first is an emulator.

The program has a variable for each edge, and a row for each unordered route: one of its edges at least is cut.
There may be very many such routes, so it starts with a few, and gets more as long as the solution misses some.
"""
import csv
import math
import os
import platform
import statistics
import subprocess
import sys
import time

SOLVERS = ("glpsol", "cbc")
LIMITS = {"corpus": 60, "real": 10}  # seconds that a solver gets for one request, all rounds together


def glpsol(program, edges, answer, limit):
    took = timed(["glpsol", "--tmlim", str(math.ceil(limit)), "--lp", program, "--write", answer])
    with open(answer) as lines:
        told = [line.split() for line in lines]
    optimal = any(words[0] == "s" and words[4] == "o" for words in told)
    return took, [edges[int(words[1]) - 1] for words in told if words[0] == "j" and is_one(words[2])], optimal


def cbc(program, _, answer, limit):
    took = timed(["cbc", program, "sec", str(math.ceil(limit)), "solve", "solu", answer])
    with open(answer) as lines:
        optimal = lines.readline().startswith("Optimal")
        return took, [int(words[1][1:]) for words in map(str.split, lines) if is_one(words[2])], optimal


def is_one(value):
    return float(value) > 0.5


def timed(command):
    start = time.perf_counter()
    subprocess.run(command, check=True, stdout=subprocess.DEVNULL, stderr=subprocess.DEVNULL)
    return (time.perf_counter() - start) * 1e9


def weights_and_rows(command, request, chosen):
    """The edges' weights, and rows for unordered routes that these chosen edges leave."""
    told = subprocess.run([*command, request, *map(str, chosen)], check=True, stdout=subprocess.PIPE, text=True)
    weights, *rows = (line.split() for line in told.stdout.splitlines())
    return [int(weight) for weight in weights], rows


def write_program(path, weights, rows):
    """Only edges on some route get a variable; the rising list of these."""
    edges = sorted({int(edge) for row in rows for edge in row})
    with open(path, "w") as out:
        out.write("Minimize\n cost:" + "".join(f" + {weights[edge]} x{edge}\n" for edge in edges))
        out.write("Subject To\n")
        for number, row in enumerate(rows):
            out.write(f" c{number}: " + "\n + ".join("x" + edge for edge in row) + " >= 1\n")
        out.write("Binary\n" + "".join(f" x{edge}\n" for edge in edges) + "End\n")
    return edges


def in_rounds(solver, command, request, folder, limit):
    """The solver's own time over all rounds, how many these were, and the weight, None if it was stopped."""
    program, answer = os.path.join(folder, "program.lp"), os.path.join(folder, "answer")
    spent, rounds, chosen = 0, 0, []
    weights, missing = weights_and_rows(command, request, chosen)
    rows = missing
    while missing:
        edges = write_program(program, weights, rows)
        took, chosen, optimal = solver(program, edges, answer, limit - spent / 1e9)
        spent, rounds = spent + took, rounds + 1
        if not optimal or spent > limit * 1e9:
            return spent, rounds, None
        missing = weights_and_rows(command, request, chosen)[1]
        rows = rows + missing
    return spent, rounds, sum(weights[edge] for edge in chosen)


def start(solver, folder):
    """What a solver takes for next to nothing: starting the process and reading a file of a few lines."""
    program, answer = os.path.join(folder, "trivial.lp"), os.path.join(folder, "answer")
    return solver(program, write_program(program, [1], [["0"]]), answer, 60)[0]


def solve(rows, folder, command):
    """Adds each solver's time and rounds to the rows, and whether it was stopped. Another weight than ours ends the
    run. `command` starts the program that finds the routes. Gives the solvers' starts, one timed beside each file, so
    that what else the machine does falls on both."""
    starts = {name: [] for name in SOLVERS}
    for row in rows:
        request = os.path.join(folder, f"{row['number']}.request")
        limit = LIMITS[row["set"]]
        for name, solver in zip(SOLVERS, (glpsol, cbc)):
            if row["open"] == "0":
                continue
            start(solver, folder)  # whatever ran before it, the next two calls find the solver in the caches
            starts[name].append(start(solver, folder))
            took, row[name + " rounds"], weight = in_rounds(solver, command, request, folder, limit)
            row[name + " ns"], row[name + " stopped"] = round(took), int(weight is None)
            if weight is None:
                continue
            row["weight"] = row["weight"] or weight  # of a cut that the library did not find in time
            if weight != int(row["weight"]):
                sys.exit(f"instance {row['number']}: {name} finds weight {weight}, not {row['weight']}")
    return {f"{name} start ns": round(statistics.median(times)) for name, times in starts.items()}


def main():
    results, folder, out_path = sys.argv[1:4]
    command = sys.argv[4:]
    with open(results, newline="") as lines:
        reader = csv.DictReader(lines)
        rows, columns = list(reader), reader.fieldnames
    starts = solve([row for row in rows if row["set"] in LIMITS], folder, command)
    columns += [f"{name} {what}" for name in SOLVERS for what in ("ns", "rounds", "stopped")]
    same = {"machine": platform.machine(), "emulator": command[0] if len(command) > 1 else "", **starts}
    with open(out_path, "w", newline="") as out:
        writer = csv.DictWriter(out, [*columns, *same], lineterminator="\n")
        writer.writeheader()
        writer.writerows({**row, **same} for row in rows)


if __name__ == "__main__":
    main()
