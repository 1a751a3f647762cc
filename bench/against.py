#!/usr/bin/env python3
"""Compares the times of two builds, and prints a table by family.

    against.py ROUNDS BEFORE... -- AFTER...

BEFORE and AFTER are the commands that start `against.cpp` with each build. They take turns file by file, so that
what else the machine does hits both alike; the least time of all rounds counts.
"""
import statistics
import subprocess
import sys

NO_ROOM = 9


class Build:
    def __init__(self, command):
        self.process = subprocess.Popen(command, stdin=subprocess.PIPE, stdout=subprocess.PIPE, text=True)
        self.files = int(self.process.stdout.readline())
        self.rows = [None] * self.files

    def measure(self, number):
        print(number, file=self.process.stdin, flush=True)
        family, answer, weight, checksum, run, ask = self.process.stdout.readline().rstrip().split(",")
        row = {"family": family, "answer": int(answer), "weight": int(weight), "checksum": checksum,
               "run": float(run), "ask": float(ask)}
        known = self.rows[number] or row
        self.rows[number] = dict(row, run=min(row["run"], known["run"]), ask=min(row["ask"], known["ask"]))

    def close(self):
        self.process.stdin.close()
        self.process.wait()


def differences(before, after):
    """For how many files the one after has another cut, no heavier, since it need not meet routes that order their
    ends; and how many only the one before refuses for want of room. Any other difference ends the run."""
    other = refused = 0
    for number, (old, new) in enumerate(zip(before, after)):
        if old["answer"] == NO_ROOM != new["answer"]:
            refused += 1
        elif old["answer"] != new["answer"] or new["weight"] > old["weight"]:
            sys.exit(f"file {number}: the builds differ")
        elif old["checksum"] != new["checksum"]:
            other += 1
    return other, refused


def median_cells(key, before, after):
    old, new = (statistics.median(row[key] for row in rows) for rows in (before, after))
    ratio = statistics.median(b[key] / a[key] for a, b in zip(before, after))
    return [f"{old / 1e3:.1f}", f"{new / 1e3:.1f}", f"{new / old:.2f}", f"{ratio:.2f}"]


def worst_cells(key, before, after):
    old, new = (max(row[key] for row in rows) for rows in (before, after))
    ratio = max(b[key] / a[key] for a, b in zip(before, after))
    return [f"{old / 1e3:.0f}", f"{new / 1e3:.0f}", f"{new / old:.2f}", f"{ratio:.2f}"]


def line(name, before, after):
    cells = [name, str(len(before)), *median_cells("run", before, after), *worst_cells("run", before, after)]
    return "| " + " | ".join(cells + median_cells("ask", before, after)) + " |"


def table(before, after):
    print("| family | files | run before | after | after/before | of a file | worst before | after | after/before "
          "| most of a file | ask before | after | after/before | of a file |")
    print("|---|" + "---:|" * 13)
    for name in [*dict.fromkeys(row["family"] for row in before), "all"]:
        wanted = [i for i, row in enumerate(before) if name in (row["family"], "all")]
        print(line(name, [before[i] for i in wanted], [after[i] for i in wanted]))


def main():
    split = sys.argv.index("--")
    before, after = Build(sys.argv[2:split]), Build(sys.argv[split + 1:])
    for _ in range(int(sys.argv[1])):
        for number in range(before.files):
            before.measure(number)
            after.measure(number)
    before.close()
    after.close()
    table(before.rows, after.rows)
    other, refused = differences(before.rows, after.rows)
    print(f"\nOn {before.files - other - refused} files both builds gave the same answer and bytes, and on {other} the "
          "one after another cut, no heavier.\n"
          f"The other {refused} only the one before refused, once it had their cut, for want of room for the fences: "
          "there are no\nbytes to compare.")


if __name__ == "__main__":
    main()
