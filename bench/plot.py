#!/usr/bin/env python3
"""Draws a plot, as SVG.

    plot.py times TIMES.csv OUT          what `run.sh` measured
    plot.py rebuilds REBUILDS.csv OUT    what the example `rebuilds` counted
"""
import sys

import plot_rebuilds
import plot_times
import records

DRAW = {"times": plot_times.draw, "rebuilds": plot_rebuilds.draw}


def main():
    kind, path, out_path = sys.argv[1:]
    with open(out_path, "w") as out:
        out.write(DRAW[kind](records.read(path)))


if __name__ == "__main__":
    main()
