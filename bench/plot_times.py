"""The plot of the time of a run against the number of nodes: a dot for each file, a line through the medians.

The axis of nodes is broken where there are no sizes for long; each part has a scale of its own.
"""
import statistics

from picture import DARK, ON_PAPER, Frame, apart, line, words

SERIES = {"cbc": "#b2591f", "glpsol": "#8a7a00", "library": "#1f5fb2", "plain": "#3d8f4f"}
SETS = ("corpus", "real")  # those that the solvers got
SHIFT = 6  # from series to series, so that their dots stand side by side
GAP = 114  # between two parts of the axis: words have room there


def parts_of(sizes):
    """Splits the rising list where a size is over three times the one before."""
    parts = [[sizes[0]]]
    for size in sizes[1:]:
        if size > 3 * parts[-1][-1]:
            parts.append([])
        parts[-1].append(size)
    return parts


def places(frame, parts):
    """For each size its place on the axis. A part is the wider the more sizes it has."""
    margin = SHIFT * len(SERIES) / 2 + 4
    steps = sum(len(part) - 1 for part in parts)
    step = (frame.right - frame.left - 2 * margin - GAP * (len(parts) - 1)) / max(steps, 1)
    found, at = {}, frame.left + margin
    for part in parts:
        width = step * (len(part) - 1)
        found.update((size, at + width * (size - part[0]) / max(part[-1] - part[0], 1)) for size in part)
        at += width + GAP
    return found


def breaks(frame, middles):
    """Two slanted strokes with nothing between them, where the axis is broken."""
    shown = [line([(x - 3, frame.bottom), (x + 3, frame.bottom)], "white", 3) for x in middles]
    return shown + [line([(x + side - 2, frame.bottom + 6), (x + side + 2, frame.bottom - 6)], DARK)
                    for x in middles for side in (-3, 3)]


def starts(frame, row, middles):
    """What starting a solver's process takes, as a dotted line over the whole field."""
    shown = []
    for name in (name for name in SERIES if name + " start ns" in row):
        at = frame.y(row[name + " start ns"])
        shown.append(line([(frame.left, at), (frame.right, at)], SERIES[name], 1, ' stroke-dasharray="1 4"'))
        shown += [words(x, at - 6, "start of " + name, colour=SERIES[name], more=ON_PAPER) for x in middles]
    return shown


def dot(x, y, colour, stopped):
    look = f'r="2.6" fill="none" stroke="{colour}"' if stopped else f'r="1.6" fill="{colour}" fill-opacity="0.35"'
    return f'<circle cx="{x:.1f}" cy="{y:.1f}" {look}/>'


def series(frame, rows, name, parts, place):
    key, colour = name + " ns", SERIES[name]
    shift = SHIFT * (list(SERIES).index(name) - (len(SERIES) - 1) / 2)
    point = lambda size, time: (place[size] + shift, frame.y(time))
    shown = [dot(*point(row["nodes"], row[key]), colour, row.get(name + " stopped")) for row in rows]
    for part in parts:
        times = {size: [row[key] for row in rows if row["nodes"] == size] for size in part}
        shown.append(line([point(size, statistics.median(t)) for size, t in times.items() if t], colour, 2))
    return shown


def unit(power):
    for name, size in (("s", 9), ("ms", 6), ("µs", 3), ("ns", 0)):
        if power >= size:
            return f"{10 ** (power - size)} {name}"


def draw(all_rows):
    measured = {name: [row for row in all_rows if row["set"] in SETS and name + " ns" in row] for name in SERIES}
    times = [row[name + " ns"] for name, rows in measured.items() for row in rows]
    frame = Frame(760, 460, (34, 60, 50, 76), min(times) / 1.5, max(times) * 1.5)
    parts = parts_of(sorted({row["nodes"] for rows in measured.values() for row in rows}))
    place = places(frame, parts)
    middles = [(place[before[-1]] + place[after[0]]) / 2 for before, after in zip(parts, parts[1:])]
    title = "a dot for each file (a ring: stopped), a line through the medians"
    note = "; library and plain under an emulator" if "emulator" in all_rows[0] else ""
    shown = [words(frame.left, 18, title + note, "start")]
    shown += frame.up_axis("time of one run (solvers: all rounds)", unit)
    shown += frame.along_axis("nodes of the graph", [(x, size) for size, x in place.items()], tick=5)
    shown += breaks(frame, middles) + starts(frame, all_rows[0], middles)
    ends = []
    for name, rows in measured.items():
        shown += series(frame, rows, name, parts, place)
        last = [row[name + " ns"] for row in rows if row["nodes"] == parts[-1][-1]]
        ends += [(frame.y(statistics.median(last)), name, SERIES[name])] if last else []
    shown += [words(frame.right + 8, y + 4, name, "start", colour) for y, name, colour in apart(ends)]
    return frame.svg(shown)
