"""The plot of the fences by rebuild, in steps, since nothing moves between two rebuilds."""
from picture import ON_PAPER, Frame, line, words

RED, BLUE, GREEN = "#c0392b", "#2b5fa8", "#2b7a3d"
REACH = 13  # rebuilds to each side of the middle that a line's name stands over, at most


def steps(frame, across, rows, name):
    points = []
    for row in rows:
        at = frame.y(row[name])
        points += [(across(row["rebuild"]), at), (across(row["rebuild"] + 1), at)]
    return points


def name_above(frame, x, near, name, text, colour):
    return words(x, frame.y(max(row[name] for row in near)) - 8, text, colour=colour, more=ON_PAPER)


def name_below(frame, x, near, name, text, colour):
    return words(x, frame.y(min(row[name] for row in near)) + 17, text, colour=colour, more=ON_PAPER)


def new_orders(frame, across, rows):
    places = [across(row["rebuild"]) for row in rows if row["new order"]]
    return [line([(x, frame.bottom), (x, frame.bottom + 8)], BLUE) for x in places]


def draw(rows):
    frame = Frame(720, 350, (20, 50, 60, 60), 1, 1000)
    across = lambda number: frame.left + (frame.right - frame.left) * number / len(rows)
    middle = len(rows) // 2
    near = rows[middle - REACH:middle + REACH]
    numbers = [(across(number), number) for number in range(0, len(rows) + 1, 10)]
    shown = frame.up_axis("fences in all (log scale)", lambda power: 10 ** power)
    shown += frame.along_axis("rebuilds (a tick below the axis: a new order)", numbers, tick=0)
    shown += new_orders(frame, across, rows)
    # The library's two lines are one at first, so the upper has gaps.
    for name, colour, gaps in (("other", RED, ""), ("ours", BLUE, ""), ("anew", GREEN, ' stroke-dasharray="6 4"')):
        shown.append(line(steps(frame, across, rows, name), colour, 2, gaps))
    shown += [name_above(frame, across(middle), near, "other", "every order fenced at every rebuild", RED),
              name_above(frame, across(middle), near, "ours", "this library: run", BLUE),
              name_below(frame, across(middle), near, "anew", "this library: strip, then run", GREEN)]
    return frame.svg(shown)
