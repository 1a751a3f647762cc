"""What the plots share, as SVG: words, lines, and a frame with a log scale upwards."""
import math

FAINT, DARK = "#ddd", "#333"
ON_PAPER = ' stroke="white" stroke-width="4" paint-order="stroke"'  # keeps a line behind the words off them


def words(x, y, text, anchor="middle", colour=DARK, more=""):
    return f'<text x="{x:.1f}" y="{y:.1f}" text-anchor="{anchor}" fill="{colour}"{more}>{text}</text>'


def line(points, colour, width=1, more=""):
    path = " ".join(f"{x:.1f},{y:.1f}" for x, y in points)
    return f'<polyline points="{path}" fill="none" stroke="{colour}" stroke-width="{width}"{more}/>'


def apart(labels, step=15):
    """Labels are (y, text, colour): from top to bottom, each moved down where it would touch the one above."""
    moved, last = [], -math.inf
    for y, text, colour in sorted(labels):
        last = max(y, last + step)
        moved.append((last, text, colour))
    return moved


class Frame:
    """The field of a plot, with an axis line at its left and one at its foot."""

    def __init__(self, width, height, margins, least, most):
        self.width, self.height, self.least, self.most = width, height, least, most
        top, right, bottom, left = margins
        self.left, self.right, self.top, self.bottom = left, width - right, top, height - bottom

    def y(self, value):
        share = math.log(max(value, self.least) / self.least) / math.log(self.most / self.least)
        return self.bottom - share * (self.bottom - self.top)

    def up_axis(self, name, label):
        """A faint line at each power of ten, with its label."""
        parts = []
        for power in range(math.ceil(math.log10(self.least)), math.floor(math.log10(self.most)) + 1):
            at = self.y(10 ** power)
            parts.append(line([(self.left, at), (self.right, at)], FAINT))
            parts.append(words(self.left - 8, at + 4, label(power), "end"))
        middle = (self.top + self.bottom) / 2
        parts.append(words(14, middle, name, more=f' transform="rotate(-90 14 {middle:.1f})"'))
        return parts + [line([(self.left, self.top), (self.left, self.bottom)], DARK)]

    def along_axis(self, name, labels, tick):
        """Labels are pairs of place and text."""
        parts = [line([(self.left, self.bottom), (self.right, self.bottom)], DARK)]
        for at, text in labels:
            parts.append(line([(at, self.bottom), (at, self.bottom + tick)], DARK))
            parts.append(words(at, self.bottom + 22, text))
        return parts + [words((self.left + self.right) / 2, self.height - 8, name)]

    def svg(self, parts):
        head = (f'<svg xmlns="http://www.w3.org/2000/svg" width="{self.width}" height="{self.height}" '
                f'viewBox="0 0 {self.width} {self.height}" font-family="sans-serif" font-size="12">')
        paper = f'<rect width="{self.width}" height="{self.height}" fill="white"/>'
        return "\n".join([head, paper, *parts, "</svg>", ""])
