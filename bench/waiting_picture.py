"""Draws the table of bench/README.md in which threads do nothing but meet, as an SVG. It measures nothing."""
import pathlib
import re
from xml.sax.saxutils import escape

PAGE = pathlib.Path(__file__).resolve().parent / "README.md"
TITLE = "Machine as it is"  # the head of the table
# The rows that are drawn, by their names in the table, with the names that stand in the picture, and whether they are ours.
DRAWN = (
    ("C: `pthread_barrier_wait`", "pthreads", False),
    ("C++20: `std::barrier`", "C++20 std::barrier", False),
    ("Java: `arriveAndAwaitAdvance`", "Java Phaser", False),
    ("Rust: `std::sync::Barrier`", "Rust std::sync::Barrier", False),
    ("C: `paldwosk_barrier_next`", "Paldwosk, C", True),
    ("Rust: `paldwosk::Barrier`", "Paldwosk, Rust", True),
)
WIDTH, MARGIN, LABELS, FIGURES = 880, 16, 170, 92  # of all, of its edge, of the names, of the figures behind a bar
TOP, LINE, BAR = 78, 22, 14
COLOURS = {True: ("#0b6e4f", "#8fc7b0"), False: ("#6b7280", "#c3c8d0")}  # the best, and from it to the median
STYLE = 'font-family="sans-serif" font-size="%d" fill="#1f2937"'


def table():
    """The columns of the table, and of each row the best and the median, as they stand there."""
    lines = PAGE.read_text().split("| %s |" % TITLE)[1].split("\n\n")[0].splitlines()
    columns = [cell.strip() for cell in lines[0].split("|") if cell.strip()]
    rows = [[cell.strip() for cell in line.strip("| ").split("|")] for line in lines[2:]]
    return columns, {name: [re.findall(r"[\d.]+", cell)[:2] for cell in cells] for name, *cells in rows}


def text(x, y, words, size=12, more=""):
    return '<text x="%d" y="%d" %s%s>%s</text>' % (x, y, STYLE % size, more, escape(words))


def bar(x, y, length, colour):
    return '<rect x="%.1f" y="%d" width="%.1f" height="%d" fill="%s"/>' % (x, y, length, BAR, colour)


def panel(left, width, column, cells):
    """The bars of one number of threads, to a scale of their own."""
    greatest = max(float(median) for _, median in cells)
    scale = (width - FIGURES) / greatest
    yield text(left, TOP - 14, column, 13, ' font-weight="bold"')
    for at, ((_, _, ours), (best, median)) in enumerate(zip(DRAWN, cells)):
        y, dark, light = TOP + at * LINE, float(best) * scale, float(median) * scale
        yield bar(left, y, light, COLOURS[ours][1])
        yield bar(left, y, dark, COLOURS[ours][0])
        yield text(left + light + 5, y + BAR - 3, "%s, %s" % (best, median), 11)


def drawn():
    """The picture."""
    columns, rows = table()
    height = TOP + len(DRAWN) * LINE + 34
    width = (WIDTH - 2 * MARGIN - LABELS) / len(columns)
    parts = ['<svg xmlns="http://www.w3.org/2000/svg" width="%d" height="%d" viewBox="0 0 %d %d">' % (WIDTH, height, WIDTH, height),
             '<rect width="100%" height="100%" fill="white"/>',
             text(MARGIN, 26, "Microseconds a phase takes threads that do nothing but meet", 16, ' font-weight="bold"'),
             text(MARGIN, 45, "Four processors. The best and the median of 7 rounds: less is better.")]
    for at, (_, name, ours) in enumerate(DRAWN):
        parts.append(text(MARGIN, TOP + at * LINE + BAR - 3, name, 12, ' font-weight="bold"' if ours else ""))
    for at, column in enumerate(columns):
        parts += panel(MARGIN + LABELS + at * width, width, column, [rows[name][at] for name, _, _ in DRAWN])
    parts.append(text(MARGIN, height - 12, "Each number of threads has its own scale. From the table \"%s\" of bench/README.md." % TITLE, 11))
    return "\n".join([*parts, "</svg>", ""])
