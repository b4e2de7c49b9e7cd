"""A story as SVG."""
from __future__ import annotations

from html import escape

from .shapes import BOXES, COLOURS, RED, box, line, mark, path, text, torn

MOST_DRAWN = 20_000  # events; more than a picture can show
MARGIN, LABEL = 12, 64
STUB = 9  # how far a line goes on, dashed, past what is drawn
SHAPES = [
    ("make", "makes a phaser"), ("reg", "registers a child"), ("sig", "signals"), ("pass", "passes"),
    ("claim", "claims a single"), ("did", "has done it"), ("send", "sends a value"), ("look", "looks"),
    ("drop", "leaves"),
]
KINDS = [
    ("next", "a turn, or a part of one"), ("single", "a single"), ("async", "a spawn"), ("shut", "a shut"),
    ("end", "an end"),
]


class Picture:
    """What a story says of the places of a span, as lines of SVG."""

    def __init__(self, story, span):
        self.story, self.span, self.out = story, span, []
        self.tasks = [t for _, t in sorted(story.tasks.items()) if span.meets(t.born, t.ended)]
        phasers = sorted(story.all_phasers, key=lambda phaser: (phaser.number, phaser.made))
        self.phasers = [p for p in phasers if span.meets(p.made, None if p.live else p.left)]
        self.finishes = [f for f in story.finishes.values() if span.meets(f.opened, f.shut)]
        columns = max(span.last - span.first + 1, 1)
        self.column = min(26.0, max(4.5, 1500 / columns))
        self.row = 30 if len(self.tasks) <= 12 else 22 if len(self.tasks) <= 30 else 15
        self.radius = min(4.6, 0.44 * self.column + 0.6, self.row / 4.5)
        self.left = MARGIN + LABEL
        self.width = max(self.left + (columns + 1) * self.column + LABEL + MARGIN, 860)
        numbers = sorted({phaser.number for phaser in phasers})
        self.colours = {n: COLOURS[i % len(COLOURS)] for i, n in enumerate(numbers)}
        self.y = 0.0  # down to which it is drawn
        self.rows = {}  # the line of each task

    # ---- places

    def x(self, place):
        """The middle of an event's column; of 0, the beginning of the run."""
        return self.left + (place - self.span.first + 1) * self.column

    def x_from(self, begun):
        """Where what began at a place is drawn from."""
        return self.x(self.span.first - 0.5 if self.span.is_open_before(begun) else begun)

    def x_to(self, ended):
        """Up to where what ended at a place, or never did, is drawn."""
        return self.x(self.span.last + 0.5 if self.span.is_open_after(ended) else ended)

    def stamp(self, place):
        return self.story.stamp(place)

    def events(self):
        """The events that are drawn, told or not."""
        return [event for place, event in self.story.events.items() if self.span.has(place)]

    # ---- the whole

    def add(self, *parts):
        self.out += parts

    def svg(self):
        self.heading()
        self.legend()
        if self.story.fault:
            self.fault_label()
        top = self.y
        self.axes()
        self.place_tasks()
        closings = self.out  # lines at closings stand behind the tasks
        self.out = []
        self.all_tasks()
        self.all_finishes()
        self.all_phasers()
        front, self.out = self.out, closings
        self.closing_lines(top + 14)
        if self.story.fault:
            front += self.fault_band(top)
        width, height = round(self.width), round(self.y + MARGIN)
        size = f'width="{width}" height="{height}" viewBox="0 0 {width} {height}"'
        head = f'<svg xmlns="http://www.w3.org/2000/svg" {size} font-family="Helvetica, Arial, sans-serif">'
        return "\n".join([head, '<rect width="100%" height="100%" fill="white"/>', *self.out, *front, "</svg>", ""])

    def heading(self):
        words = self.story.heading(self.span, len(self.tasks), len(self.phasers), len(self.finishes))
        self.add(text(MARGIN, MARGIN + 12, words, 13, font_weight="bold"))

    def legend(self):
        x, y = MARGIN + 5.0, MARGIN + 32.0
        for shape, words in SHAPES:
            self.add(mark(x, y - 4, 4.2, shape, "#333333", words), text(x + 9, y, words, 11))
            x += 26 + 6.1 * len(words)
        x, y = MARGIN + 0.0, y + 20
        for name, words in KINDS:
            kind = f'<rect x="{x}" y="{y - 9}" width="12" height="11" fill="{BOXES[name]}" stroke="#bbbbbb"/>'
            self.add(kind, text(x + 16, y, words, 11))
            x += 34 + 5.8 * len(words)
        self.add(text(x, y, "n ✗", 11, fill=RED, font_weight="bold"))
        self.add(text(x + 24, y, "refusal number n", 11))
        self.y = y + 16

    def axes(self):
        """The tickets, and the places where these are other numbers."""
        events = self.events()
        self.axis("ticket", [(event.place, event.ticket) for event in events])
        if any(event.ticket != event.place for event in events):
            self.axis(self.story.PLACE, [(event.place, event.place) for event in events])

    def axis(self, name, numbers):
        """A line of numbers, as many as there is room for."""
        y, last = self.y + 10, -100.0
        self.add(text(MARGIN, y, name, 10, fill="#666666"))
        for place, number in numbers:
            x, words = self.x(place), str(number)
            if x - last > 6 * len(words) + 14:
                self.add(text(x, y, words, 9, fill="#666666", text_anchor="middle"))
                self.add(line(x, y + 3, x, y + 6, "#999999"))
                last = x
        self.y = y + 8

    # ---- tasks

    def place_tasks(self):
        for task in self.tasks:
            self.rows[task.number] = self.y + self.row / 2
            self.y += self.row

    def all_tasks(self):
        for task in self.tasks:
            y = self.rows[task.number]
            for x in (MARGIN, self.width - LABEL):
                self.add(text(x, y + 4, f"task {task.number}", min(11, self.row - 3)))
            self.acts(task, y)
            if task.spawner is not None and self.span.has(task.born):
                x, y1 = self.x(task.born), self.rows[task.spawner] + self.sunk()
                y2 = self.spawn_end(task, y, y1 > y)
                self.add(line(x, y1, x, y2, "#5a9e4b", 1, stroke_dasharray="2 2"))
            x1, x2 = self.x_from(task.born), self.x_to(task.ended)
            self.add(line(x1, y + self.sunk(), x2, y + self.sunk(), "#888888", 0.8))
            self.stubs(task.born, task.ended, y + self.sunk(), "#888888", 0.8)
            self.marks(task, y)

    def spawn_end(self, task, y, is_from_below):
        """Where the line of a task's spawn ends: at the task's line, or before the number of a refusal that stands there."""
        x1, x2, top, bottom = self.number_room(task, y)
        if not x1 <= self.x(task.born) <= x2:
            return y + self.sunk()
        return bottom + 2 if is_from_below else top - 2

    def number_size(self):
        return min(12, self.row - 2)

    def number_room(self, task, y):
        """The room of the number of a task's refusal: its sides, its top and its bottom; none where it isn't drawn."""
        if not task.refused or not self.span.has(task.refused[0]):
            return 0, 0, y, y
        place, number, _ = task.refused
        size, right, bottom = self.number_size(), self.x(place) + self.radius, y + self.sunk() + 4
        return right - 0.7 * size * len(f"{number} ✗"), right, bottom - 0.75 * size, bottom

    def stubs(self, begun, ended, y, colour, width):
        """Dashed ends of the line of what goes on past what is drawn."""
        if self.span.is_open_before(begun):
            x = self.x_from(begun)
            self.add(line(x - STUB, y, x, y, colour, width, stroke_dasharray="2 2"))
        if self.span.is_open_after(ended):
            x = self.x_to(ended)
            self.add(line(x, y, x + STUB, y, colour, width, stroke_dasharray="2 2"))

    def acts(self, task, y):
        top, height = y - self.row / 2 + 2, self.row - 4
        for act in (act for act in task.acts if act.name in BOXES and self.span.meets(act.first, act.last)):
            before, after = self.span.is_open_before(act.first), self.span.is_open_after(act.last)
            x1 = self.x_from(act.first) - (0 if before else 0.45 * self.column)
            x2 = self.x_to(act.last) + (0 if after else 0.45 * self.column)
            title = f"{self.stamp(act.first)}: task {task.number}: {act.words}"
            title += self.span.open_words(act.first, act.last)
            paint = {"rx": 2, "fill": BOXES[act.name], "stroke": "#bbbbbb", "stroke_width": 0.7}
            self.add(box(x1, x2, top, height, title, **paint))
            self.torn_sides(before and x1, after and x2, top, height)
            if self.row >= 20 and not (task.refused and act.first == task.refused[0]):
                self.first_that_fits(x1 + 2, top + 7.5, x2 - x1 - 3, (act.words, act.name))

    def first_that_fits(self, x, y, room, choices):
        """The first of some words for which there is room, in small letters."""
        for words in choices:
            if 4.6 * len(words) < room:
                self.add(text(x, y, words, 8, fill="#444444"))
                return

    def torn_sides(self, x1, x2, y, height):
        """The sides of a box at which it goes on past what is drawn; False for one at which it doesn't."""
        self.add(*(torn(x, y, height) for x in (x1, x2) if x is not False))

    def sunk(self):
        """How far below the middle of its line a task's marks stand, under the names of its acts."""
        return 4 if self.row >= 20 else 0

    def marks(self, task, y):
        for place, shape, phaser, words in task.marks:
            if self.span.has(place):
                colour = "#333333" if phaser is None else self.colours[phaser]
                title = f"{self.stamp(place)}: task {task.number} {words}"
                x, r = round(self.x(place), 1), round(self.radius, 1)
                self.add(mark(x, y + self.sunk(), r, shape, colour, title))
        if task.refused and self.span.has(task.refused[0]):
            place, number, words = task.refused
            _, x, _, bottom = self.number_room(task, y)
            title = f"<title>{escape(f'{self.stamp(place)}: task {task.number}: {words}')}</title>"
            self.add(
                f'<text x="{x:.1f}" y="{bottom:.1f}" font-size="{self.number_size()}" fill="{RED}" '
                f'font-weight="bold" text-anchor="end">{number} ✗{title}</text>'
            )

    # ---- finishes

    def all_finishes(self):
        self.y += 10
        free = []  # for each line, up to where it is taken
        for finish in sorted(self.finishes, key=lambda f: f.opened):
            x1, x2 = self.x_from(finish.opened), self.x_to(finish.shut)
            at = next((i for i, until in enumerate(free) if until < x1), len(free))
            words = f"finish {finish.number} of task {finish.owner}, tasks: {len(finish.spawned)}"
            free[at:at + 1] = [max(x2, x1 + 5.6 * len(words)) + self.column]
            self.bracket(finish, words, self.y + 25 * at)
        self.y += 25 * len(free) + 6

    def bracket(self, finish, words, y):
        colour, x1, x2 = "#7a4a00", self.x_from(finish.opened), self.x_to(finish.shut)
        points = f"M{x1 + 4:.1f} {y + 10:.1f}h-4v12h4"
        if self.span.is_open_before(finish.opened):
            points = ""
        points += f"M{x1:.1f} {y + 16:.1f}H{x2:.1f}"
        if not self.span.is_open_after(finish.shut):
            points += f"M{x2 - 4:.1f} {y + 10:.1f}h4v12h-4"
        self.add(path(points, colour, words + self.span.open_words(finish.opened, finish.shut)))
        self.stubs(finish.opened, finish.shut, y + 16, colour, 1.2)
        for place in filter(self.span.has, finish.spawned):
            self.add(line(self.x(place), y + 12, self.x(place), y + 16, colour))
        for place in filter(self.span.has, finish.ended):
            self.add(line(self.x(place), y + 16, self.x(place), y + 20, colour))
        self.add(text(x1 + 2, y + 8, words, 9, fill=colour))

    # ---- phasers

    def all_phasers(self):
        for phaser in self.phasers:
            self.band(phaser)

    def band(self, phaser):
        colour, height = self.colours[phaser.number], 24 if phaser.ops or phaser.bound else 15
        self.add(text(MARGIN, self.y + 11, f"phaser {phaser.number}", 11, fill=colour))
        if phaser.bound:
            self.add(text(MARGIN, self.y + 21, f"bound {phaser.bound}", 9, fill=colour))
        begun, short = phaser.made, False
        for phase, closed in enumerate(phaser.closings):
            if self.span.meets(begun, closed):
                short |= not self.phase(phaser, phase, begun, closed, height)
            begun = closed
        until = None if phaser.live else phaser.left
        if (until is None or until > begun) and self.span.meets(begun, until):
            title = f"phaser {phaser.number}, after its last closed phase"
            self.stretch(begun, until, height, colour, 0.05, title)
        self.y += height + 3
        if short and phaser.ops:
            self.list_values(phaser)
        self.y += 5

    def phase(self, phaser, phase, begun, closed, height):
        """The band of a phase; whether its values have room in it."""
        values = [f"{op} {'none' if v is None else v}" for op, v in zip(phaser.ops, phaser.values(phase))]
        closer = self.stamp(phaser.closer(phase))
        title = ", ".join([f"phaser {phaser.number}, phase {phase}, closed by {closer}", *values])
        self.stretch(begun, closed, height, self.colours[phaser.number], 0.16 if phase % 2 else 0.34, title)
        room, x = self.x_to(closed) - self.x_from(begun) - 4, self.x_from(begun) + 3
        for words in (f"phase {phase}", str(phase)):
            if 5.0 * len(words) < room:
                self.add(text(x, self.y + 10, words, 9))
                break
        words = ", ".join(values)
        if 4.9 * len(words) < room:
            self.add(text(x, self.y + 20.5, words, 9, font_weight="bold"))
            return True
        return not values

    def stretch(self, begun, ended, height, colour, strength, title):
        """A part of a phaser's band."""
        x1, x2 = self.x_from(begun), self.x_to(ended)
        paint = {"fill": colour, "fill_opacity": strength, "stroke": colour, "stroke_width": 0.7}
        title += self.span.open_words(begun, ended)
        self.add(box(x1, max(x2, x1 + 1), self.y, height, title, **paint))
        before, after = self.span.is_open_before(begun), self.span.is_open_after(ended)
        self.torn_sides(before and x1, after and x2, self.y, height)

    def list_values(self, phaser):
        """The values of a phaser's closed phases, in lines of their own, where a band has no room for them."""
        begun = [phaser.made, *phaser.closings]
        phases = [k for k, closed in enumerate(phaser.closings) if self.span.meets(begun[k], closed)]
        since = f"from phase {phases[0]} on" if phases[0] else "phase by phase"
        for a, op in enumerate(phaser.ops):
            words, shown = f"{op}, {since}:", []
            for value in (phaser.values(phase)[a] for phase in phases):
                shown.append("none" if value is None else str(value))
                if 4.9 * (len(words) + len(" ".join(shown))) > self.width - self.left - 60:
                    self.add(text(self.left, self.y + 9, f"{words} {' '.join(shown)}", 9))
                    self.y, words, shown = self.y + 12, "", []
            if shown:
                self.add(text(self.left, self.y + 9, f"{words} {' '.join(shown)}", 9))
                self.y += 12

    def closing_lines(self, top):
        """A line at each closing, through the tasks, where these aren't too many to be of help."""
        drawn = [(phaser, sorted(set(filter(self.span.has, phaser.closings)))) for phaser in self.phasers]
        if sum(len(places) for _, places in drawn) > 80:
            return
        for phaser, places in drawn:
            for place in places:
                x, colour = self.x(place), self.colours[phaser.number]
                self.add(line(x, top, x, self.y, colour, 0.7, stroke_dasharray="1 3"))

    # ---- a fault

    def fault_label(self):
        """What is at fault, above its column."""
        most = int((self.width - 2 * MARGIN) / 6.4)  # letters for which there is room
        first, *more = self.story.fault_details()
        for words in [f"✗ {self.story.fault_words()}: {first}", *more]:
            shown = words if len(words) <= most else words[:most - 3] + "..."
            x = min(self.x(self.story.fault) - 4, self.width - MARGIN - 6.4 * len(shown))
            self.add(text(x, self.y + 8, shown, 11, fill=RED, font_weight="bold"))
            self.y += 15

    def fault_band(self, top):
        """A red band over the column at fault and a frame in the line of its task, both blind to a pointer."""
        x, half = self.x(self.story.fault), max(self.column / 2, 4)
        paint = {"fill": RED, "pointer_events": "none", "stroke": RED}
        title = self.story.fault_words()
        band = [box(x - half, x + half, top - 2, self.y - top + 4, title, fill_opacity=0.12, stroke_width=0.8, **paint)]
        y = self.rows.get(self.story.actors.get(self.story.fault))
        if y is not None:
            frame = {**paint, "fill": "none", "stroke_width": 2.2}
            band.append(box(x - half, x + half, y - self.row / 2 + 1, self.row - 2, title, **frame))
        return band
