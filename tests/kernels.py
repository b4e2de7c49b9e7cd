"""The stencil and the pipeline as plain functions, and the lines that their commands have to print."""


def totals(registered, signals, passes, sends, up):
    return "totals registered %d signals %d passes %d drops %d sends %d up %d down 0" % (
        registered, signals, passes, registered, sends, up)


def next_row(row):
    """Each cell a quarter of itself twice and of both its neighbours, rounded down; outside the row is 0."""
    wide = [0, *row, 0]
    return [(wide[i - 1] + 2 * wide[i] + wide[i + 1]) // 4 for i in range(1, len(wide) - 1)]


def stencil_rows(first, steps):
    """The row before the first step, and after each."""
    rows = [first]
    for _ in range(steps):
        rows.append(next_row(rows[-1]))
    return rows


def stencil_lines(first, steps):
    """A task is on its own phaser and on those of its neighbours; the root is on each too. Each task sends each
    of its values, signals its own phaser in each step, and passes all of its phasers."""
    rows, cells = stencil_rows(first, steps), len(first)
    by_tasks = 3 * cells - 2
    sums = totals(cells + by_tasks, steps * cells, steps * by_tasks, (steps + 1) * cells, sum(map(sum, rows)))
    return ["cells " + " ".join(map(str, rows[-1])), sums]


def item_behind(item, stages):
    return item + stages * (stages + 1) // 2


def pipeline_lines(stages, items):
    """The source signals once an item; stage j goes on until the last item has come, items + j - 1 turns, and
    signals and passes in each; the sink passes once a turn of its own. The root is on each of the phasers."""
    turns = [items + stage - 1 for stage in range(1, stages + 1)]
    registered = (stages + 1) + 1 + 2 * stages + 1
    sent = sum(item_behind(item, stage) for item in range(1, items + 1) for stage in range(stages + 1))
    passes = items + 2 * sum(turns) + items + stages
    sums = totals(registered, items + sum(turns), passes, items * (stages + 1), sent)
    came = [item_behind(item, stages) for item in range(1, items + 1)]
    return [" ".join(["items", *map(str, came)]), sums]
