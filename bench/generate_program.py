#!/usr/bin/env python3
"""Prints a program for the benchmark: generate_program.py KIND NUMBER..

turns TASKS TURNS PHASERS   on each phaser, so many tasks that do next so often
cells CELLS STEPS           a stencil of so many cells
ring TASKS TURNS            each task has a phaser, and does next so often there and, as one who waits, at its left neighbour's
spawns TASKS ACTS           so many tasks, each with a body of so many acts, of which it makes one
children TASKS              so many tasks, each of which ends at once
waits PHASERS TASKS SENDS   on each phaser so many tasks that wait for the root, which sends so often on one of its own
nothing                     no act at all
"""
import json
import sys

LIMITS = {"acts": 65536, "history": 65536}  # the others are the defaults, but for many spawns
MOST_REPEATS = 1000  # of one repeat


def times(count, acts):
    """The acts so often, as repeats that each fit."""
    whole, rest = divmod(count, MOST_REPEATS)
    return [["repeat", MOST_REPEATS, acts]] * whole + ([["repeat", rest, acts]] if rest else [])


def turns(tasks, count, phasers):
    main = []
    for phaser in range(phasers):
        name = "p%d" % phaser
        main.append(["new", name, "SIG_WAIT", []])
        main += [["async", [[name, "SIG_WAIT"]], times(count, [["next"]])] for _ in range(tasks)]
    return main


def cells(count, steps):
    main = [["new", "c%d" % cell, "SIG_WAIT", ["sum"]] for cell in range(count)]
    for cell in range(count):
        beside = [other for other in (cell - 1, cell + 1) if 0 <= other < count]
        looks = [["look", "c%d" % other, 0] for other in beside]
        pairs = [["c%d" % cell, "SIG_WAIT"]] + [["c%d" % other, "WAIT"] for other in beside]
        main.append(["async", pairs, times(steps, [["send", "c%d" % cell, 0, cell], ["next"]] + looks)])
    return main


def ring(tasks, count):
    main = [["new", "p%d" % task, "SIG_WAIT", []] for task in range(tasks)]
    for task in range(tasks):
        pairs = [["p%d" % task, "SIG"], ["p%d" % ((task - 1) % tasks), "WAIT"]]
        main.append(["async", pairs, times(count, [["next"]])])
    return main


def spawns(tasks, acts):
    # A look at a phaser that the task doesn't know is refused, and ends it.
    return times(tasks, [["async", [], [["look", "unknown", 0]] + times(acts - 1, [["next"]])]])


def children(tasks):
    return times(tasks, [["async", [], []]])


def waits(phasers, tasks, sends):
    names = ["p%d" % phaser for phaser in range(phasers)]
    main = [["new", name, "SIG_WAIT", []] for name in names] + [["new", "own", "SIG_WAIT", ["sum"]]]
    main += times(tasks, [["async", [[name, "SIG_WAIT"]], [["next"]]] for name in names])
    return main + times(sends, [["send", "own", 0, 1]])


def main(kind, *numbers):
    kinds = (turns, cells, ring, spawns, children, waits)
    made = {"nothing": lambda: [], **{make.__name__: make for make in kinds}}[kind]
    program = {"main": made(*map(int, numbers))}
    if kind != "nothing":
        program["limits"] = {**LIMITS, "tasks": 4096} if kind in ("spawns", "children", "waits") else LIMITS
    print(json.dumps(program, separators=(",", ":")))


main(*sys.argv[1:])
