#!/usr/bin/env python3
"""Writes an events file to standard output: TASKS tasks in SIG_WAIT signal and then pass, round after round.

usage: generate_events.py TASKS CALLS [values]

The file has as many whole rounds as fit in CALLS calls, the calls that make and register the tasks
among them. With `values` there is an accumulator `sum`: each task sends before it signals, and looks
after it has passed.
"""
import json
import sys

LIMITS = {"history": 65536, "tasks": 4096}


def round_of(tasks, values):
    """The calls of one round: all tasks signal, then all pass."""
    calls = []
    for task in range(tasks):
        if values:
            calls.append(["send", task, 0, task + 1])
        calls.append(["sig", task])
    for task in range(tasks):
        calls.append(["pass", task])
        if values:
            calls.append(["look", task, 0])
    return calls


def events(tasks, calls, values):
    """The whole file, as a value that JSON can hold."""
    made = [["make", 0, "SIG_WAIT"]]
    made += [["reg", 0, task, "SIG_WAIT"] for task in range(1, tasks)]
    turn = round_of(tasks, values)
    made += turn * ((calls - len(made)) // len(turn))
    document = {"limits": LIMITS, "calls": made}
    if values:
        document["accs"] = ["sum"]
    return document


def main(words):
    if len(words) not in (2, 3) or words[2:] not in ([], ["values"]):
        sys.exit("usage: generate_events.py TASKS CALLS [values]")
    document = events(int(words[0]), int(words[1]), len(words) == 3)
    json.dump(document, sys.stdout, separators=(",", ":"))


if __name__ == "__main__":
    main(sys.argv[1:])
