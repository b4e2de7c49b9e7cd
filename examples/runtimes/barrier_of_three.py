#!/usr/bin/env python3
"""A barrier of three threads of its own, which leaves a trace: barrier_of_three.py [--early-pass] > TRACE"""
import itertools
import json
import sys
import threading

TASKS, TURNS = (1, 2, 3), 3
MISSED = 1 if "--early-pass" in sys.argv else 0  # how many signals a pass doesn't wait for: the fault to be found
barrier, tickets, events = threading.Condition(), itertools.count(1), []
signalled = dict.fromkeys(TASKS, 0)  # how often each thread at the barrier has signalled


def log(*event):  # the caller has the lock, or is the only thread: so the tickets rise as the events are made
    events.append([next(tickets), *event])


def work(task):
    for phase in range(TURNS):
        with barrier:
            log("t", task, "begin", ["next"])
            signalled[task] += 1
            log("p", 0, "sig", task)
            barrier.notify_all()
            barrier.wait_for(lambda: sum(count <= phase for count in signalled.values()) <= MISSED)
            log("p", 0, "pass", task)
    with barrier:
        log("t", task, "begin", ["end"])
        del signalled[task]
        log("p", 0, "drop", task)
        log("f", 0, "ended", task)
        barrier.notify_all()


log("p", 0, "make", 0, "SIG_WAIT", [], None)
for child in TASKS:
    log("t", 0, "begin", ["async", child, [[0, "SIG_WAIT"]]])
    log("p", 0, "reg", 0, child, "SIG_WAIT")
    log("f", 0, "spawned", child)
log("t", 0, "begin", ["end"])
log("p", 0, "drop", 0)
threads = [threading.Thread(target=work, args=(child,)) for child in TASKS]
for thread in threads:
    thread.start()
for thread in threads:
    thread.join()
log("f", 0, "shut")
print(json.dumps({"events": events, "version": 2}))
