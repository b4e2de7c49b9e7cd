#!/usr/bin/env python3
"""Three threads that take three turns at a barrier: three_threads.py [--early-pass]

With --early-pass the third thread arrives once too often, and the trace doesn't see it: so the others pass before its
first turn. At their end they arrive once more too, so that its last turn ends.
"""
import sys
import threading

from traced_barrier import Barrier

THREADS, TURNS = 3, 3
barrier = Barrier(THREADS)
passed = threading.Semaphore(0)  # released by each turn that ends


def turns():
    for _ in range(TURNS):
        barrier.wait()
        passed.release()


def unseen_turn():
    """A turn that goes past the drop-in, to the barrier itself."""
    threading.Barrier.wait(barrier)


def work(is_early, is_third):
    if is_early and is_third:
        unseen_turn()
        for _ in range(THREADS - 1):
            passed.acquire()
    turns()
    if is_early and not is_third:
        unseen_turn()


for number in range(1, THREADS + 1):
    threading.Thread(target=work, args=("--early-pass" in sys.argv, number == THREADS)).start()
