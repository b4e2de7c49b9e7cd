"""Small programs on a barrier, one for each kind of use: kinds.py KIND [--plain] [--fault NAME]

With --plain they use the barrier of Python itself. What is printed is the same with it and with the drop-in. With --fault
the drop-in stands on a barrier with a fault.
"""
import os
import pathlib
import random
import sys
import threading
import time

FAULT = sys.argv[sys.argv.index("--fault") + 1] if "--fault" in sys.argv else None


class FaultyBarrier(threading.Barrier):
    turns = 0

    def wait(self, timeout=None):
        FaultyBarrier.turns += 1
        if FAULT == "early" and FaultyBarrier.turns % 6 == 1:  # it doesn't wait, and arrives all the same
            threading.Thread(target=super().wait, daemon=True).start()
            return 0
        if FAULT == "twice" and FaultyBarrier.turns == 9:  # it counts for two
            threading.Thread(target=super().wait, daemon=True).start()
        if FAULT == "impatient":
            try:
                return super().wait(0.001)
            except threading.BrokenBarrierError:
                self.reset()
                return 0
        return super().wait(timeout)


if FAULT:
    threading.Barrier = FaultyBarrier
if "--plain" not in sys.argv:
    sys.path.insert(0, str(pathlib.Path(__file__).resolve().parents[2] / "examples/runtimes"))
    sys.dont_write_bytecode = True
    from traced_barrier import Barrier
else:
    Barrier = threading.Barrier


def turns(barrier, number):
    for _ in range(number):
        barrier.wait()


def start(number, target, *words, daemon=False):
    threads = [threading.Thread(target=target, args=words, daemon=daemon) for _ in range(number)]
    for thread in threads:
        thread.start()
    return threads


def join(threads):
    for thread in threads:
        thread.join()


def waits(barrier, timeout=None):
    """What came of a wait."""
    try:
        return barrier.wait(timeout) >= 0
    except threading.BrokenBarrierError:
        return "broken"


# ---- right programs whose whole run is told


def short_threads():
    barrier = Barrier(3)
    for _ in range(5):
        join(start(3, turns, barrier, 2))
    print(barrier.parties, barrier.n_waiting, barrier.broken)


def action():
    done = []
    barrier = Barrier(3, lambda: done.append(1))
    join(start(3, turns, barrier, 4))
    print(len(done))


def action_throws():
    barrier = Barrier(2, lambda: 1 // 0)

    def work():
        try:
            barrier.wait()
        except ZeroDivisionError:
            said.append("divided")
        except threading.BrokenBarrierError:
            said.append("broken")

    said = []
    join(start(2, work))
    print(sorted(said), barrier.broken)


def timeout():
    barrier = Barrier(2, timeout=0.01)
    print(waits(barrier), waits(barrier), barrier.broken)
    barrier.reset()
    others = start(1, turns, barrier, 3)
    print([waits(barrier, 10) for _ in range(3)])
    join(others)


def abort():
    barrier, said = Barrier(3), []
    others = start(2, lambda: said.append(waits(barrier)))
    while barrier.n_waiting < 2:
        time.sleep(0.001)
    barrier.abort()
    join(others)
    print(said, barrier.broken, waits(barrier))


def reset():
    barrier, said = Barrier(3), []
    for _ in range(3):
        others = start(2, lambda: said.append(waits(barrier)))
        while barrier.n_waiting < 2:
            time.sleep(0.001)
        barrier.reset()
        join(others)
        join(start(3, turns, barrier, 2))
    print(said, barrier.broken)


def reset_at_will():
    """Somebody resets again and again: waits are broken, also while others leave."""
    barrier = Barrier(3)
    others = start(3, lambda: [waits(barrier) for _ in range(50)], daemon=True)
    while any(thread.is_alive() for thread in others):
        time.sleep(random.random() / 500)
        barrier.reset()
    print(barrier.parties)


def no_parties():
    try:
        Barrier(2).wait(0)
    except threading.BrokenBarrierError:
        print("broken")


# ---- right programs that are cut


def daemons():
    start(3, turns, Barrier(3), 10 ** 9, daemon=True)
    time.sleep(random.random() / 20)


def leave():
    start(3, turns, Barrier(3), 10 ** 9)
    time.sleep(random.random() / 20)
    os._exit(0)


def half():
    start(2, turns, Barrier(3), 10 ** 9, daemon=True)
    time.sleep(random.random() / 20)


def long_run():
    barrier = Barrier(1)
    turns(barrier, 70000)


def hang():
    barrier = Barrier(3)
    first = start(2, turns, barrier, 3)
    first[0].name, first[1].name = "first", "second"
    third = start(1, lambda: (turns(barrier, 2), time.sleep(1000)))
    third[0].name = "third"
    join(first)


# ---- what can't be told


def two_pools():
    barrier = Barrier(3)

    done = []

    def work():
        turns(barrier, 3)
        done.append(True)
        time.sleep(1000)

    start(6, work, daemon=True)
    ended, waiting = 0, 3
    while waiting == 3 or ended + waiting < 6:  # until each is done, or waits where too few are left
        time.sleep(0.01)
        ended, waiting = len(done), barrier.n_waiting


def crowded():
    join(start(300, turns, Barrier(300), 2))


# ---- wrong barriers


def faulty():
    barrier = Barrier(4)

    def work():
        for _ in range(10):
            time.sleep(random.random() / 500)
            barrier.wait()

    end = time.monotonic() + 0.5
    for thread in start(4, work, daemon=True):
        thread.join(max(0.001, end - time.monotonic()))


globals()[sys.argv[1]]()
