"""What tests/python_package runs of the Python package: scripts, and of each what it prints.

What a barrier does is taken from the page of `threading.Barrier` in Python's documentation, and from CPython's own code if
the page is silent. What a phaser and a judge do is taken from docs/rules.md and the head of paldwosk_barrier.h.
"""
import pathlib

TOP = pathlib.Path(__file__).resolve().parent.parent
VERSION = (TOP / "packaging/VERSION").read_text().strip()
STARTED = """
import os, threading, time
import paldwosk
from paldwosk import Barrier, BrokenBarrierError, Judge, Mode, Operator, Phaser, Refusal, replay

def run_all(functions):
    threads = [threading.Thread(target=it, daemon=True) for it in functions]
    [it.start() for it in threads]
    [it.join() for it in threads]

def wait_until(holds):
    while not holds():
        time.sleep(0.001)

def refused(call, *words):
    try:
        return "not refused: %r" % call(*words)
    except Refusal as refusal:
        return "%d %s" % (refusal.answer, refusal)
    except ValueError as error:
        return "ValueError %s" % error
"""
# Of each script what it prints.
SCRIPTS = {"the version": ("print(paldwosk.__version__)", VERSION + "\n")}
SCRIPTS["four threads at a barrier"] = ("""
barrier = Barrier(4)
came, places, early = ([[] for _ in range(100)] for _ in range(3))

def meet():
    for phase in range(100):
        came[phase].append(1)
        places[phase].append(barrier.wait())
        if len(came[phase]) != 4:
            early[phase].append(1)

run_all([meet] * 4)
print(barrier.parties, sum(sorted(it) == [0, 1, 2, 3] for it in places), sum(map(len, early)))
""", "4 100 0\n")
# Eight threads share 400 arrivals, which by fours are 100 phases. None ends before all are begun, so four always come.
SCRIPTS["eight threads at a barrier for four"] = ("""
barrier, arrivals, places = Barrier(4), iter(range(400)), []
run_all([lambda: [places.append(barrier.wait()) for _ in arrivals]] * 8)
print([places.count(it) for it in range(4)], len(places))
""", "[100, 100, 100, 100] 400\n")
# In phase 1 to 3 the three send 1, 10 and -100 times the phase, so the sum is -89 times it; in the fourth nobody sends.
SCRIPTS["tasks that join"] = ("""
phaser, seen = Phaser(operators=[Operator.SUM, Operator.LEAST, Operator.GREATEST]), []

def meet(task, unit):
    with task:
        for phase in (1, 2, 3, 4):
            for index in range(3 if phase < 4 else 0):
                task.send(index, unit * phase)
            passed = task.next()
            seen.append((passed, [task.look(index) for index in range(3)]))

with phaser.make(Mode.SIG_WAIT) as maker:
    tasks = [maker.join(Mode.SIG_WAIT) for _ in range(3)]
run_all([lambda it=it: meet(*it) for it in zip(tasks, (1, 10, -100))])
print(*[(it, seen.count(it)) for it in sorted(seen[::3], key=lambda it: it[0])], sep="\\n")
""", """((0, [-89, -100, 10]), 3)
((1, [-178, -200, 20]), 3)
((2, [-267, -300, 30]), 3)
((3, [0, None, None]), 3)
""")
SCRIPTS["refused calls"] = ("""
phaser = Phaser(operators=[0])
task = phaser.make(Mode.SIG_WAIT)
only_signals, only_waits = task.join(Mode.SIG), task.join(Mode.WAIT)
print(refused(phaser.make, Mode.SIG)[:7], refused(only_signals.look, 0)[:8], refused(only_waits.signal)[:10])
print(refused(only_signals.join, Mode.SIG_WAIT)[:17], refused(task.wait)[:14], refused(task.look, 0)[:12])
print(refused(task.send, 1, 0)[:15], refused(phaser.trace)[:9], refused(Barrier, 257)[:11])
print(refused(task.send, 0, 2**31), refused(task.send, 2**32, 0), refused(Barrier, 0), refused(task.join, 4), sep="\\n")
print(refused(Phaser, 2**32 + 2), refused(Phaser, 65537)[:11], sep="\\n")
print(refused(Phaser, 2, [0] * 5)[:15], refused(Phaser, 2, [3]), sep="\\n")
task.send(0, -2**31)
only_signals.leave()
print(task.next(), task.look(0), only_waits.wait(), task.leave())
print(refused(task.next))
with Phaser().make(Mode.SIG_WAIT) as task:
    task.leave()  # so it has left at the end
""", """22 NotN 3 NoWait 2 NoSignal
11 MoreThanParent 6 NotSignalled 10 NoPhaseYe
9 NoAccumulator 35 NotKep 14 RegsFull
ValueError a value has to be -2147483648 to 2147483647, and is 2147483648
ValueError an index has to be 0 to 4294967295, and is 4294967296
ValueError parties has to be 1 to 256, and is 0
ValueError 4 is not a valid Mode
ValueError a bound has to be 0 to 4294967295, and is 4294967298
71 BadBound
70 BadOperators
ValueError 3 is not a valid Operator
0 -2147483648 0 None
1 NotRegistered (1): the task isn't registered, or it has left; join it first
""")
SCRIPTS["a missing task"] = ("""
phaser = Phaser()
one = phaser.make(Mode.SIG_WAIT)
other = one.join(Mode.SIG_WAIT)
waiting = threading.Thread(target=other.next, daemon=True)
print(phaser.missing())
waiting.start()
while not phaser.missing():
    time.sleep(0.001)
print(phaser.missing() == [one.number], one.number != other.number, refused(other.signal)[:10])
one.leave()
waiting.join()
print(phaser.missing())
""", "[]\nTrue True 22 NotNow \n[]\n")
# Of phasers that aren't freed a thousand would take 103 MB.
SCRIPTS["phasers that are no longer used"] = ("""
import resource
most = []
for _ in range(1000):
    Phaser().make(Mode.SIG_WAIT)
    most.append(resource.getrusage(resource.RUSAGE_SELF).ru_maxrss)

def last_task():
    with Phaser().make(Mode.SIG_WAIT) as maker:
        return maker.join(Mode.SIG_WAIT)

print(most[-1] - most[0] < 20000, last_task().next())
""", "True 0\n")
SCRIPTS["a fork"] = ("""
task = Phaser().make(Mode.SIG_WAIT)
child = os.fork()
if not child:
    os._exit(0 if refused(task.next)[:9] == "65 Closed" and Phaser().make(Mode.SIG_WAIT).next() == 0 else 1)
print(os.waitpid(child, 0)[1], task.next())
""", "0 0\n")
# Two tasks; one sends 5 and 7 and signals once, the other passes one phase.
SCRIPTS["a trace"] = ("""
phaser = Phaser(operators=[Operator.SUM], traced=True)
with phaser.make(Mode.SIG_WAIT) as one, one.join(Mode.SIG) as other:
    [other.send(0, it) for it in (5, 7)]
    other.signal()
    one.next()
print(paldwosk.check(phaser.trace()), replay(phaser.trace()), refused(replay, phaser.trace()[:-1])[:19], phaser.trace_has_ended(), sep="")
""", """[]phaser 0 phases 1
phaser 0 phase 0 acc 0 value 12
task 0 ended
task 1 ended
finish 0 tasks 1
totals registered 2 signals 2 passes 1 drops 2 sends 2 up 12 down 0
24 refused 24 BadTeFalse
""")
# A turn is two events: 29,000 are 58,000, and 31,000 are more than the 60,000 that a trace has.
SCRIPTS["a long trace"] = ("""
phaser = Phaser(traced=True)
task = phaser.make(Mode.SIG_WAIT)
for turns in (29000, 2000):
    [task.next() for _ in range(turns)]
    print(phaser.trace_has_ended(), replay(phaser.trace()).splitlines()[-1][:19])
""", "False totals registered 1\nTrue totals registered 1\n")

# ---- A barrier as threading has it

SCRIPTS["what a barrier tells"] = ("""
barrier = Barrier(3, timeout=50)
print(BrokenBarrierError is threading.BrokenBarrierError, barrier.parties, barrier.n_waiting, barrier.broken)
[threading.Thread(target=barrier.wait, daemon=True).start() for _ in range(2)]
wait_until(lambda: barrier.n_waiting == 2)
print(repr(barrier).partition(" at ")[0], repr(barrier).rpartition(": ")[2], barrier.wait() in range(3), barrier.n_waiting)
print(refused(Barrier, 0), refused(Barrier, -1), sep="\\n")
""", """True 3 0 False
<paldwosk.Barrier waiters=2/3> True 0
ValueError parties has to be 1 to 256, and is 0
ValueError parties has to be 1 to 256, and is -1
""")
# An action is called by one of the threads, once a meeting, before any goes on.
SCRIPTS["an action"] = ("""
acted, met, early, arrivals = [], [], [], iter(range(400))
barrier = Barrier(4, action=lambda: acted.append(threading.current_thread()))

def meet():
    for _ in arrivals:
        barrier.wait()
        met.append(1)
        if 4 * len(acted) < len(met):
            early.append(1)

threads = [threading.Thread(target=meet) for _ in range(8)]
[it.start() for it in threads]
[it.join() for it in threads]
print(len(acted), len(met), len(early), set(acted) <= set(threads))
""", "100 400 0 True\n")
# If the action raises, the barrier is broken and the exception goes on in the thread that called it.
SCRIPTS["an action that raises"] = ("""
seen = []

def fail():
    raise KeyError("by the action")

def meet():
    try:
        seen.append(barrier.wait())
    except (KeyError, BrokenBarrierError) as error:
        seen.append(type(error).__name__)

barrier = Barrier(3, fail)
run_all([meet] * 3)
print(sorted(seen), barrier.broken, barrier.n_waiting)
run_all([meet])
print(seen[3:], barrier.broken)
barrier.reset()
run_all([meet] * 3)
print(sorted(seen[4:]), barrier.broken)
""", """['BrokenBarrierError', 'BrokenBarrierError', 'KeyError'] True 0
['BrokenBarrierError'] True
['BrokenBarrierError', 'BrokenBarrierError', 'KeyError'] True
""")
# abort fails active and future waits. reset fails active ones alone. Neither waits for another thread.
SCRIPTS["abort and reset"] = ("""
def meet():
    try:
        seen.append(barrier.wait())
    except BrokenBarrierError:
        seen.append("broken")

def begin(count):
    threads = [threading.Thread(target=meet, daemon=True) for _ in range(count)]
    [it.start() for it in threads]
    wait_until(lambda: barrier.n_waiting == count)
    return threads

for action in (None, lambda: None):
    for breaks in ("abort", "reset"):
        barrier, seen = Barrier(3, action), []
        threads = begin(2)
        getattr(barrier, breaks)()
        [it.join() for it in threads]
        print(seen, barrier.broken, barrier.n_waiting)
        if barrier.broken:
            meet()
            print(seen[2:])
            barrier.reset()
        seen.clear()
        run_all([meet] * 3)
        print(sorted(seen), barrier.broken)
""", """['broken', 'broken'] True 0
['broken']
[0, 1, 2] False
['broken', 'broken'] False 0
[0, 1, 2] False
""" * 2)
# A thread that a reset frees may come again at once: then it meets those who come after the reset.
SCRIPTS["a reset, and the same threads again"] = ("""
def meet():
    for _ in range(200):
        try:
            seen.append(barrier.wait())
        except BrokenBarrierError:
            seen.append(barrier.wait())

barrier, seen = Barrier(3), []
threads = [threading.Thread(target=meet, daemon=True) for _ in range(2)]
[it.start() for it in threads]
for _ in range(200):
    wait_until(lambda: barrier.n_waiting == 2)
    barrier.reset()
    barrier.wait()
[it.join() for it in threads]
print(len(seen), barrier.broken)
""", "400 False\n")
# abort during the action: the others are freed at once, and the thread of the action once that is over.
SCRIPTS["abort during the action"] = ("""
begun, over, seen = threading.Event(), threading.Event(), []

def act():
    begun.set()
    over.wait()

def meet():
    try:
        seen.append(barrier.wait())
    except BrokenBarrierError:
        seen.append("broken")

barrier = Barrier(3, act)
threads = [threading.Thread(target=meet) for _ in range(3)]
[it.start() for it in threads]
begun.wait()
print(barrier.n_waiting)
barrier.abort()
wait_until(lambda: len(seen) == 2)
over.set()
[it.join() for it in threads]
print(seen, barrier.broken)
""", "3\n['broken', 'broken', 'broken'] True\n")
# If a time is over, the barrier breaks for all. The time is that of the call, or else the barrier's. 0 and less are over at once.
SCRIPTS["times at a barrier"] = ("""
def broken_after(barrier, *words):
    began = time.monotonic()
    try:
        return barrier.wait(*words)
    except BrokenBarrierError:
        return time.monotonic() - began if barrier.broken else "not broken"

for action in (None, lambda: None):
    barrier, seen = Barrier(3, action), []
    other = threading.Thread(target=lambda: seen.append(broken_after(barrier)), daemon=True)
    other.start()
    wait_until(lambda: barrier.n_waiting == 1)
    print(0.2 <= broken_after(barrier, 0.2) < 5)
    other.join()
    print(0 <= seen[0] < 5, 0.2 <= broken_after(Barrier(2, action, 0.2)) < 5, 0.3 <= broken_after(Barrier(2, action, 0.1), 0.3) < 5)
    print(0 <= broken_after(Barrier(2, action), 0) < 5, 0 <= broken_after(Barrier(2, action, 50), -1) < 5)
    print(Barrier(1, action).wait(0), refused(Barrier(2, action).wait, float("nan")))
""", """True
True True True
True True
0 ValueError a timeout has to be a number of seconds, and is nan
""" * 2)

# ---- Ctrl-C

INTERRUPTED = """
import signal

def interrupted(call, once):
    # Whether SIGINT, which is sent once something holds, ends a call of the main thread.
    def send():
        wait_until(once)
        time.sleep(0.1)
        os.kill(os.getpid(), signal.SIGINT)
    threading.Thread(target=send, daemon=True).start()
    try:
        return "not interrupted: %r" % (call(),)
    except KeyboardInterrupt:
        return True

signal.signal(signal.SIGINT, signal.default_int_handler)  # a shell's background jobs ignore it
"""
# Another process sends SIGINT while the main thread waits. The best of three counts, since the machine may be busy.
WAITS = {
    "Barrier.wait": "Barrier(2).wait()",
    "Barrier.wait with a time": "Barrier(2).wait(50)",
    "Barrier.wait with an action": "Barrier(2, print).wait()",
    "Barrier.wait, all places taken": "crowd()",
    "Task.next": "two()[0].next()",
    "Task.next with a time": "two()[0].next(50)",
    "Task.wait": "task = two()[0]; task.signal(); task.wait()",
    "Task.wait with a time": "task = two()[0]; task.signal(); task.wait(50)",
    "Task.signal": "task = producer(); task.signal(); task.wait(); task.signal()",
    "Task.single": "two()[0].single(print)",
}
SOONEST = 0.2  # seconds
WAITING = """
import signal, sys, threading, time
from paldwosk import Barrier, Mode, Phaser

def two():
    one = Phaser().make(Mode.SINGLE)
    return one, one.join(Mode.SINGLE)

def producer():
    global kept
    with Phaser(bound=1).make(Mode.SIG_WAIT) as maker:
        kept = maker.join(Mode.WAIT)
        return maker.join(Mode.SIG)

def crowd():
    acting = threading.Event()
    barrier = Barrier(1, lambda: acting.set() or time.sleep(50))
    threading.Thread(target=barrier.wait, daemon=True).start()
    acting.wait()
    barrier.wait()

signal.signal(signal.SIGINT, signal.default_int_handler)
signal.alarm(50)  # so that it ends if it can't be interrupted
for call in sys.argv[1:]:
    for _ in range(3):
        try:
            print("ready", flush=True)
            exec(call)
        except KeyboardInterrupt:
            print(time.monotonic(), flush=True)
"""
SCRIPTS["how soon Ctrl-C comes"] = ("""
import signal, subprocess, sys

def latency():
    child.stdout.readline()
    time.sleep(0.07 + len(soon) % 3 * 0.02)  # by now it waits
    sent = time.monotonic()
    os.kill(child.pid, signal.SIGINT)
    soon.append(float(child.stdout.readline()) - sent)
    return soon[-1]

soon = []
child = subprocess.Popen([sys.executable, "-B", "-c", WAITING, *WAITS.values()], stdout=subprocess.PIPE)
for name in WAITS:
    best = min(latency() for _ in range(3))
    print(name, "in time" if best < SOONEST else best)
child.communicate()
""".replace("WAITING", repr(WAITING)).replace("WAITS", repr(WAITS)).replace("SOONEST", repr(SOONEST)),
    "".join("%s in time\n" % it for it in WAITS))
# The thread that was interrupted just hasn't come: the barrier isn't broken, and goes on once as many have come as it is for.
SCRIPTS["a barrier after Ctrl-C"] = (INTERRUPTED + """
for action in (None, lambda: acted.append(1)):
    acted, places = [], []
    barrier = Barrier(3, action)
    print(interrupted(barrier.wait, lambda: barrier.n_waiting == 1), barrier.broken, barrier.n_waiting)
    threads = [threading.Thread(target=lambda: places.append(barrier.wait()), daemon=True) for _ in range(2)]
    [it.start() for it in threads]
    wait_until(lambda: barrier.n_waiting == 2)
    time.sleep(0.2)
    print(barrier.n_waiting, places, acted)
    places.append(barrier.wait())
    [it.join() for it in threads]
    print(sorted(places), barrier.broken, barrier.n_waiting, len(acted))
""", """True False 0
2 [] []
[0, 1, 2] False 0 0
True False 0
2 [] []
[0, 1, 2] False 0 1
""")
# An interrupt in the action is an exception of the action.
SCRIPTS["Ctrl-C in the action"] = (INTERRUPTED + """
begun, seen = threading.Event(), []

def act():
    begun.set()
    time.sleep(50)

def meet():
    wait_until(lambda: barrier.n_waiting == 1)  # the first to come acts
    try:
        seen.append(barrier.wait())
    except BrokenBarrierError:
        seen.append("broken")

barrier = Barrier(2, act)
thread = threading.Thread(target=meet, daemon=True)
thread.start()
print(interrupted(barrier.wait, begun.is_set), barrier.broken)
thread.join()
print(seen)
""", "True True\n['broken']\n")
# While another thread acts, Ctrl-C frees the main thread, and the others go on with the meeting.
SCRIPTS["Ctrl-C while another acts"] = (INTERRUPTED + """
begun, over, acted, places = threading.Event(), threading.Event(), [], []

def act():
    begun.set()
    over.wait()
    acted.append(1)

barrier = Barrier(3, act)
meet = lambda: places.append(barrier.wait())
threads = [threading.Thread(target=meet, daemon=True) for _ in range(2)]
[it.start() for it in threads]
wait_until(lambda: barrier.n_waiting == 2)
print(interrupted(barrier.wait, begun.is_set), barrier.broken, places)
late = threading.Thread(target=meet, daemon=True)  # for the next meeting
late.start()
time.sleep(0.1)
over.set()
[it.join() for it in threads]
print(len(places), acted, barrier.broken)
run_all([meet] * 2)
late.join()
print(sorted(places[2:]), acted)
""", "True False []\n2 [1] False\n[0, 1, 2] [1, 1]\n")
# The alarm comes anywhere in `wait`, and in what it calls. Without a place for each thread the next wait never ends.
SCRIPTS["interrupts at any moment"] = (INTERRUPTED + """
def interrupt(*words):
    raise KeyboardInterrupt

def wait_until_interrupted(barrier):
    while True:
        try:
            barrier.wait()
        except BrokenBarrierError:
            pass

def disturb(barrier):
    for trial in range(400):
        try:
            signal.setitimer(signal.ITIMER_REAL, 1e-6 * (1 + trial % 200))
            wait_until_interrupted(barrier)
        except KeyboardInterrupt:
            pass
        if barrier.broken:
            barrier.reset()

def accompany(barrier):
    while not is_over:
        try:
            barrier.wait()
        except BrokenBarrierError:
            pass

signal.signal(signal.SIGALRM, interrupt)
for action in (None, lambda: None):
    is_over, alone, pair = False, Barrier(1, action), Barrier(2, action)
    disturb(alone)
    thread = threading.Thread(target=accompany, args=(pair,), daemon=True)
    thread.start()
    disturb(pair)
    print(alone.wait(), {pair.wait() in (0, 1) for _ in range(50)}, alone.broken, pair.broken)
    is_over = True
    pair.abort()
    thread.join()
""", "0 {True} False False\n" * 2)

# ---- Calls with a time, singles and the judge

# The signal of a call whose time is over stands, and the same call goes on. Other calls are refused by 22 until then.
SCRIPTS["calls with a time"] = ("""
def timed_out(call, *words):
    began = time.monotonic()
    try:
        return "not timed out: %r" % (call(*words),)
    except TimeoutError as error:
        return str(error)[:13], words[-1] <= time.monotonic() - began < 5

def from_thread(call, *words):
    got = []
    run_all([lambda: got.append(call(*words))])
    return got[0]

for run in (lambda call, *words: call(*words), from_thread):
    phaser = Phaser(bound=1)
    one = phaser.make(Mode.SIG_WAIT)
    other = one.join(Mode.SIG_WAIT)
    print(run(timed_out, one.next, 0.1), run(timed_out, one.next, 0), refused(one.wait)[:9], phaser.missing() == [other.number])
    other.signal()
    print(run(one.next, 5), run(other.wait, 0))
    one.signal()
    print(run(timed_out, one.wait, 0.1), refused(one.next, 0)[:9], run(other.next, 1), run(one.wait, 1))
    print(refused(one.wait, 1)[:14])
    ahead, behind = one.join(Mode.SIG), one.join(Mode.WAIT)
    one.leave(), other.leave(), ahead.signal(), ahead.wait()
    print(run(timed_out, ahead.signal, 0.1), refused(ahead.wait)[:9], run(behind.wait, 1), run(ahead.signal, 1))
""", """('TimedOut (48)', True) ('TimedOut (48)', True) 22 NotNow True
0 0
('TimedOut (48)', True) 22 NotNow 1 1
6 NotSignalled
('TimedOut (48)', True) 22 NotNow 2 None
""" * 2)
# The call was answered just before the interrupt came. Made again it tells that, and doesn't begin the next phase.
SCRIPTS["a call that was answered as Ctrl-C came"] = (INTERRUPTED + """
def come():
    wait_until(phaser.missing)
    os.kill(os.getpid(), signal.SIGINT)
    other.next()

for _ in range(10):
    phaser = Phaser()
    one = phaser.make(Mode.SIG_WAIT)
    other = one.join(Mode.SIG_WAIT)
    thread = threading.Thread(target=come)
    thread.start()
    try:
        one.next()
    except KeyboardInterrupt:
        thread.join()
        phase = one.next(5)
    one.signal(), other.signal()
    print(phase, one.wait(5), other.wait(5))
""", "0 1 1\n" * 10)
# In each phase one task runs the statement, and nobody goes on before it returns.
SCRIPTS["singles"] = ("""
ran, early = [], []

def meet(task):
    with task:
        for phase in range(50):
            task.single(lambda: (time.sleep(0.001), ran.append(phase)), number=phase)
            if phase not in ran:
                early.append(phase)

phaser = Phaser(traced=True)
with phaser.make(Mode.SINGLE) as maker:
    tasks = [maker.join(Mode.SINGLE) for _ in range(3)]
run_all([lambda it=it: meet(it) for it in tasks])
print(ran == list(range(50)), early, paldwosk.check(phaser.trace()))
task = Phaser(operators=[Operator.SUM]).make(Mode.SINGLE)
print(task.single(lambda: task.send(0, 7)), task.next(), task.look(0))
print(refused(task.single, lambda: print(refused(task.wait)[:9])))
print(refused(task.join(Mode.SIG_WAIT).single, print)[:10], refused(task.single, print, 2**32))
""", """True [] []
0 1 7
22 NotNow
not refused: 2
4 NoSingle ValueError a number has to be 0 to 4294967295, and is 4294967296
""")
# A statement that raises counts as done. An interrupted or timed out task comes back, and the statement runs once.
SCRIPTS["singles that raise or come back"] = (INTERRUPTED + """
def fail():
    raise KeyError("in the single")

def meet(task, run, number):
    try:
        seen.append(task.single(run, number))
    except KeyError as error:
        seen.append(str(error))

seen, ran = [], []
phaser = Phaser()
one = phaser.make(Mode.SINGLE)
other = one.join(Mode.SINGLE)
run_all([lambda it=it: meet(it, fail, 3) for it in (one, other)])
print(sorted(map(str, seen)), phaser.missing())
run = lambda: ran.append(1)
print(interrupted(lambda: one.single(run, 4), lambda: phaser.missing() == [other.number]))
print(refused(one.leave)[:9], refused(one.single, run, 5)[:9], refused(other.single, run, 5)[:16])
thread = threading.Thread(target=meet, args=(other, run, 4), daemon=True)
thread.start()
print(one.single(run, 4), thread.join(), seen[2:], ran)
try:
    one.single(run, 4, timeout=0.01)
except TimeoutError:
    print("timed out")
run_all([lambda it=it: meet(it, run, 4) for it in (one, other)])
print(seen[3:], ran)

def interrupt():
    os.kill(os.getpid(), signal.SIGINT)
    time.sleep(50)

other.leave()
print(interrupted(lambda: one.single(interrupt), lambda: False), one.next(), phaser.missing())
""", """["'in the single'", '0'] []
True
22 NotNow 22 NotNow 7 SingleMismatch
1 None [1] [1]
timed out
[2, 2] [1, 1]
True 4 []
""")
SCRIPTS["the judge"] = ("""
from paldwosk.judge import Claim, Did, Event, EventRefusal, Join, Leave, Look, Make, Pass, Send, Signal
made = Make(phaser=2**64 - 1, task=7, mode=Mode.SIG_WAIT, operators=[Operator.SUM, Operator.LEAST], bound=2)
first = [made] + [kind(made.phaser, *words) for kind, *words in (
    (Join, 7, 2**63, Mode.SIG_WAIT), (Send, 7, 0, -2**31), (Signal, 7), (Signal, 2**63), (Pass, 7), (Look, 7, 0, -2**31), (Look, 7, 1, None),
    (Pass, 2**63), (Leave, 7), (Leave, 2**63))]
single = [Make(0, 0, Mode.SINGLE, bound=1), Signal(0, 0, single=2**32 - 1), Claim(0, 0), Did(0, 0), Pass(0, 0)]
judge = Judge()
[judge.event(it) for it in first + single]
print(judge.totals())

def fault(*events):
    judge = Judge()
    [judge.event(it) for it in events[:-1]]
    told = refused(judge.event, events[-1])
    print(told.split(":")[0], told.endswith(": %r" % (events[-1],)), refused(judge.event, single[0])[:7], judge.totals().is_over)

def owing(*events):
    judge = Judge()
    [judge.event(it) for it in events[:-1]]
    try:
        judge.event(events[-1])
    except EventRefusal as refusal:
        told = str(refusal).rpartition("; ")[2].rpartition(": ")[0]
        print(refusal.answer, refusal.phase, refusal.count, refusal.tasks, told)

owing(*first[:2], Join(made.phaser, 7, 0, Mode.SIG_WAIT), first[3], first[5])
owing(*first[:6], first[8], first[3], Join(made.phaser, 2**63, 0, Mode.WAIT), first[5])
owing(made, *(Join(made.phaser, 7, it, Mode.SIG) for it in range(101, 119)), first[3], first[5])
owing(first[5])
fault(*first[:4], first[5])
fault(*first[:4], first[3])
fault(*first[:6], Look(made.phaser, 7, 0, 5))
fault(*first[:6], Look(made.phaser, 7, 2, 5))
fault(first[1])
fault(made, made)
fault(made, first[1], first[1])
fault(*single[:2], single[4])
fault(single[0], Signal(0, 0), single[2])
judge = Judge()
print(refused(judge.event, Make(0, 0, Mode.SIG, [0] * 5))[:15], judge.totals().is_over)
for event in (Send(0, 0, 0, 2**31), Send(0, 0, -1, 0), Send(2**64, 0, 0, 0), Make(0, 0, 4), Make(0, 0, 0, [3]), Make(0, 0, 0, (), 0)):
    print(refused(judge.event, event))
for no_event in (Event(0, 0), ("make", 0, 0)):
    try:
        judge.event(no_event)
    except TypeError as error:
        print(error)
run_all([lambda it=it: [judge.event(event) for turn in range(300) for event in (Make(it, 0, 2, (), 2), Leave(it, 0))] for it in range(4)])
print(judge.totals().events, judge.totals().there)
""", """Totals(events=16, made=2, there=1, registrations=3, signals=3, passes=3, drops=2, sends=1, is_over=False)
83 0 2 (9223372036854775808, 0) phase 0 isn't signalled by task 9223372036854775808, 0
83 1 1 (9223372036854775808,) phase 1 isn't signalled by task 9223372036854775808
83 0 18 (101, 102, 103, 104, 105, 106, 107, 108, 109, 110, 111, 112, 113, 114, 115, 116) phase 0 isn't signalled by task 101, 102, 103, 104, 105, 106, 107, 108, 109, 110, 111, 112, 113, 114, 115, 116, and by 2 more
80 0 0 () see that its make is handed over first
83 HadToWait (83) True 87 Over True
5 AlreadySignalled (5) True 87 Over True
86 SawOther (86) True 87 Over True
9 NoAccumulator (9) True 87 Over True
80 NotMade (80) True 87 Over True
81 MadeAlready (81) True 87 Over True
82 RegisteredAlready (82) True 87 Over True
84 ClaimsInstead (84) True 87 Over True
85 PassesInstead (85) True 87 Over True
70 BadOperators False
ValueError the field value has to be -2147483648 to 2147483647, and is 2147483648
ValueError the field index has to be 0 to 4294967295, and is -1
ValueError the field phaser has to be 0 to 18446744073709551615, and is 18446744073709551616
ValueError the field mode has to be 0 to 3, and is 4
ValueError 3 is not a valid Operator
ValueError the field bound has to be 1 to 65536, and is 0
an event has to be a Make to a Leave of paldwosk.judge, and is Event(phaser=0, task=0)
an event has to be a Make to a Leave of paldwosk.judge, and is ('make', 0, 0)
2400 0
""")
# Phasers with a call whose time is over are freed too. Of those that aren't a thousand would take 170 MB.
SCRIPTS["phasers of calls whose time was over"] = ("""
import resource
most = []
for _ in range(1000):
    one = Phaser().make(Mode.SIG_WAIT)
    one.join(Mode.SIG_WAIT)
    try:
        one.next(timeout=0)
    except TimeoutError:
        most.append(resource.getrusage(resource.RUSAGE_SELF).ru_maxrss)
print(len(most), most[-1] - most[0] < 20000)
""", "1000 True\n")
# The interrupt came while the thread waited, and it is the one that is to run: that is an exception of the statement.
SCRIPTS["a single that begins as Ctrl-C comes"] = (INTERRUPTED + """
def come():
    wait_until(phaser.missing)
    os.kill(os.getpid(), signal.SIGINT)
    passed.append(other.next())

for _ in range(10):
    phaser, passed, ran = Phaser(), [], []
    one = phaser.make(Mode.SINGLE)
    other = one.join(Mode.SIG_WAIT)
    thread = threading.Thread(target=come)
    thread.start()
    try:
        one.single(lambda: ran.append(1))
        print("not interrupted", ran)
    except KeyboardInterrupt:
        if phaser.missing() == [one.number]:  # the slice was over before the other came
            one.single(lambda: ran.append(1))
    thread.join()
    print(passed, len(ran) < 2)
""", "[0] True\n" * 10)
# With a `with` the KeyboardInterrupt is told, and not that the task can't leave because of its single.
SCRIPTS["a with that ends by Ctrl-C"] = (INTERRUPTED + """
def propose():
    with one:
        one.single(print)

phaser = Phaser()
one = phaser.make(Mode.SINGLE)
other = one.join(Mode.SINGLE)
print(interrupted(propose, phaser.missing), refused(one.leave)[:9])
""", "True 22 NotNow\n")
