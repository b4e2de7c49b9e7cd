"""The cases of tests/runtimes for Rust."""
import shutil
import signal

from runtimes_live import kinds, long_example, long_runs
from runtimes_runs import PROGRAMS, RUNTIMES, again, as_right, as_wrong, full, is_built, lacking, ran, stopped


def built(folder, edition, program, change=lambda text: text):
    """Whether the programs are built, with the drop-in beside them, in a module below another."""
    copy = folder / (program.name + "_sources")
    (copy / "inner").mkdir(parents=True)
    for source in ("barriers.rs", "faulty.rs"):
        shutil.copy(str(PROGRAMS / source), str(copy))
    (copy / "traced_barrier.rs").write_text(change((RUNTIMES / "traced_barrier.rs").read_text()))
    words = ["rustc", "-C", "opt-level=1", "--edition", edition, "-o", program, copy / "barriers.rs"]
    return "" if is_built(*words) else "rustc failed"


def faulty_text(text):
    return text.replace("use std::sync::{self, ", "use crate::faulty as sync;\nuse std::sync::{")


def cases(folder, times, judge):
    if lacking("Rust", "rustc"):
        return
    program, faulty = folder / "barriers", folder / "barriers_faulty"
    yield "edition 2018, built", built(folder, "2018", program)
    yield "faulty, edition 2021, built", built(folder, "2021", faulty, faulty_text)
    call = lambda name: ran(judge, folder, [program, name])
    yield "joined", as_right(call("joined"), traces=2)
    yield "of_none", as_right(call("of_none"), traces=2)
    yield "in_a_static", as_right(call("in_a_static"), traces=1, totals="signals 3 passes 3")
    yield "come_and_go", as_right(call("come_and_go"), traces=1, totals="signals 60 passes 60")
    yield "full", as_right(full(judge, folder, times, program), says="the log was full", traces=1)
    yield "many_parties", as_right(call("many_parties"), says="a trace has room for 255 parties", traces=0)
    yield from again(judge, folder, times, program, ["exits"], as_right, status=7, traces=1)
    yield from again(judge, folder, times, program, ["still_turning", "still_waiting"], as_right, traces=1)
    yield from again(judge, folder, times, program, ["too_many"], as_right)
    yield from stopped(judge, folder, times, program)
    yield from again(judge, folder, max(1, times // 2), faulty, ["late", "late_and_exits"], lambda run: as_wrong(run))
    now = '        println!("now");\n        thread::sleep(std::time::Duration::from_secs(5));\n'
    source, three = long_example(folder / "live", "three_threads.rs", "thread::yield_now();\n        }\n", now), folder / "three"
    yield "live, built", "" if is_built("rustc", "-C", "opt-level=1", "--edition", "2021", "-o", three, source) else "rustc failed"
    yield from long_runs(judge, folder, [three], 3)
    live = lambda *names, **how: kinds(judge, folder, [program], names, **how)
    yield from live("joined", "of_none", "in_a_static", "come_and_go", says="")
    yield from live("exits", status=7)
    yield from live("still_turning", "still_waiting")
    yield from live("too_many", says="its log ends: more threads than parties")
    yield from live("hang", status=-signal.SIGTERM, stop_after=0.5, says="wait in phase 0: 1 2; missing: 3 (nobody yet)")
    yield from kinds(judge, folder, [faulty], ["late", "late_and_exits"], is_wrong=True)
