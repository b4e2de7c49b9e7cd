"""The cases of tests/runtimes for C, OpenMP and C++."""
import os
import shutil
import signal
import subprocess

from runtimes_live import kinds, long_example, long_runs
from runtimes_runs import PROGRAMS, RUNTIMES, again, as_right, as_wrong, full, is_built, lacking, ran, stopped, turning

NOW = '        if (write(1, "now\\n", 4) == 4)\n            sleep(5);\n'  # what an example does after its early pass
WARN = ["-O1", "-g", "-Wall", "-Wextra", "-Werror"]
INCLUDE = ["-I", PROGRAMS, "-I", RUNTIMES]


def pthreads(folder, times, judge):
    program, faulty = folder / "pthreads", folder / "pthreads_faulty"
    build = ["cc", "-std=gnu11", "-pthread", *WARN, "-Wpedantic", *INCLUDE, PROGRAMS / "pthreads.c"]
    yield "pthreads, built", "" if is_built(*build, "-o", program) else "cc failed"
    yield "pthreads_faulty, built", "" if is_built(*build, PROGRAMS / "faulty_barrier.c", "-o", faulty) else "cc failed"
    call = lambda name, **how: ran(judge, folder, [program, name], **how)
    yield "joined", as_right(call("joined"), traces=2, totals="signals 200 passes 200")
    yield "never_destroyed", as_right(call("never_destroyed"), traces=1, totals="signals 15 passes 15")
    yield "main_leaves", as_right(call("main_leaves"), traces=1, totals="signals 900 passes 900")
    yield "come_and_go", as_right(call("come_and_go"), traces=1, totals="signals 60 passes 60")
    yield "two_pools", as_right(call("two_pools"), traces=1, totals="signals 6 passes 6")
    yield "own_handler", as_right(call("own_handler"), 7, traces=1, totals="signals 6 passes 6")
    yield "forks", as_right(call("forks"), traces=1, totals="signals 27 passes 27")
    yield "full", as_right(full(judge, folder, times, program), says="the log was full", traces=1)
    yield "many_parties", as_right(call("many_parties"), says="a trace has room for 255 parties", traces=0)
    run = call("joined", PHASER_TRACE="/dev/null/trace.json")
    yield "no folder", as_right(run._replace(traces=[]), says="the trace can't be written")
    yield from again(judge, folder, min(times, 10), program, ["destroyed_at_once"], as_right, traces=20)
    yield from again(judge, folder, times, program, ["too_many"], as_right)
    yield from again(judge, folder, times, program, ["still_turning", "still_waiting"], as_right, traces=1)
    yield from stopped(judge, folder, times, program)
    yield from again(judge, folder, max(1, times // 2), faulty, ["late", "late_and_ends"], lambda run: as_wrong(run))
    source, program_of_three = long_example(folder / "live", "three_threads.c", "sem_wait(&passed);\n", NOW), folder / "three"
    yield "live, built", "" if is_built("cc", "-std=gnu11", "-pthread", *WARN, source, "-o", program_of_three) else "cc failed"
    yield from long_runs(judge, folder, [program_of_three], 3)
    live = lambda *names, **how: kinds(judge, folder, [program], names, **how)
    yield from live("joined", "main_leaves", "come_and_go", "two_pools", "forks", "destroyed_at_once", says="")
    yield from live("still_turning", "still_waiting")
    yield from live("own_handler", status=7)
    yield from live("too_many", says="its log ends: more threads than parties")
    yield from live("hang", status=-signal.SIGTERM, stop_after=0.5, says="wait in phase 0: 1 2; missing: 3 (nobody yet)")
    yield from live("turning_for_ever", status=-signal.SIGTERM, stop_after=0.5)
    yield from kinds(judge, folder, [faulty], ["late", "late_and_ends"], is_wrong=True)


def openmp(folder, times, judge):
    program, faulty, copy = folder / "openmp", folder / "openmp_faulty", folder / "copy"
    build = ["cc", "-std=gnu11", "-fopenmp", *WARN]
    asked = ["cc", "-fopenmp", "-include", "omp.h", "-E", "-x", "c", os.devnull]
    if subprocess.run(asked, stdout=subprocess.DEVNULL, stderr=subprocess.DEVNULL).returncode:
        print("runtimes: NOT RUN: OpenMP, since there is no cc -fopenmp")
        return
    yield "openmp, built", "" if is_built(*build, *INCLUDE, PROGRAMS / "openmp.c", "-o", program) else "cc failed"
    copy.mkdir()
    text = (RUNTIMES / "traced_barrier.h").read_text()
    call = "    extern void faulty_wait_of_three(void);\n    faulty_wait_of_three();"
    (copy / "traced_barrier.h").write_text(text.replace("\n#pragma omp barrier\n", "\n%s\n" % call))
    sources = [PROGRAMS / "openmp.c", PROGRAMS / "faulty_barrier.c"]
    yield "openmp_faulty, built", "" if is_built(*build, "-I", copy, *sources, "-o", faulty) else "cc failed"
    run = lambda name: ran(judge, folder, [program, name])
    yield "regions", as_right(run("regions"), traces=2)
    yield "nested", as_right(run("nested"), traces=3, totals="signals 8 passes 8")
    yield from again(judge, folder, times, program, ["two_roots"], as_right)
    yield from again(judge, folder, times, program, ["exit_within"], as_right, traces=1)
    yield from turning(judge, folder, times, program)
    yield from again(judge, folder, max(1, times // 2), faulty, ["late"], lambda run: as_wrong(run))
    source, program_of_three = long_example(folder / "live", "three_threads_omp.c", "sched_yield();\n", NOW), folder / "three"
    yield "live, built", "" if is_built(*build, source, "-o", program_of_three) else "cc failed"
    # By itself its threads spin while they wait. On a busy machine a turn then takes milliseconds, without a drop-in too.
    yield from long_runs(judge, folder, ["env", "OMP_WAIT_POLICY=passive", program_of_three], 0)
    yield from kinds(judge, folder, [program], ["regions", "nested", "exit_within"])
    yield from kinds(judge, folder, [faulty], ["late"], is_wrong=True)


def cplusplus(folder, times, judge):
    program, faulty, copy = folder / "barriers", folder / "barriers_faulty", folder / "copy_cpp"
    pthread = 'int main() { pthread_barrier_t one; pthread_barrier_init(&one, nullptr, 1); return pthread_barrier_wait(&one) > 0; }'
    (folder / "small.cpp").write_text('#include "traced_barrier.h"\n%s\n' % pthread)
    build = ["c++", "-pthread", *WARN, "-Wpedantic"]
    words = [*build, "-std=c++17", *INCLUDE, folder / "small.cpp", "-o", folder / "small"]
    yield "traced_barrier.h as C++17, built", "" if is_built(*words) else "c++ failed"
    yield "traced_barrier.h as C++17", as_right(ran(judge, folder, [folder / "small"]), traces=1)
    if subprocess.run(["c++", "-std=c++20", "-include", "barrier", "-E", "-x", "c++", os.devnull],
                      stdout=subprocess.DEVNULL, stderr=subprocess.DEVNULL).returncode:
        print("runtimes: NOT RUN: C++20, since c++ has no <barrier>")
        return
    build += ["-std=c++20", PROGRAMS / "barriers.cpp"]
    yield "barriers, built", "" if is_built(*build, *INCLUDE, "-o", program) else "c++ failed"
    copy.mkdir()
    text = (RUNTIMES / "traced_barrier.hpp").read_text()
    (copy / "traced_barrier.hpp").write_text(text.replace("std::barrier<", "faulty_barrier<"))
    shutil.copy(str(RUNTIMES / "traced_barrier.h"), str(copy))
    words = [*build, "-DFAULTY", "-I", copy, "-I", PROGRAMS, "-o", faulty]
    yield "barriers_faulty, built", "" if is_built(*words) else "c++ failed"
    run = lambda name: ran(judge, folder, [program, name])
    yield "joined", as_right(run("joined"), traces=1, totals="signals 200 passes 200")
    yield "split", as_right(run("split"), traces=1, totals="signals 96 passes")
    yield "producer", as_right(run("producer"), traces=1, totals="signals 90 passes")
    yield "dropping", as_right(run("dropping"), traces=1, totals="signals 55 passes 50 drops 6")
    yield "many", as_right(run("many"), traces=10, totals="signals 2 passes 2")
    yield from again(judge, folder, times, program, ["still_turning"], as_right, traces=1)
    yield from turning(judge, folder, times, program)
    yield from again(judge, folder, max(1, times // 2), faulty, ["late"], lambda run: as_wrong(run))
    source, program_of_three = long_example(folder / "live", "three_threads.cpp", "passed.acquire();\n", NOW), folder / "three"
    words = ["c++", "-pthread", "-std=c++20", *WARN, source, "-o", program_of_three]
    yield "live, built", "" if is_built(*words) else "c++ failed"
    yield from long_runs(judge, folder, [program_of_three], 3)
    yield from kinds(judge, folder, [program], ["joined", "split", "producer", "dropping", "many", "still_turning"])
    yield from kinds(judge, folder, [faulty], ["late"], is_wrong=True)


def cases(folder, times, judge):
    for language, tool, part in (("C", "cc", pthreads), ("OpenMP", "cc", openmp), ("C++", "c++", cplusplus)):
        if not lacking(language, tool):
            for name, wrong in part(folder, times, judge):
                yield "%s, %s" % (language, name), wrong
