"""The client with a session in its own process, over the shared object that the environment's STRATBENCH_LIBRARY names: the examples of
its documentation, what refusals say, long texts, and how sessions end. `trials/embed` runs it, since it makes that object."""

import doctest
import functools
import os
import sys
import threading
import time

import stratbench
import try_client
from stratbench import Ended, Refused, Stopped, Stratbench
from stratbench.versions import Misfit

EMBEDDED = functools.partial(Stratbench, embedded=True)
# What an embedded session doesn't take.
OTHER = ("options=", "seconds=", "max_steps=")


def examples():
    finder, runner = doctest.DocTestFinder(), doctest.DocTestRunner(verbose=False)
    for test in finder.find(stratbench, "stratbench"):
        if not test.examples or any(word in it.source for it in test.examples for word in OTHER):
            continue
        test.globs.update(Stratbench=EMBEDDED)
        said = []
        found = runner.run(test, out=said.append)
        yield f"{test.name}: {found.attempted} examples", "".join(said) if found.failed else ""


def ends():
    bench = EMBEDDED()
    bench.tree("t", "a")
    yield "the status of a session", "" if bench.close() == bench.close() == 0 else f"{bench.close()}"
    try:
        bench.trees()
        yield "a session that has ended", "it went on"
    except Ended as ended:
        yield "a session that has ended", "" if ended.status == 0 else repr(ended)
    with EMBEDDED() as bench:
        try:
            bench.show("t")
            yield "a refusal", "there was none"
        except Refused as refused:
            yield "a refusal", "" if refused.explanation == "there is no tree `t`\n    there are no trees" else str(refused)
    yield "the status after a refusal", "" if bench.close() == 1 else f"{bench.close()}"
    for given in ({"steps": 2_000_000}, {"options": ["--lines"]}, {"seconds": 1}, {"max_steps": 999_999}, {"max_steps": 1 << 33}, {"max_terms": -1}):
        try:
            EMBEDDED(**given).trees()
            yield f"a start with {list(given)}", "it began"
        except ValueError:
            yield f"a start with {list(given)}", ""
    with EMBEDDED(steps=2_000_000, max_steps=2_000_000, max_terms=131_071) as bench:
        bench.module("m", "rules Twice : x -> (x,x)")
        bench.tree("t", "a")
        bench.apply("t", "; ".join(["Twice"] * 16))
        yield "greater limits", "" if bench.show("t", at=[1] * 16) == "a" else "another term"
    try:
        EMBEDDED(program="/none/libstratbench.so")
        yield "no shared object", "it began"
    except OSError:
        yield "no shared object", ""
    try:
        EMBEDDED(program="libc.so.6")
        yield "a shared object that says no version", "it began"
    except Misfit as why:
        yield "a shared object that says no version", "" if "libc.so.6: it says no version, and this client is for" in str(why) else str(why)


def side_by_side():
    benches = [EMBEDDED(library=True) for _ in range(4)]

    def work(at):
        bench = benches[at]
        for turn in range(200):
            bench.tree("t", f"[{at},{turn}]")
            bench.apply("t", "topdown(try({x: ?x; prim(\"addi\",x,1)}))")

    threads = [threading.Thread(target=work, args=(at,)) for at in range(4)]
    for it in threads:
        it.start()
    for it in threads:
        it.join()
    shown = [it.show("t") for it in benches]
    yield "four sessions in threads", "" if shown == [f"[{at + 1},200]" for at in range(4)] else f"{shown}"
    counts = [it.history() for it in benches]
    yield "their histories", "" if counts == [(401, 0)] * 4 else f"{counts}"


# What a session that another thread stops says of the work there.
def stopped(bench, work):
    raised = []

    def run():
        try:
            work()
        except Stopped as why:
            raised.append(str(why))

    runner = threading.Thread(target=run)
    runner.start()
    clock = time.pthread_getcpuclockid(runner.ident)
    # by then it is at what doesn't end by itself
    while runner.is_alive() and time.clock_gettime(clock) < 0.2:
        time.sleep(0.001)
    bench.stop()
    runner.join()
    return raised


def stops():
    most = 4_000_000_000
    endless = "rec x(![1]; x)"
    bench = EMBEDDED(max_steps=most)
    bench.tree("t", "g(2)")
    bench.stop()
    yield "a stop where nothing is run", "" if bench.show("t") == "g(2)" else "it stopped the next command"
    raised = stopped(bench, lambda: bench.apply("t", endless, within=most))
    yield "a run that another thread stops", "" if raised == ["another thread stopped it"] else f"{raised}"
    yield "the session after it", "" if (bench.show("t"), bench.history()) == ("g(2)", (1, 0)) else f"{bench.history()}"
    raised = stopped(bench, lambda: bench.preview("t", endless, within=most))
    yield "a preview that another thread stops", "" if len(raised) == 1 and bench.trees() == ["t"] else f"{raised}"

    def in_group():
        with bench.group():
            bench.tree("t", "h(3)")
            bench.apply("t", endless, within=most)

    raised = stopped(bench, in_group)
    yield "a group that another thread stops", "" if len(raised) == 1 and (bench.show("t"), bench.history()) == ("g(2)", (1, 0)) else bench.show("t")
    yield "the status after stops", "" if bench.close() == 0 else f"{bench.close()}"
    bench.stop()
    with EMBEDDED() as bench:
        ended = threading.Event()

        # stops all the time, so that some come as a command begins or ends
        def stop_all():
            while not ended.is_set():
                bench.stop()

        stopping = threading.Thread(target=stop_all)
        stopping.start()
        done = 0
        for turn in range(500):
            try:
                bench.tree("t", f"f({turn})")
                done += 1
            except Stopped:
                pass
        ended.set()
        stopping.join()
        yield "a command for each step, whenever stops come", "" if bench.history() == (done, 0) else f"{bench.history()}, and not {done}"
    yield "a process", unstoppable()


def unstoppable():
    with Stratbench() as bench:
        try:
            bench.stop()
            return "it was stopped"
        except ValueError:
            return ""


def forks():
    bench = EMBEDDED()
    bench.tree("t", "a")
    child = os.fork()
    if child == 0:
        # the end of a process that was forked off leaves the session to the other
        sys.exit(0)
    _, status = os.waitpid(child, 0)
    yield "a process that was forked off", "" if status == 0 and bench.show("t") == "a" else f"{status}"


def tests(top, everything):
    yield from examples()
    try_client.Stratbench = EMBEDDED
    yield from try_client.explained()
    yield from try_client.long_texts()
    yield from ends()
    yield from side_by_side()
    yield from stops()
    yield from forks()
