"""Asks the definition many cases, each in a process of its own, as many side by side as there are processors."""

import gc
import json
import os
import pathlib
import resource
import select
import signal
import sys
import tempfile
import time

TOP = pathlib.Path(__file__).resolve().parents[2]
sys.dont_write_bytecode = True
sys.path.insert(0, str(TOP / "tools"))

from definition import asking  # noqa: E402

MEMORY = 4 << 30


class TooDear(Exception):
    """More time or memory than a case may take."""


def stop(*_):
    raise TooDear("more time than a case may take")


def in_child(work, seconds, pipe):
    """Does work in a process that ends with it, within so many seconds of processor and so much memory."""
    os.dup2(os.open(os.devnull, os.O_RDONLY), 0)
    resource.setrlimit(resource.RLIMIT_AS, (MEMORY, MEMORY))
    signal.signal(signal.SIGVTALRM, stop)
    signal.setitimer(signal.ITIMER_VIRTUAL, seconds)
    gc.disable()
    begun = time.process_time()
    try:
        found = {"found": work()}
    except TooDear as fault:
        found = {"dear": str(fault)}
    except MemoryError:
        found = {"dear": "more memory than a case may take"}
    except BaseException as fault:  # whatever a definition comes to is told of its case
        found = {"fault": f"{type(fault).__name__}: {fault}"}
    signal.setitimer(signal.ITIMER_VIRTUAL, 0)
    found["seconds"] = round(time.process_time() - begun, 3)
    with os.fdopen(pipe, "wb") as to:
        to.write(json.dumps(found).encode())
    os._exit(0)


def side_by_side(works, seconds, jobs=None):
    """Does each work of (key, function), and yields (key, what it gave) as they end: `found`, or `dear`, or `fault`, and `seconds`."""
    gc.collect()
    gc.freeze()
    jobs, waiting, running = jobs or len(os.sched_getaffinity(0)), iter(works), {}
    more = True
    while more or running:
        while more and len(running) < jobs:
            started = next(waiting, None)
            if started is None:
                more = False
                break
            key, work = started
            ours, theirs = os.pipe()
            sys.stdout.flush()
            child = os.fork()
            if child == 0:
                os.close(ours)
                in_child(work, seconds, theirs)
            os.close(theirs)
            running[ours] = key, child, []
        for ready in select.select(list(running), [], [])[0] if running else ():
            key, child, data = running[ready]
            piece = os.read(ready, 1 << 20)
            if piece:
                data.append(piece)
                continue
            del running[ready]
            os.close(ready)
            os.waitpid(child, 0)
            yield key, json.loads(b"".join(data)) if data else {"fault": "it was ended", "seconds": seconds}


def answer(program, case):
    """What the definition answers to a case."""
    with tempfile.TemporaryDirectory(prefix="definition-") as folder:
        for name, data in case.files.items():
            pathlib.Path(folder, name).write_bytes(data)
        return asking.ask(program, case.words, folder, case.contexts)


def judged(program, case):
    """What differs in a case, and the places that it reached, where the program notes these."""
    faults = list(case.differences(answer(program, case)))
    return {"faults": faults, "reached": sorted(program.marks)}
