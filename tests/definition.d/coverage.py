"""What the cases reach of the definition, and which changes of it they notice."""

import collections
import json
import signal
import time

import asked
from definition.program import short_name

# Seconds of processor for the cases of one bend, for those of a listed one, and for a case that notes what it reaches.
BEND_SECONDS, LISTED_SECONDS, BEND_CASE_SECONDS = 60, 5, 3


def names(program):
    """A name for each place of a program: the definition, what it is, and its number among those of the definition."""
    seen, found = collections.Counter(), []
    for place in program.places:
        kind = (place.path, place.kind)
        seen[kind] += 1
        found.append(f"{short_name(place.path)[1:]} {place.kind} {seen[kind]}")
    return found


def check(program, found, listed, count):
    """Each place is reached by a case, or listed with its reason, and not both."""
    reached = {at for told in found.values() for at in told.get("found", {}).get("reached", ())}
    everything = names(program)
    for at, name in enumerate(everything):
        line = program.places[at].line
        if at in reached:
            count.take(name, ["it is reached, and unreached.txt has it"] if name in listed else [])
        else:
            count.take(name, [] if name in listed else [f"no case reaches it (line {line} of its module)"])
    for name in listed.keys() - set(everything):
        count.take(name, ["unreached.txt has it, and there is no such place"])
    functions = {place.path for place in program.places}
    print(f"{len(everything)} clauses and branches of {len(functions)} definitions, {len(reached)} reached")


def first_that_notices(program, at, near, most):
    """Returns the first case that differs where this place is bent, or how many don't."""
    program.bent[0], begun = at, time.process_time()
    for tried, (usual, case) in enumerate(near):
        if time.process_time() - begun > most:
            return {"tried": tried, "of": len(near)}
        signal.setitimer(signal.ITIMER_VIRTUAL, 2 + 10 * usual)
        try:
            if list(case.differences(asked.answer(program, case))):
                return {"by": case.name}
        except asked.TooDear:
            return {"by": f"{case.name} (it takes longer)"}
        except Exception as fault:  # a definition that is bent may come to anything
            return {"by": f"{case.name} ({type(fault).__name__})"}
    return {"tried": len(near), "of": len(near)}


def reaching(found, by_name, places):
    """Returns for each place the cases that reach it, each with its seconds: first those with its number, or the next one, in
    their name or files, then the cheapest."""
    near = [[] for _ in places]
    for seconds, name in sorted((told["seconds"], name) for name, told in found.items() if name in by_name):
        for at in found[name].get("found", {}).get("reached", ()):
            near[at].append((seconds, by_name[name]))
    for place, cases in zip(places, near):
        number = int(place.kind.partition("number ")[2] or 0)
        if number > 9:
            cases.sort(key=lambda it: not it[1].mentions(str(number)) and not it[1].mentions(str(number + 1)))
    return near


def bend(program, found, by_name, listed, count, given, known):
    """Bends each place in turn, for so many seconds: a case notices it, or unnoticed.txt has it, and not both."""
    labels = names(program)
    near, until = reaching(found, by_name, program.places), time.monotonic() + given.bend
    known = {at: told for at, told in known.items() if told.get("by", "").split(" (")[0] in by_name or told.get("of") == len(near[at])}
    known.update({at: {"tried": 0, "of": 0} for at in range(len(labels)) if not near[at]})

    def works():
        for at in sorted(range(len(labels)), key=lambda at: labels[at] in listed):
            if at not in known and time.monotonic() < until:
                most = LISTED_SECONDS if labels[at] in listed else BEND_SECONDS
                yield at, lambda at=at, most=most: first_that_notices(program, at, near[at], most)

    for at, result in asked.side_by_side(works(), 10 * BEND_SECONDS, given.jobs):
        known[at] = result.get("found") or {"by": result.get("dear") or result["fault"]}
        if given.log:
            with open(given.log, "a", encoding="utf-8") as log:
                print(json.dumps({"place": at, **known[at]}), file=log)
        if given.slowest:
            print(f"{labels[at]}: {known[at].get('by')}", flush=True)
    for at, told in known.items():
        judge(labels[at], program.places[at].line, told, listed, count)
    for name in listed.keys() - set(labels):
        count.take(name, ["unnoticed.txt has it, and there is no such place"])
    noticed = sum("by" in told for told in known.values())
    print(f"{len(labels)} tests and numbers: {len(known)} bent, {noticed} of these noticed")


def judge(name, line, told, listed, count):
    """A place is noticed, or listed, and not both."""
    if "by" in told:
        count.take(name, [f"'{told['by']}' notices it, and unnoticed.txt has it"] if name in listed else [])
    elif name not in listed:
        count.take(name, [f"the first {told['tried']} of {told['of']} cases that reach it don't notice it (line {line} of its module)"])
    else:
        count.take(name, [])
