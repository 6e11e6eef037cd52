"""Runs a program written for SimGrid: python3 -m simgrid_replay.s4u [--trace FILE] [--workers N] PROGRAM.py ARGUMENTS..

Only in this process, `import simgrid` finds this package.
"""

import argparse
import os
import runpy
import sys

from simgrid_replay import s4u
from simgrid_replay.s4u.engine import Settings

STATUSES = """exit status: that of the program; 1 if an actor raised an exception, 3 if a feature isn't supported or
simgrid_replay ended unexpectedly, 6 if the run ended in a deadlock"""


def words() -> argparse.Namespace:
    parser = argparse.ArgumentParser(prog="python3 -m simgrid_replay.s4u", epilog=STATUSES, formatter_class=argparse.RawDescriptionHelpFormatter,
                                     description="Runs a program that is written for SimGrid's Python, on simgrid_replay.")
    parser.add_argument("--trace", metavar="FILE", help="writes what the actors do, which gantt, usage, report and totable read")
    parser.add_argument("--workers", metavar="N", type=int, default=0,
                        help="how many activities may run at once, over all hosts (16384; at most 4,096 at a time)")
    parser.add_argument("program", metavar="PROGRAM.py")
    parser.add_argument("arguments", nargs=argparse.REMAINDER, metavar="ARGUMENTS")
    return parser.parse_args()


def main() -> int:
    given = words()
    Settings.trace, Settings.workers = given.trace or Settings.trace, given.workers or Settings.workers
    sys.modules["simgrid"] = s4u
    sys.modules["simgrid.this_actor"] = s4u.this_actor
    sys.argv = [given.program, *given.arguments]
    sys.path[0] = os.path.dirname(os.path.abspath(given.program))
    try:
        runpy.run_path(given.program, run_name="__main__")
    except s4u.Deadlock as fault:
        print(f"simgrid_replay.s4u: {fault}", file=sys.stderr)
        return 6
    except (s4u.NotHere, s4u.Stopped) as fault:
        print(f"simgrid_replay.s4u: {type(fault).__name__}: {fault}", file=sys.stderr)
        return 3
    return 0


if __name__ == "__main__":
    sys.exit(main())
