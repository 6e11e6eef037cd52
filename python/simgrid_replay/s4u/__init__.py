"""SimGrid's S4U for Python, on the program simgrid_replay: actors are Python functions, which decide while they run.

    from simgrid_replay.s4u import Actor, Engine, Host, Mailbox, this_actor

Names and calls are those of SimGrid 3.32's module `simgrid`. A program that was written for it runs unchanged with
`python3 -m simgrid_replay.s4u PROGRAM.py ARGUMENTS..`. It needs the library greenlet.
"""

from .actors import Actor, this_actor
from .engine import Engine
from .errors import (ActorKilled, AssertionError, CancelException, Deadlock, HostFailureException, NetworkFailureException, NotHere,
                     Stopped, StorageFailureException, TimeoutException, VmFailureException)
from .executions import Exec
from .messages import Comm, Mailbox, PyGetAsync
from .platform import Host, Link, LinkInRoute, SplitDuplexLink
from .sync import Barrier, Mutex, Semaphore
from .zones import ClusterCallbacks, Disk, DragonflyParams, FatTreeParams, Io, NetPoint, NetZone

simgrid_version = "3.32.0"

__all__ = ["Actor", "ActorKilled", "AssertionError", "Barrier", "CancelException", "ClusterCallbacks", "Comm", "Deadlock", "Disk",
           "DragonflyParams", "Engine", "Exec", "FatTreeParams", "Host", "HostFailureException", "Io", "Link", "LinkInRoute", "Mailbox",
           "Mutex", "NetPoint", "NetZone", "NetworkFailureException", "NotHere", "PyGetAsync", "Semaphore", "SplitDuplexLink", "Stopped",
           "StorageFailureException", "TimeoutException", "VmFailureException", "simgrid_version", "this_actor"]
