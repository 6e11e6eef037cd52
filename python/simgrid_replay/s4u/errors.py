"""The exceptions: SimGrid's own, by its names, and those that only this package has."""


class ActorKilled(BaseException):
    """Ends an actor that was killed. It isn't an Exception, so that `except Exception` doesn't keep a killed actor alive."""


class NetworkFailureException(Exception):
    """A message failed: its peer died, or a host or link of its route was turned off."""


class TimeoutException(Exception):
    """A wait reached its time limit."""


class HostFailureException(Exception):
    """The host of an execution was turned off."""


class StorageFailureException(Exception):
    """Exists for compatibility: disks aren't supported."""


class VmFailureException(Exception):
    """Exists for compatibility: virtual machines aren't supported."""


class CancelException(Exception):
    """The activity was cancelled."""


class AssertionError(AssertionError):  # SimGrid has this name
    """An object doesn't allow the call, for example the release of another actor's mutex."""


class NotHere(Exception):
    """The call needs a feature that simgrid_replay doesn't support."""


class Deadlock(Exception):
    """Deadlock: actors are blocked, no activity is running and no profile event is pending."""


class Stopped(Exception):
    """The program simgrid_replay ended unexpectedly, or couldn't be started."""
