"""The scripts that tests/simgrid draws, by the definition, beside the dates that SimGrid gave for them."""

import json
import pathlib
import tempfile

from cases import TOP, module
from definition import asking

SIMGRID = module(TOP / "tests/simgrid")
# The grammar of TOML goes over all that is left for each row.
MOST_BYTES, TOO_LARGE = 3500, "too large"


class Drawn(SIMGRID.Compared):
    """A platform here, and what SimGrid said of its script."""

    def __init__(self, xml, work, model, program, record):
        super().__init__(xml, work, model)
        self.program, self.record = program, record

    def simgrid_dates(self, names):
        return self.record

    def replayed(self):
        told = asking.ask(self.program, ["replay", "platform.toml", "deployment.toml", "script.txt"], self.work)
        return min(told.statuses), told.out.decode(), told.err.decode()


def works(program):
    """For each platform and model a work that tells what differs."""
    for key, record in json.loads(SIMGRID.RECORD.read_text(encoding="utf-8")).items():
        name, model = key.split()
        yield f"SimGrid: {name} with {model}", lambda name=name, model=model, record=record: differences(program, name, model, record)


def differences(program, name, model, record):
    with tempfile.TemporaryDirectory(prefix="simgrid-") as folder:
        drawn = Drawn(SIMGRID.HERE / "simgrid.d/platforms" / name, pathlib.Path(folder), model, program, record)
        if (drawn.work / "platform.toml").stat().st_size > MOST_BYTES:
            return TOO_LARGE
        drawn.dates(SIMGRID.SEEDS[model])
        return drawn.faults
