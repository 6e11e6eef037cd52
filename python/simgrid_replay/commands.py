"""The tools as commands of an installed wheel: `simgrid_replay-explain` and so on."""

import sys
from pathlib import Path


def main():
    """Runs the tool of the command that was started."""
    name = Path(sys.argv[0]).name.removesuffix(".exe").removeprefix("simgrid_replay-")
    folder = Path(__file__).resolve().parent / "tools"
    path = folder / name
    sys.path.insert(0, str(folder))
    # The tool takes the name for its help from `sys.argv`.
    exec(compile(path.read_bytes(), str(path), "exec"), {"__name__": "__main__", "__file__": str(path)})
