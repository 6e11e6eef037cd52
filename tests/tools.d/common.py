"""What the tests of the tools share: the tools as modules and as programs, and the program itself."""

import importlib.machinery
import importlib.util
import os
import subprocess
import sys
import tempfile
from pathlib import Path

ROOT = Path(__file__).resolve().parents[2]
PROGRAM = Path(os.environ.get("SIMGRID_REPLAY", ROOT / "crates/simgrid_replay/out/simgrid_replay")).absolute()

ZONE = '[[zone]]\nid = "z"\nrouting = "Full"\n'
HOST = '[[host]]\nid = "h1"\nzone = "z"\nspeed = "1Gf"\n'
ACTOR = '[[actor]]\nname = "p0"\nhost = "h1"\nfunction = "replay"\n'


sys.path[:0] = [str(ROOT / "tools"), str(ROOT / "python")]
sys.dont_write_bytecode = True


def module(name):
    """A tool as a module."""
    key = "tool_" + name
    if key not in sys.modules:
        loader = importlib.machinery.SourceFileLoader(key, str(ROOT / "tools" / name))
        sys.modules[key] = importlib.util.module_from_spec(importlib.util.spec_from_loader(key, loader))
        loader.exec_module(sys.modules[key])
    return sys.modules[key]


def tool(name, *words, given=b"", folder=None):
    """Runs a tool as a program; nothing that it is given may end in a traceback."""
    done = subprocess.run([sys.executable, "-B", ROOT / "tools" / name, *words], input=given, capture_output=True, cwd=folder,
                          timeout=60)
    assert b"Traceback" not in done.stderr, done.stderr.decode()
    return done


def program(*words, folder=None):
    """Runs the program."""
    assert os.access(PROGRAM, os.X_OK), f"no program at {PROGRAM}: build it, or set SIMGRID_REPLAY"
    return subprocess.run([PROGRAM, *words], capture_output=True, cwd=folder, timeout=60)


class Folder(tempfile.TemporaryDirectory):
    """A folder with files of these names, in which texts are UTF-8."""

    def __init__(self, **files):
        super().__init__(prefix="tools-")
        self.path = Path(self.name)
        for name, data in files.items():
            self.write(name, data)

    def write(self, name, data):
        (self.path / name).write_bytes(data if isinstance(data, bytes) else data.encode())

    def replayed(self, *options):
        """What the program gives for the files `p`, `d` and `s`, or `p` and `d`."""
        names = [name for name in "pds" if (self.path / name).exists()]
        return program("replay" if len(names) == 3 else "run", *names, *options, folder=self.name)


def example(name):
    """The trace of an example."""
    folder = ROOT / "examples" / name
    script = folder / "script.txt"
    words = ["replay" if script.exists() else "run", folder / "platform.toml", folder / "deployment.toml"]
    return program(*words, *([script] if script.exists() else [])).stdout.decode()
