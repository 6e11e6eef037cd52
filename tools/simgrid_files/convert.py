"""Converts a whole study: reads its files, and writes the results."""

import os
import shlex
import sys
from pathlib import Path

from . import deployment, model, rows, traces, traffic, xmlfile, zones
from .platform import Platform
from .notes import Notes, Unread

RUN = """#!/bin/sh
# Runs the study. The environment variable SIMGRID_REPLAY names the program; arguments are passed to it.
here=$(cd -- "$(dirname -- "$0")" && pwd) || exit
"""
# The program in a checkout, and where it is installed.
BESIDE = [Path(__file__).resolve().parents[2] / "simgrid_replay", Path(__file__).resolve().parents[3] / "bin/simgrid_replay"]


class Study:
    """The output files, by name."""

    def __init__(self):
        self.notes, self.texts, self.platform = Notes(), {}, None

    def write(self, folder):
        if not folder:
            sys.stdout.write(self.texts["platform.toml"])
            sys.stdout.flush()
            return
        os.makedirs(folder, exist_ok=True)
        for name in ("platform.toml", "deployment.toml", "script.txt", "run.sh"):
            path = os.path.join(folder, name)
            if name not in self.texts:
                # A file of an earlier study.
                if os.path.exists(path):
                    os.remove(path)
                continue
            with open(path, "w", encoding="ascii") as file:
                file.write(self.texts[name])
        if "run.sh" in self.texts:
            os.chmod(os.path.join(folder, "run.sh"), 0o755)


def study(given):
    found = Study()
    root = xmlfile.read(given.platform)
    platform = Platform("." if given.platform == "-" else os.path.dirname(given.platform), found.notes).read(root)
    actors = script = None
    if given.deployment:
        actors, script = deployment.read(given, platform, found.notes)
    ranks = script is not None and script.ranks > 0
    model.settle(platform, given.model or ("SMPI" if ranks else "LV08"), script.sizes if ranks else {})
    zones.write(platform)
    unit = traffic.settle(platform, given)
    if actors and unit != 1:
        traffic.rescale(actors, script, unit)
    found.platform = platform
    explain = rows.explain()
    texts = found.texts
    texts["platform.toml"] = platform.rows.text(found.notes.all())
    judged = platform.rows.text([], False) if len(platform.rows.tables["route"]) > rows.MOST_READ else texts["platform.toml"]
    part = explain.Platform("platform.toml", judged.encode())
    rows.judge(platform.rows, texts["platform.toml"], part, (given.platform, root.line))
    if actors:
        texts["deployment.toml"] = actors.text([])
        members = explain.Deployment("deployment.toml", texts["deployment.toml"].encode(), part)
        rows.judge(actors, texts["deployment.toml"], members, (given.deployment, 1))
        texts["run.sh"] = RUN + line_of_run(script is not None)
        if script is not None:
            texts["script.txt"] = script.text()
            traces.judge(script, explain, members)
    return found


def line_of_run(replay):
    command, script = ("replay", ' "$here/script.txt"') if replay else ("run", "")
    program = next((str(path) for path in BESIDE if path.is_file() and os.access(path, os.X_OK)), "simgrid_replay")
    return (f"program={shlex.quote(program)}\n"
            '[ -x "$program" ] || program=simgrid_replay\n'
            f'exec "${{SIMGRID_REPLAY:-$program}}" {command} "$here/platform.toml" "$here/deployment.toml"{script} "$@"\n')
