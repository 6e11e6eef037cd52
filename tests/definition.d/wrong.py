"""Wrong definitions: each is one change of a file in specs/, and a case that notices it."""

import pathlib
import shutil
import tempfile
from dataclasses import dataclass

import asked
from definition import Refused, asking

LIST = pathlib.Path(__file__).resolve().parent / "wrong.txt"
SECONDS = 60


@dataclass
class Wrong:
    """A change of one line: what it gets wrong, its file, the text before and after it, and the case that notices it."""

    name: str
    file: str = ""
    old: str = ""
    new: str = ""
    case: str = ""


def listed():
    """The wrong definitions of wrong.txt."""
    found = []
    for line in LIST.read_text(encoding="utf-8").splitlines():
        key, colon, value = line.partition(": ")
        if line.startswith("== "):
            found.append(Wrong(line[3:]))
        elif colon and key in ("file", "old", "new", "case") and found:
            setattr(found[-1], key, value)
        elif line and not line.startswith("#"):
            raise Refused(f"neither a name nor file, old, new or case: {line}", LIST.name)
    return found


def changed(top, wrong):
    """Returns the program of the definition with this change."""
    with tempfile.TemporaryDirectory(prefix="wrong-") as folder:
        for part in ("specs", "src"):
            for source in pathlib.Path(top, "crates").glob(f"*/{part}"):
                shutil.copytree(source, pathlib.Path(folder, "crates", source.parent.name, part))
        file = pathlib.Path(folder, wrong.file)
        text = file.read_text(encoding="utf-8")
        if text.count(wrong.old) != 1:
            raise Refused(f"'{wrong.old}' stands there {text.count(wrong.old)} times, and not once", wrong.file)
        file.write_text(text.replace(wrong.old, wrong.new), encoding="utf-8")
        return asking.definition(folder)


def noticed_by(program, cases):
    """Returns the first of these cases, in their order, that the program fails or can't finish; None if there is none."""
    works = ((case, lambda case=case: asked.judged(program, case)) for case in cases)
    for case, told in asked.side_by_side(works, SECONDS, jobs=1):
        if "found" not in told or told["found"]["faults"]:
            return case
    return None


def check(top, cases, count):
    """Holds that each wrong definition is noticed by its case."""
    for wrong in listed():
        named = [case for case in cases if case.name == wrong.case]
        try:
            found = noticed_by(changed(top, wrong), named)
        except Refused as why:
            count.take(f"wrong definition: {wrong.name}", [str(why)])
            continue
        count.take(f"wrong definition: {wrong.name}", [] if found else [f"no difference in '{wrong.case}'" if named else f"there is no case '{wrong.case}'"])


def find(top, cases):
    """Prints for each wrong definition a case that notices it, smallest cases first."""
    for wrong in listed():
        found = noticed_by(changed(top, wrong), sorted(cases, key=lambda case: case.size()))
        print(f"{wrong.name}: {found}", flush=True)
