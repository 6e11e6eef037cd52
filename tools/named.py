"""The names of the tools: in a checkout `tools/NAME`, and installed the command `simgrid_replay-NAME`."""

import os
import re
import sys

PREFIX = "simgrid_replay-"
# In a checkout Python's package stands in a folder beside that of the tools; elsewhere Python finds it without help.
PYTHON = os.path.join(os.path.dirname(os.path.dirname(os.path.abspath(__file__))), "python")

if os.path.isdir(os.path.join(PYTHON, "simgrid_replay")) and PYTHON not in sys.path:
    sys.path.insert(1, PYTHON)


def installed():
    """Whether the tool was started by the name of its installed command."""
    return os.path.basename(sys.argv[0]).startswith(PREFIX)


def command(name):
    """The tool as its help names it."""
    return PREFIX + name if installed() else name


def text(words):
    """A text in which the tools, and the program, have the names by which they can be started here."""
    if not installed():
        return words
    return re.sub(r"\btools/(?=[a-z])", PREFIX, words.replace("./simgrid_replay ", "simgrid_replay "))
