"""The command lines of this folder's scripts, by the tools' own."""
import os
import sys
from pathlib import Path

TOP = Path(__file__).resolve().parent.parent
sys.path += [str(TOP / "tools/lib"), str(TOP / "tests")]
from nethrywel_tools.command_line import argument, main

PROGRAM = argument("PROGRAM", type=os.path.abspath, help="a built nethrywel")
SEED = argument("SEED", nargs="?", type=int, default=1, help="what is drawn (1)")


def run(usage, about, work, *arguments):
    """Runs a script with what its command line gives."""
    main(f"bench/{usage}", about, work, *arguments)


def number(name, default, about):
    """Returns an argument that may be left out."""
    return argument(name, nargs="?", type=int, default=default, help=f"{about} ({default})")
