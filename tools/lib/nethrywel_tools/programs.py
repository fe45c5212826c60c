"""Where the built programs are, as tools/lib/programs.sh says, which the tools in bash use."""
import os
import subprocess
import sys

TOP = os.path.realpath(os.path.join(os.path.dirname(__file__), "../../.."))


def program(name):
    """Returns the path of a program that is there, proved or not; begins no proof, and ends the tool if there is none."""
    ran = subprocess.run(
        ["bash", "-c", 'top=$1; . "$top/tools/lib/programs.sh"; ready "$2"', os.path.basename(sys.argv[0]), TOP, name],
        stdout=subprocess.PIPE,
        text=True,
    )
    if ran.returncode != 0:
        sys.exit(1)
    return os.path.abspath(ran.stdout.strip())
