"""The paths of the parts of the repository, and of the programs that are built from it."""
import os

TOP = os.path.abspath(f"{__file__}/../../..")
CRATES = os.path.join(TOP, "crates")


def program(name):
    """The built program of the crate of this name."""
    return os.path.join(CRATES, name, "out", name)
