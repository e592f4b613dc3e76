"""The tables of tests/rows/tables/, for the scripts that play them and those that compare their rows with others."""
import importlib.util
import os
import sys

from places import TOP

FOLDER = os.path.join(TOP, "tests", "rows", "tables")


def names():
    """The tables, each by the name of its file without `.py`."""
    return sorted(name[:-3] for name in os.listdir(FOLDER) if name.endswith(".py"))


def table_of(name):
    """The table of this name, as a module."""
    sys.dont_write_bytecode = True
    spec = importlib.util.spec_from_file_location(name, os.path.join(FOLDER, f"{name}.py"))
    table = importlib.util.module_from_spec(spec)
    spec.loader.exec_module(table)
    return table
