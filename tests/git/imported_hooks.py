#!/usr/bin/env python3
"""Checks hookhost-git with hooks of other repositories, which hookhost-import makes local ones with the help of pre-commit.

Usage: tests/git/imported_hooks.py [PROGRAM [PART]]   (default: crates/hookhost/out/hookhost, and all cases; PART is one of a name)

The repositories of the hooks are made on the spot (imported_hooks_made.py), and nothing comes from the network: pip has no index. The
cases are in imported_hooks_runs.py, .._order.py, .._tools.py, .._refusals.py and .._parts.py. Reports have to be those of pre-commit in a
clone of the same repository. It is Debian's pre-commit, or another one on the PATH.
"""
import os
import sys
import tempfile
import time

sys.path.insert(0, os.path.abspath(f"{__file__}/../../shared"))
from git_bridge_repository import Wrong, environment
from imported_hooks_order import CASES as ORDER
from imported_hooks_parts import CASES as PARTS
from imported_hooks_refusals import CASES as REFUSALS
from imported_hooks_runs import CASES as RUNS
from imported_hooks_tools import CASES as TOOLS

PART = sys.argv[2] if len(sys.argv) > 2 else ""
SHOWS_TIMES = "IMPORTED_HOOKS_TIMES" in os.environ


def is_wrong(case, top, env):
    start = time.monotonic()
    try:
        case(top, env)
    except Wrong as wrong:
        print(f"imported_hooks: FAILED: case {case.__name__}: {wrong}", flush=True)
        return True
    finally:
        if SHOWS_TIMES:
            print(f"{case.__name__}: {time.monotonic() - start:.2f} s", flush=True)
    return False


def main():
    chosen = [case for case in (*RUNS, *ORDER, *TOOLS, *REFUSALS, *PARTS) if PART in case.__name__]
    failed = 0
    with tempfile.TemporaryDirectory(dir="/dev/shm" if os.path.isdir("/dev/shm") else None) as top:
        home = os.path.join(top, "home")
        os.mkdir(home)
        # All cases share the environments that pre-commit has installed, unless they name another folder.
        env = environment(home) | {"PIP_NO_INDEX": "1", "PIP_DISABLE_PIP_VERSION_CHECK": "1"}
        for case in chosen:
            folder = os.path.join(top, case.__name__)
            os.mkdir(folder)
            failed += is_wrong(case, folder, env)
    print(f"{len(chosen) - failed} passed, {failed} failed")
    sys.exit(1 if failed or not chosen else 0)


main()
