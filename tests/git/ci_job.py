#!/usr/bin/env python3
"""Plays what docs/CONTINUOUS_INTEGRATION.md shows, as it is written there, and checks what it says.

Usage: tests/git/ci_job.py [PROGRAM [PART]]   (default: crates/hookhost/out/hookhost, and all cases; PART is one of a name)

The page's script, its job in a clone and the commands of its jobs of GitHub and GitLab are read from the page. Each job has a clone of
its own of a repository on this machine, and what the page keeps. The cases are in ci_job_cases.py, and ci_job_clones.py has those of
hooks of other repositories, of a second clone and of several working trees. With CI_JOB_TIMES set the time of each case is printed.
"""
import os
import sys
import tempfile
import time

sys.path.insert(0, os.path.abspath(f"{__file__}/../../shared"))
from ci_job_cases import CASES
from ci_job_clones import CASES as CLONES
from git_bridge_repository import Wrong, environment

PART = sys.argv[2] if len(sys.argv) > 2 else ""
SHOWS_TIMES = "CI_JOB_TIMES" in os.environ


def is_wrong(case, top):
    """Whether a case goes wrong in a folder of its own."""
    start = time.monotonic()
    os.makedirs(os.path.join(top, "home"))
    env = environment(os.path.join(top, "home")) | {"PIP_NO_INDEX": "1", "PIP_DISABLE_PIP_VERSION_CHECK": "1"}
    try:
        case(top, env)
    except Wrong as wrong:
        print(f"ci_job: FAILED: case {case.__name__}: {wrong}", flush=True)
        return True
    finally:
        if SHOWS_TIMES:
            print(f"{case.__name__}: {time.monotonic() - start:.2f} s", flush=True)
    return False


def main():
    chosen = [case for case in (*CASES, *CLONES) if PART in case.__name__]
    with tempfile.TemporaryDirectory(dir="/dev/shm" if os.path.isdir("/dev/shm") else None) as top:
        failed = sum(is_wrong(case, os.path.join(top, case.__name__)) for case in chosen)
    print(f"ci_job: {len(chosen) - failed} passed, {failed} failed")
    sys.exit(1 if failed or not chosen else 0)


main()
