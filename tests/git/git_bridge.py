#!/usr/bin/env python3
"""Checks git/hookhost-git as the hook of real repositories of Git.

Usage: tests/git/git_bridge.py [--sample] [PROGRAM [PART [PLAYS [FIRST]]]]   (default: crates/hookhost/out/hookhost, all parts, 200 plays from 1 on)

PART is `cases`, `plays`, `kills`, or a part of a case's name.
First come the promises of docs/GIT.md, case by case (tests/git/git_bridge_cases.py, .._fixes.py, .._forms.py, .._runs.py,
.._calls.py, .._served.py, .._keeping.py, .._share.py, .._tools.py, .._links.py, .._partial.py, .._state.py, .._ahead.py and .._stages.py), and what README.md shows
(tests/git/git_bridge_readme.py). Then come random repositories that are compared with copies in which pre-commit is the hook
(tests/git/git_bridge_plays.py), and kills (tests/git/git_bridge_kills.py). With --sample only some of the plays and of the kills come.
"""
import os
import sys
import tempfile
import time

sys.path.insert(0, os.path.abspath(f"{__file__}/../../shared"))
from sample import TALLY, note, sampled, tally
from git_bridge_ahead import CASES as AHEAD
from git_bridge_calls import CASES as CALLS
from git_bridge_cases import CASES
from git_bridge_fixes import CASES as FIXES
from git_bridge_forms import CASES as FORMS
from git_bridge_keeping import CASES as KEEPING
from git_bridge_kills import KILLS
from git_bridge_links import CASES as LINKS
from git_bridge_partial import CASES as PARTIAL
from git_bridge_plays import REASONS, Reasons, play, templates
from git_bridge_readme import readme_session
from git_bridge_repository import Wrong, environment
from git_bridge_runs import CASES as RUNS
from git_bridge_served import CASES as SERVED
from git_bridge_share import CASES as SHARED
from git_bridge_stages import CASES as STAGES
from git_bridge_state import CASES as STATES
from git_bridge_tools import CASES as TOOLS

PART = sys.argv[2] if len(sys.argv) > 2 else ""
PLAYS, FIRST = int(sys.argv[3]) if len(sys.argv) > 3 else 200, int(sys.argv[4]) if len(sys.argv) > 4 else 1
# With --sample one in so many plays is played.
SAMPLED_ONE_IN = 8
SHOWS_TIMES = "GIT_BRIDGE_TIMES" in os.environ


def in_folder(action):
    """Does something in a folder of its own, and answers whether it went wrong."""
    start = time.monotonic()
    with tempfile.TemporaryDirectory(dir="/dev/shm" if os.path.isdir("/dev/shm") else None) as top:
        home = os.path.join(top, "home")
        os.mkdir(home)
        try:
            action(top, environment(home))
        except Wrong as wrong:
            print(f"git_bridge: FAILED: {wrong}", flush=True)
            return True
        finally:
            if SHOWS_TIMES:
                print(f"{action.__name__}: {time.monotonic() - start:.2f} s", flush=True)
    return False


def run_cases():
    """How many cases there were, and how many failed."""
    cases = (*CASES, *FIXES, *FORMS, *RUNS, *CALLS, *SERVED, *KEEPING, *SHARED, *TOOLS, *LINKS, *PARTIAL, *STATES, *AHEAD, *STAGES, readme_session)
    chosen = [case for case in cases if PART == "cases" or PART in case.__name__]
    failed = [case.__name__ for case in chosen if in_folder(case)]
    for name in failed:
        print(f"git_bridge: FAILED: case {name}")
    return len(chosen), len(failed)


def run_plays():
    """How many plays there were, and how many failed, each reason that no play needed among them."""
    reasons, failed = Reasons(), 0
    with tempfile.TemporaryDirectory(dir="/dev/shm" if os.path.isdir("/dev/shm") else None) as top:
        template = templates(top, environment(top))
        # One in five is looked at more closely at its end.
        seeds = sampled(range(FIRST, FIRST + PLAYS), lambda seed: seed % 5, SAMPLED_ONE_IN)
        for seed in seeds:
            def one(folder, env, seed=seed):
                play(folder, env, seed, template, reasons)
            failed += in_folder(one)
    for name, count in sorted(reasons.needed.items()):
        print(f"{count:5} {name}: {REASONS[name]}")
    unneeded = [name for name in REASONS if name not in reasons.needed]
    if len(seeds) >= 200:
        for name in unneeded:
            print(f"git_bridge: no play needed the reason: {name}")
        failed += len(unneeded)
    print(f"git_bridge: {reasons.tried} commits tried beside pre-commit, {reasons.made} made, {sum(reasons.needed.values())} differ for a reason", flush=True)
    tally(len(seeds), PLAYS)
    return len(seeds), failed


def run_kills():
    return len(KILLS), sum(in_folder(kills) for kills in KILLS)


def main():
    parts = [run_cases] if PART not in ("plays", "kills") else []
    parts += [run for name, run in (("plays", run_plays), ("kills", run_kills)) if PART in ("", name)]
    played, failed = map(sum, zip(*(run() for run in parts)))
    print(f"git_bridge: {played - failed} passed, {failed} failed{note(TALLY['played'], TALLY['count'], 'plays and kills')}")
    sys.exit(1 if failed else 0)


main()
