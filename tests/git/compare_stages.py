#!/usr/bin/env python3
"""Compares the hooks of Git that hookhost-git installs with those of pre-commit, in all stages of a commit.

Usage: tests/git/compare_stages.py [--sample] [PROGRAM [PART [PLAYS [FIRST]]]]
(default: crates/hookhost/out/hookhost, all parts, 200 plays from 1 on)

PART is `plays`, `cases`, or a part of a case's name. With `pre-commit` as PROGRAM its hooks are on both sides, and nothing may differ.
First come cases: what Git's own tests of its hooks check (tests/git/compare_stages_git.py), and each reason for which pre-commit does
otherwise (tests/git/compare_stages_cases.py). In a play a random repository with hooks in all stages is made twice, and the same commands
are played in both (tests/git/compare_stages_plays.py). With --sample only some of the plays come.
"""
import os
import sys
import tempfile
import time

sys.path.insert(0, os.path.abspath(f"{__file__}/../../shared"))
from sample import TALLY, note, sampled, tally
from compare_stages_cases import CASES
from compare_stages_git import CASES as GIT
from compare_stages_plays import RARE, REASONS, Tally, play
from compare_stages_side import Hooks, Kit
from git_bridge_repository import Wrong, environment

IS_PEER = len(sys.argv) > 1 and sys.argv[1] == "pre-commit"
SECOND = "pre-commit" if IS_PEER else "hookhost-git"
PART = sys.argv[2] if len(sys.argv) > 2 else ""
PLAYS, FIRST = int(sys.argv[3]) if len(sys.argv) > 3 else 200, int(sys.argv[4]) if len(sys.argv) > 4 else 1
# With --sample one in so many is played.
SAMPLED_ONE_IN = 8
MEMORY = "/dev/shm" if os.path.isdir("/dev/shm") else None
SHOWS_TIMES = "COMPARE_STAGES_TIMES" in os.environ


def in_folder(name, action, env):
    """Does something in a folder of its own, and answers whether it went wrong."""
    start = time.monotonic()
    with tempfile.TemporaryDirectory(dir=MEMORY) as top:
        try:
            action(top, env | {"HOOKHOST_TMP": top})
        except Wrong as wrong:
            print(f"compare_stages: FAILED: {name}: {wrong}", flush=True)
            return True
        finally:
            if SHOWS_TIMES:
                print(f"{name}: {time.monotonic() - start:.2f} s", flush=True)
    return False


def run_plays(hooks, env):
    """How many plays there were, and how many failed, each reason that no play needed among them."""
    needs, failed = Tally(), 0
    seeds = sampled(range(FIRST, FIRST + PLAYS), lambda seed: 0, SAMPLED_ONE_IN)
    for seed in seeds:
        failed += in_folder(f"play {seed}", lambda top, env, seed=seed: play(top, env, seed, hooks, needs, SECOND), env)
    for name, count in sorted(needs.needed.items()):
        print(f"{count:5} {name}: {REASONS[name]}")
    if len(seeds) >= 200 and not IS_PEER:
        for name in REASONS.keys() - RARE:
            if name not in needs.needed:
                print(f"compare_stages: FAILED: no play needed the reason: {name}")
                failed += 1
    if IS_PEER and needs.needed:
        print("compare_stages: FAILED: pre-commit differs from itself")
        failed += 1
    print(f"compare_stages: {needs.steps} commands beside pre-commit, {needs.made} commits made, {needs.entries} hooks started, "
          f"{sum(needs.needed.values())} differences with a reason", flush=True)
    tally(len(seeds), PLAYS)
    return len(seeds), failed


def run_cases(hooks, env):
    """How many cases there were, and how many failed."""
    chosen = [case for case in (*GIT, *(() if IS_PEER else CASES)) if PART in ("", "cases") or PART in case.__name__]
    kit = Kit(hooks, IS_PEER)
    failed = [case.__name__ for case in chosen if in_folder(f"case {case.__name__}", lambda top, env, case=case: case(top, env, kit), env)]
    return len(chosen), len(failed)


def main():
    with tempfile.TemporaryDirectory(dir=MEMORY) as top:
        env = environment(top)
        hooks = Hooks(top, env, IS_PEER)
        try:
            parts = [run_cases] if PART != "plays" else []
            parts += [run_plays] if PART in ("", "plays") else []
            played, failed = map(sum, zip(*(run(hooks, env) for run in parts)))
        finally:
            hooks.end()
    print(f"compare_stages: {played - failed} passed, {failed} failed{note(TALLY['played'], TALLY['count'], 'plays')}")
    sys.exit(1 if failed else 0)


main()
