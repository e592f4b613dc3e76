#!/usr/bin/env python3
"""Checks real children of the built program child_trial: hostile ones, and what they leave for the next.

Usage: tests/children/children.py [-v] [--settled | --reads] [--in FOLDER] [PROGRAM]   (default: crates/child_trial/out/child_trial)

  -v            the seconds of each case
  --settled     only the cases of files that nobody has changed for as long as the system takes to write them to the disk;
                they take that long: some minutes
  --reads       only the cases of what is read
  --in FOLDER   plays below this folder, as on another file system

Each case has a folder of its own, in which the children's folder is h/scratch. As root, what depends on modes is tried as nobody too. The
next child itself reports what it sees, which is compared with a newly made folder.

Each case is run twice: once only those files are read that children can have changed, and once all files are. Both have to give the same.
"""
import os
import re
import shutil
import sys
import time
from pathlib import Path

sys.path.insert(0, os.path.abspath(f"{__file__}/../../shared"))
import children_ahead
import children_beside
import children_ends
import children_files
import children_folder
import children_limits
import children_reads
import children_settled
from children_trial import BASE, MIB, READS, TELLING, WORDS, Trial, Wrong, check, digits, kind_of

# What other scripts play children with too.
__all__ = ["MIB", "READS", "Trial", "digits"]


def cases_of(module):
    """The cases of a module: its functions without an argument that have a sentence for a name."""
    found = vars(module).items()
    return [case for name, case in found if callable(case) and case.__module__ == module.__name__ and name.count("_") > 1 and case.__code__.co_argcount == 0]


MODULES = [children_ends, children_ahead, children_files, children_folder, children_beside, children_reads, children_settled, children_limits]
CASES = [case for module in MODULES for case in cases_of(module)]
# What depends on when a process is at work, on how much is read, or on whether children are started ahead.
UNLIKE = [children_ahead.children_ahead_run_at_once, children_ahead.children_of_a_large_tree_share_a_folder, children_beside.a_killed_program_leaves_no_harm, children_reads.a_rewrite_right_behind_a_look_is_seen, children_reads.a_rewrite_around_a_look_is_seen, children_limits.a_signal_to_the_group_ends_a_child_too]
SETTLED = [children_reads.files_that_have_settled_are_read_once]
READING = [
    children_reads.a_quiet_write_is_read_back,
    children_reads.a_file_is_known_by_more_than_its_bytes,
    children_reads.folders_that_change_places_are_seen,
    children_reads.a_tree_that_changes_is_known_by_its_bytes,
    children_reads.a_process_left_behind_with_a_mapping_is_seen,
    children_reads.a_mapping_that_an_ended_program_left_is_seen,
    children_reads.a_process_left_behind_that_writes_is_seen,
    children_reads.a_rewrite_right_behind_a_look_is_seen,
    children_reads.a_rewrite_around_a_look_is_seen,
    children_reads.a_rewrite_in_the_tick_in_which_files_were_laid_is_seen,
    children_reads.what_no_child_can_have_changed_is_not_read,
    *cases_of(children_settled),
]


def chosen():
    """The cases that the command line names."""
    if "--settled" in WORDS:
        return SETTLED
    return READING if "--reads" in WORDS else [case for case in CASES if case not in SETTLED]


def played(case, reads):
    """What the children of the case were given, each by its words and its outcome, without the names of folders."""
    Trial.reads, Trial.told = READS[reads], []
    start = time.monotonic()
    try:
        case()
    except Wrong as wrong:
        raise Wrong(f"reading {reads}: {wrong}") from None
    finally:
        if "-v" in WORDS:
            print(f"children: {case.__name__}, reading {reads}: {time.monotonic() - start:.1f} s", flush=True)
        for folder in Path(BASE).glob("children-*"):
            shutil.rmtree(folder, ignore_errors=True)
    named = re.compile(re.escape(BASE) + r"/[a-z]+-[a-z0-9_]+|CHILD_TRIAL_READS=everything\\n")
    return [named.sub("", repr(each)) for each in Trial.told]


if __name__ == "__main__":
    failed, cases = 0, chosen()
    for case in cases:
        try:
            told = [played(case, reads) for reads in READS]
            if case not in UNLIKE:
                check(told[0] == told[1], f"children tell {next((pair for pair in zip(*told) if pair[0] != pair[1]), [len(each) for each in told])}")
        except Wrong as wrong:
            failed += 1
            print(f"children: {case.__name__}: {wrong}")
    print(f"children: played on {kind_of(BASE)}, whose times tell {'what changed' if TELLING else 'nothing'}")
    print(f"children: {len(cases) - failed} passed, {failed} failed")
    sys.exit(1 if failed else 0)
