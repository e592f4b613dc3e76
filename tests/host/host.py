#!/usr/bin/env python3
"""Checks the commands on a repository with the built program. The cases are of files with hard names, as many files as may be, files and
folders that can't be used, several programs at once, kills, limits of the cache, and how often the disk is waited for.

Usage: tests/host/host.py [--kills | --no-kills] [--sample] [KILLS [PROGRAM [STORE_TRIAL]]]   (default: 30 kills of each command, or
with --sample 12, and the built programs)

--kills runs the topics of kills alone, --no-kills the others, so they can be run side by side.

tests/sessions/ has what one program alone prints. Here is what no session can make: names that no text file can hold, another user,
fifos, programs side by side. Each kill is a SIGKILL at a random moment of a command on a copy of a repository. The repository has to
be the one before the command or the one after it, and the results of its hooks up to then are cached. The commits are made by
store_trial. The cases are in the modules tests/host/host_*.py, each of one topic.
"""
import os
import subprocess
import sys
import tempfile

sys.path.insert(0, os.path.abspath(f"{__file__}/../../shared"))
from sample import TALLY, note

OPTIONS = [word for word in sys.argv if word.startswith("--")]
# The modules below read the other words by their place.
sys.argv = [word for word in sys.argv if word not in OPTIONS]
import host_answers
import host_at_once
import host_calls
import host_checkout
import host_explain
import host_files
import host_folder
import host_init
import host_jobs
import host_jobs_plays
import host_kills
import host_limit
import host_links
import host_log
import host_names
import host_pages
import host_put_kills
import host_runs
import host_tracked
import host_unusable
import host_version_1
import host_words
from host_program import Wrong

KILLS = [host_kills, host_put_kills, host_limit, host_version_1]
OTHERS = [host_names, host_words, host_unusable, host_folder, host_init, host_checkout, host_tracked, host_calls, host_at_once, host_log, host_pages, host_files, host_runs, host_links, host_explain, host_answers, host_jobs, host_jobs_plays]
TOPICS = {"": OTHERS + KILLS, "--no-kills": OTHERS, "--kills": KILLS}


def main():
    chosen = TOPICS.get("".join(OPTIONS))
    if chosen is None:
        sys.exit("host: the options are --kills and --no-kills, one of them at most")
    passed, failed = 0, 0
    for case in (case for topic in chosen for case in topic.CASES):
        with tempfile.TemporaryDirectory() as folder:
            try:
                case(folder)
                wrong = None
            except (Wrong, subprocess.TimeoutExpired) as error:
                wrong = error
        passed, failed = (passed, failed + 1) if wrong else (passed + 1, failed)
        if wrong:
            print(f"FAILED {case.__name__.replace('_', ' ')}: {str(wrong)[:2000]}")
    print(f"host: {passed} passed, {failed} failed{note(TALLY['played'], TALLY['count'], 'kills')}")
    sys.exit(1 if failed or not passed else 0)


main()
