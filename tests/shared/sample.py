"""With the word `--sample`, which tests/run gives, a script that has very many cases plays only some of them. Of each group these are the
first, the last, and evenly spaced ones between. Without it, as in tests/prove, the script plays all. Its last line says how many of how
many it played.

This module is imported before any that reads the command line: it takes its word away, since the others are read by their places.
"""
import collections
import sys

IS_SAMPLED = "--sample" in sys.argv
sys.argv = [word for word in sys.argv if word != "--sample"]


def spread(cases, most):
    """At most so many of a sequence, which is two at least: the first, the last, and evenly spaced ones between."""
    if len(cases) <= most:
        return list(cases)
    return [cases[at * (len(cases) - 1) // (most - 1)] for at in range(most)]


def greatest(holds, guess=1):
    """The greatest number for which this holds, found by doubling a guess and then by halving: it holds for each smaller number from 1 on,
    and for none that is greater."""
    least, most = 0, guess
    while holds(most):
        least, most = most, 2 * most
    while most - least > 1:
        middle = (least + most) // 2
        least, most = (middle, most) if holds(middle) else (least, middle)
    return least


def sampled(cases, group_of, one_in):
    """All cases, or with `--sample` one in so many of each group, and its first and last ones in any case."""
    if not IS_SAMPLED:
        return cases
    groups = {}
    for case in cases:
        groups.setdefault(group_of(case), []).append(case)
    return [case for group in groups.values() for case in spread(group, max(2, -(-len(group) // one_in)))]


# How many were played, and of how many, for scripts that sample at several places.
TALLY = collections.Counter()


def tally(played, count):
    TALLY.update(played=played, count=count)


def note(played, count, what):
    """What the last line says of a sample: how many of how many were played, and of what."""
    return f" (a sample: {played:,} of {count:,} {what})" if IS_SAMPLED else ""
