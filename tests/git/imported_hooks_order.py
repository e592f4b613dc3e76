"""The order in which hookhost-git runs hooks of which some are left to pre-commit, and fail_fast over both; for tests/git/imported_hooks.py."""
import os

from git_bridge_repository import CONFIGURATION, check, made, not_made, same, shell
from imported_hooks_made import by_hookhost, by_pre_commit, edit, of_remote, remote, same_run

# A pattern that hookhost doesn't take.
LEFT = "'^(?!zz)'"
STASHED = ("[WARNING] Unstaged files", "[INFO] Stashing unstaged", "[INFO] Restored changes")


def hook(name, line, *, is_left=False, keys=""):
    """A hook of a line of shell, which notes that it is started. One that is left has a pattern that hookhost doesn't take."""
    files = LEFT if is_left else "''"
    entry = shell(f'echo {name} >> "$HOOKS_LOG"; {line}')
    return f"  - {{id: {name}, name: The hook {name}, language: system, {entry}, files: {files}, pass_filenames: false{keys}}}\n"


def local(*hooks):
    return "\n- repo: local\n  hooks:\n" + "".join(hooks)


def in_kinds(kinds):
    """A configuration of a hook for each word: `here` or `left`, with `!` for fail_fast. It fails if a file has its name."""
    return local(*(hook(f"h{at}", f"! grep -q h{at} a.txt", is_left=kind.startswith("left"), keys=", fail_fast: true" if kind.endswith("!") else "")
                   for at, kind in enumerate(kinds.split())))


def verdicts_of(kinds, bad, top, is_earlier_counted):
    """How each hook ends: after one that fails with fail_fast none is run. In earlier releases of pre-commit one that passes ends the run
    too, if another has failed before (docs/FROM_PRE_COMMIT.md, "The configuration")."""
    found, has_failed = [], False
    for at, kind in enumerate(kinds.split()):
        found.append("Failed" if at in bad else "Passed")
        has_failed |= at in bad
        if (top or kind.endswith("!")) and (at in bad or has_failed and is_earlier_counted):
            break
    return found


def fail_fast_ends_the_run_for_both(top, env):
    """A hook after a failed one with fail_fast isn't run, whoever runs either, and reports have the order of the configuration."""
    rows = (
        ("here left here left here", "fail_fast: true\n", ((), (0,), (1,), (2,), (4,), (1, 2))),
        ("left! here left here! here! left here!", "", ((), (0,), (2,), (3,), (4,), (5,), (1, 2), (3, 6), (1, 5))),
        ("here here! left left! here here", "", ((0,), (1,), (3,), (2, 3), (0, 4, 5))),
    )
    for number, (kinds, head, choices) in enumerate(rows):
        folder = os.path.join(top, str(number))
        os.mkdir(folder)
        here, there = by_hookhost(folder, env, ""), by_pre_commit(folder, env, "")
        edit((here, there), {CONFIGURATION: f"{head}repos:{in_kinds(kinds)}"})
        for side in (here, there):
            side.git.git("commit", "--quiet", "--no-verify", "-m", "m")
        for bad in choices:
            what = f"{head}{kinds}, of which {bad} fail"
            edit((here, there), {"a.txt": "a" + "".join(f" h{at}" for at in bad) + "\n"})
            wanted, older = (verdicts_of(kinds, bad, head, is_earlier_counted) for is_earlier_counted in (False, True))
            if wanted == older:
                ours, started, theirs = same_run(what, here, there)
                same(f"{what}: what is started", theirs, [f"h{at}" for at in range(len(wanted))])
            else:
                ours, started = here.run(), here.started()
            same(f"{what}: verdicts", ours.verdicts, [(f"The hook h{at}", verdict) for at, verdict in enumerate(wanted)])
            check(set(started) <= {f"h{at}" for at in range(len(wanted))}, f"{what}: {started} are started")
            left = [f"h{at}" for at, kind in enumerate(kinds.split()[:len(wanted)]) if kind.startswith("left")]
            same(f"{what}: what is left to pre-commit", [name for name in started if name in left], left)
        # The hook of Git ends so too.
        here.git.installed()
        here.git.add("a.txt", "a h0\n")
        not_made(here.git.commit(), "The hook h0")
        here.git.add("a.txt", "a\n")
        made(here.git.commit())


def hooks_find_what_those_before_have_fixed(top, env):
    """Fixes of hooks that hookhost runs and of those that are left to pre-commit come after one another, as by pre-commit alone."""
    def fixes(name, before, is_left):
        return hook(name, f"grep -q {name} a.txt || {{ grep -q {before} a.txt && echo {name} >> a.txt; }}", is_left=is_left)

    for number, kinds in enumerate(("here left here", "left here left", "here here left", "left left here", "left here here")):
        is_left = [kind == "left" for kind in kinds.split()]
        text = local(fixes("one", "a", is_left[0]), fixes("two", "one", is_left[1]), fixes("three", "two", is_left[2]))
        folder = os.path.join(top, str(number))
        os.mkdir(folder)
        here, there = by_hookhost(folder, env, text), by_pre_commit(folder, env, text)
        edit((here, there), {"a.txt": "a\n", "b.txt": "b\n", "c.txt": "c\n"})
        for side in (here, there):
            side.git.write("b.txt", "not staged\n")
        ours, theirs = here.run(), there.run()
        same(f"{kinds}: the report", lines_of(ours), lines_of(theirs))
        same(f"{kinds}: verdicts", [verdict for _, verdict in ours.verdicts], ["Failed"] * 3)
        # hookhost may start a hook ahead, and again once the one before has changed files.
        same(f"{kinds}: what is started", (list(dict.fromkeys(here.started())), there.started()), (["one", "two", "three"],) * 2)
        for path, held in (("a.txt", b"a\none\ntwo\nthree\n"), ("b.txt", b"not staged\n"), ("c.txt", b"c\n")):
            same(f"{kinds}: {path}", (here.git.read(path), there.git.read(path)), (held, held))
        same(f"{kinds}: what is staged", here.git.git("show", ":a.txt"), "a\n")
        for side in (here, there):
            side.git.git("add", "a.txt")
        ours, theirs = here.run(), there.run()
        same(f"{kinds}: the report once it is staged", lines_of(ours), lines_of(theirs))
        same(f"{kinds}: once it is staged", (ours.status, here.git.read("b.txt")), (0, b"not staged\n"))
    # A run that was killed may have left these.
    for name in ("compared", "fixed_index"):
        here.git.write(f".git/hookhost/lists/{name}.lock", "")
    here.git.add("a.txt", "a\n")
    ours = here.run()
    same("after a kill", ([verdict for _, verdict in ours.verdicts], ours.lines()), (["Failed"] * 3, []))
    same("what is fixed", here.git.read("a.txt"), b"a\none\ntwo\nthree\n")


def lines_of(answer):
    """The report but for what pre-commit says of changes that it puts aside, which it does for each of its parts."""
    return [line for line in answer.out.split("\n") if not line.startswith(STASHED)]


def hooks_are_chosen_in_all_parts(top, env):
    """By an id that hooks of both have, by an alias, and by SKIP; and what is cached is counted over the parts."""
    text = local(hook("same", "true"), hook("one", "true", is_left=True, keys=", alias: other"), hook("same", "true", is_left=True),
                 hook("last", "true", keys=", alias: other"), hook("hand", "true", keys=", stages: [manual]"))
    here, there = by_hookhost(top, env, text), by_pre_commit(top, env, text)
    edit((here, there), {"a.txt": "a\n"})
    for words, wanted in ((["same"], ["same", "same"]), (["other"], ["one", "last"]), (["one"], ["one"]), ([], ["one", "same"])):
        ours, started, _ = same_run(f"{words}", here, there, *words)
        same(f"{words}", (ours.status, started), (0, wanted))
    ours, *_ = same_run("skipped", here, there, env={"SKIP": "same,one"})
    same("skipped", [verdict for _, verdict in ours.verdicts], ["Skipped", "Skipped", "Skipped", "Passed"])
    answer = here.run("--verbose")
    same("what is cached", [line for line in answer.out.split("\n") if line.startswith("answered")], ["answered from the cache: 2"])
    same("the last line", answer.out.split("\n")[-2], "answered from the cache: 2")
    for name in ("nowhere", "hand"):
        ours, theirs = here.run(name), there.run(name)
        same(f"{name}, which isn't run at a commit", (ours.status, ours.out, "No hook with id" in ours.out), (theirs.status, theirs.out, True))


def all_files_end_with_a_failure_too(top, env):
    """With fail_fast no hook is run on the files that only pre-commit can hand to hooks, once one has failed."""
    hooks = remote(top, env)
    meta = "\n- repo: meta\n  hooks:\n  - {id: identity, name: Identity}\n"
    text = of_remote(hooks, "scr") + local(hook("one", "! grep -q one a.txt", is_left=True)) + meta
    here = by_hookhost(top, env, text)
    edit((here,), {"a.txt": "a\n"})
    answer = here.run("--all-files")
    same("without a failure", [name for name, _ in answer.verdicts], ["Script", "The hook one", "Identity", "Script"])
    check(f"only it can hand them: {CONFIGURATION}" in answer.err, f"{answer!r}")
    edit((here,), {"a.txt": "a one\n"})
    same("without fail_fast", [name for name, _ in here.run("--all-files").verdicts], ["Script", "The hook one", "Identity", "Script"])
    # That of a hook counts too, whoever runs it, and one in the hook's own repository.
    ends, here_alone = "pass_filenames: false, fail_fast: true", local(hook("one", "! grep -q one a.txt"))
    for what, held in (("at the top", f"fail_fast: true\nrepos:{text}"),
                       ("of a hook that is left", "repos:" + text.replace("pass_filenames: false", ends)),
                       ("of a hook that isn't", "repos:" + of_remote(hooks, "scr") + here_alone.replace("pass_filenames: false", ends))):
        here.git.add(CONFIGURATION, held)
        answer = here.run("--all-files")
        same(f"with fail_fast {what}", (answer.status, [name for name, _ in answer.verdicts]), (1, ["Script", "The hook one"]))
        tells_the_end(answer)
    manifest = f"- {{id: scr, name: Script, language: script, entry: bin/scr.sh, files: {LEFT}, types: [plain-text], fail_fast: true}}\n"
    hooks = remote(top, env, ((".pre-commit-hooks.yaml", manifest, None),), name="fast")
    edit((here,), {CONFIGURATION: "repos:" + of_remote(hooks, "scr") + local(hook("one", "true")), "a.txt": "BAD\n"})
    answer = here.run("--all-files")
    same("with that of its repository", (answer.status, [name for name, _ in answer.verdicts]), (1, ["Script"]))
    tells_the_end(answer)


def tells_the_end(answer):
    told = "no hook is run on the files that only pre-commit can hand them, since one failed and the configuration has fail_fast"
    check(f"{told}: {CONFIGURATION}" in answer.err, f"{answer!r}")


CASES = [fail_fast_ends_the_run_for_both, hooks_find_what_those_before_have_fixed, hooks_are_chosen_in_all_parts, all_files_end_with_a_failure_too]
