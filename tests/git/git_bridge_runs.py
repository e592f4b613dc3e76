"""The words of `hookhost-git run`, what is cached, and what is reported of configurations; for tests/git/git_bridge.py."""
import os
import re

from git_bridge_repository import (BLANKS, CONFIGURATION, MOST_BYTES, PROGRAM, WORDS, Repository, check, configuration, content, holds_index, made, names_hook, names_in, not_made, quoted,
                                   refused, repository, same, shell)

MOST_GROWTH = 32 * 1024 * 1024


def starts_hook(log, keys, text="", name="log"):
    """A hook that writes a line for each start."""
    return f"id: {name}, name: {name}, language: system, " + shell(f"echo started >> {quoted(log)}; {text or 'true'}") + ", " + keys


def starts(log):
    return content(log).count(b"started") if os.path.exists(log) else 0


# ---- which hooks, and which files


def run_takes_an_id(top, env):
    git = repository(top, env, names_hook(), WORDS)
    git.add("a.txt", "BAD\n")
    for words in ([], ["--all-files"], ["--files", "a.txt"]):
        answer = git.bridge("run", "names", *words)
        same(f"the hook alone, {words!r}", (answer.status, names_in(answer)[-1:], "No bad words" in answer.out), (0, ["a.txt"], False))
        answer = git.bridge("run", "words", *words)
        same(f"the other alone, {words!r}", (answer.status, names_in(answer), "a.txt:1:BAD" in answer.out), (1, [], True))
    refused(git.bridge("run", "nope"), "hookhost refused, so nothing was checked")


def run_takes_files(top, env):
    git = repository(top, env, names_hook())
    for path in ("a", "d/b", "d/e/c", "-dash", "*", "it's \\n \"é", "gone"):
        git.add(path, f"{path}\n")
    os.symlink("a", os.path.join(git.folder, "link"))
    git.git("add", "link")
    git.git("commit", "--quiet", "--no-verify", "-m", "m")
    git.write("not staged", "x\n")
    os.remove(os.path.join(git.folder, "gone"))
    rows = [
        (["a"], "", ["a"]),
        (["d/b", "a", "a", "gone"], "", ["a", "d/b", "gone"]),
        (["b", "../a", "e"], "d", ["a", "d/b", "d/e/c"]),
        ([os.path.join(git.folder, "d")], "d", ["d/b", "d/e/c"]),
        (["*", "it's \\n \"é"], "", ["*", "it's \\n \"é"]),
        (["a", "--", "-dash"], "", ["-dash", "a"]),
        (["."], "d", ["d/b", "d/e/c"]),
    ]
    for words, folder, wanted in rows:
        answer = git.bridge("run", "--files", *words, cwd=folder)
        same(f"the files of {words!r}", (answer.status, names_in(answer), answer.lines()), (0, wanted, []))
    same("a link", git.bridge("run", "--files", "a", "link").lines(), ["left out: 1 link"])
    for words, path in ((["a", "not staged"], "not staged"), (["nowhere/x", "a"], "nowhere/x"), (["?"], "?"), (["/"], "/"), (["../x"], "../x")):
        refused(git.bridge("run", "--files", *words), f"not in the index: {path}")
    # What is staged is looked at, not what lies there.
    git.add("a", "staged\n")
    git.write("a", "BAD\n")
    git.configure("id: shows, name: Shows, language: system, entry: cat --, verbose: true")
    check("staged" in git.bridge("run", "--files", "a").out, "the working file is looked at")


def run_takes_commits(top, env):
    git = repository(top, env, names_hook("always_run: true"))
    for path in ("a", "gone", "moved", "not now"):
        git.add(path, f"{path}\n" * 9)
    git.git("commit", "--quiet", "--no-verify", "-m", "m")
    git.git("checkout", "--quiet", "-b", "side")
    git.add("a", "of side\n")
    git.add("it's \\n \"é", "x\n")
    git.add("not now", "x\n")
    git.git("rm", "--quiet", "gone")
    git.git("mv", "moved", "to here")
    git.git("commit", "--quiet", "--no-verify", "-m", "m")
    git.git("checkout", "--quiet", "main")
    git.add("of main", "x\n")
    git.git("commit", "--quiet", "--no-verify", "-m", "m")
    git.git("checkout", "--quiet", "side")
    git.git("rm", "--quiet", "--cached", "not now")
    for words in (["--from-ref", "main", "--to-ref", "side"], ["--to-ref=HEAD", "--from-ref=main"]):
        answer = git.bridge("run", *words)
        same(f"the files of {words!r}", (answer.status, names_in(answer)), (0, ["a", "it's \\n \"é", "to here"]))
    same("none", names_in(git.bridge("run", "--from-ref=HEAD", "--to-ref=HEAD")), [""])
    git.git("checkout", "--quiet", "--orphan", "other")
    git.git("commit", "--quiet", "--no-verify", "-m", "m")
    same("without a common commit", names_in(git.bridge("run", "--from-ref=main", "--to-ref=other")), ["a", "it's \\n \"é", "to here"])
    for words in (["--from-ref=nope", "--to-ref=HEAD"], ["--from-ref=HEAD", "--to-ref=--output=x"], ["--from-ref", "HEAD^{tree}", "--to-ref", "HEAD"]):
        refused(git.bridge("run", *words), "no commit of Git: ")


# ---- what is cached


def a_failure_is_not_cached(top, env):
    log = os.path.join(top, "log")
    git = repository(top, env, starts_hook(log, "x_reads: ''", "! grep -q BAD a.txt"))
    git.add("a.txt", "BAD\n")
    for count in (1, 2):
        not_made(git.commit(), "- exit code: 1")
        same("starts", starts(log), count)
    git.add("a.txt", "good\n")
    for _ in range(2):
        same("run", git.bridge("run").status, 0)
        same("starts", starts(log), 3)
    same("run --fresh", git.bridge("run", "--fresh").status, 0)
    same("starts", starts(log), 4)
    # Another store has no cached results.
    git.forget()
    same("run", git.bridge("run").status, 0)
    same("starts", starts(log), 5)


def a_hook_counts_each_file_as_read(top, env):
    """Unless its configuration says what its command reads, or that this isn't wanted."""
    log, said = os.path.join(top, "log"), os.path.join(top, "said")
    git = repository(top, env, starts_hook(log, "files: '^a'", "! grep -q BAD settings"), starts_hook(said, "files: '^a', x_reads: '^nothing$'", name="said"))
    git.add("a.txt", "a\n")
    git.add("settings", "x\n")
    made(git.commit("-m", "m"))
    git.add("a.txt", "b\n")
    same("run", git.bridge("run").status, 0)
    same("starts", (starts(log), starts(said)), (2, 2))
    git.add("settings", "BAD\n")
    same("with other settings", git.bridge("run").status, 1)
    same("starts", (starts(log), starts(said)), (3, 2))
    git.git("config", "hookhost.cautious", "false")
    git.add("a.txt", "c\n")
    same("a failure", git.bridge("run").status, 1)
    git.add("settings", "x\n")
    same("that is remembered", git.bridge("run").status, 1)
    same("starts", (starts(log), starts(said)), (4, 3))
    git.git("config", "hookhost.cautious", "true")
    same("and isn't", git.bridge("run").status, 0)


def run_tells_what_was_cached(top, env):
    git = repository(top, env, names_hook("x_reads: ''").replace(", verbose: true", ""))
    git.add("a", "a\n")
    answer = git.bridge("run", "--verbose")
    same("the first", (answer.status, names_in(answer), answer.out.splitlines()[-1]), (0, ["a"], "answered from the cache: 0"))
    answer = git.bridge("run", "-v")
    same("the second", (answer.status, names_in(answer), answer.out.splitlines()[-1]), (0, ["a"], "answered from the cache: 1"))
    answer = git.bridge("run")
    same("not told", (answer.status, names_in(answer), "cache" in answer.out), (0, [], False))


def a_report_has_colors_where_they_are_asked_for(top, env):
    git = repository(top, {**env, "PRE_COMMIT_COLOR": "always"}, "id: ends, name: Ends, language: system, entry: grep -c x, files: a, stages: [pre-commit]", "id: none, name: None, language: system, entry: 'true', files: nowhere")
    git.add("a", "x\n")
    answer = git.bridge("run")
    found = re.findall("\33\\[([0-9;]+)m(\\w+)\33\\[m$", answer.out, re.MULTILINE)
    same("the colors", (answer.status, found), (0, [("42", "Passed"), ("46;30", "Skipped")]))
    plain = re.sub("\33\\[[0-9;]*m", "", answer.out)
    for variables in ({"PRE_COMMIT_COLOR": "never"}, {"PRE_COMMIT_COLOR": "auto"}, {"PRE_COMMIT_COLOR": ""}):
        git.env = {**env, **variables}
        same(f"with {variables}", git.bridge("run").out, plain)


def answers_of_an_earlier_version_are_forgotten(top, env):
    log = os.path.join(top, "log")
    git = repository(top, env, starts_hook(log, "x_reads: ''"))
    git.add("a.txt", "a\n")
    synced = os.path.join(git.home(), "synced")
    for change, count in ((None, 1), (None, 1), (lambda text: text.removeprefix("3:"), 2), (None, 2), (lambda text: "2" + text[1:], 3), (lambda text: "", 4), (None, 4)):
        if change:
            git.write(synced, change(content(synced).decode()))
        same("run", git.bridge("run").status, 0)
        same("starts", starts(log), count)
    holds_index(git)


def a_large_store_is_made_anew(top, env):
    git = repository(top, env, WORDS)
    git.add("a.txt", "a\n")
    same("run", git.bridge("run").status, 0)
    store, size = os.path.join(git.home(), "files/.hookhost/store.db"), os.path.join(git.home(), "size")
    first = int(content(size))
    check(first <= os.path.getsize(store), "the size that is written down isn't the store's")
    for number in range(MOST_GROWTH // MOST_BYTES):
        git.add("large", bytes([number]) * MOST_BYTES)
        same("run", git.bridge("run", "words").status, 0)
    check(os.path.getsize(store) > first + MOST_GROWTH, "the store hasn't grown")
    git.git("rm", "--quiet", "--cached", "large")
    answer = git.bridge("run", "--verbose")
    same("the next run", (answer.status, answer.lines()), (0, [f"the store has grown by more than {MOST_GROWTH} bytes, so a new one is made"]))
    check(os.path.getsize(store) < 2 * first and int(content(size)) == os.path.getsize(store), "the store isn't made anew")
    same("one more", git.bridge("run", "--verbose").lines(), [])
    for text in ("", "x\n", "-1\n"):
        git.write(size, text)
        same("a size that is none", git.bridge("run").lines(), [])
    os.remove(size)
    git.add("b.txt", "b\n")
    same("without a size", git.bridge("run").lines(), [])
    same("the size", int(content(size)), os.path.getsize(store))
    holds_index(git)


# ---- the program, and the configuration


def an_older_program(top, env):
    git = repository(top, env)
    program = os.path.join(top, "program")
    git.write(program, f'#!/bin/sh\ncase $* in "run --help") echo "Usage: hookhost run [--fresh]"; exit 2 ;; esac\nexec {quoted(PROGRAM)} "$@"\n', 0o755)
    for config in ("true", "false"):
        git.git("config", "hookhost.cautious", config)
        for words in ("run", "install"):
            refused(git.bridge(words, env={"HOOKHOST": program}), f"hookhost is older than hookhost-git, which needs one that knows 'run --cautious': {program}")


def a_refused_configuration_is_explained(top, env):
    git = repository(top, env)
    git.add(CONFIGURATION, "repos:\n- repo: local\n  hooks:\n  - {id: a, name: A, language: pyhton, entry: a}\n")
    wanted = git.run(PROGRAM, "explain").out
    check(wanted.startswith(f"{CONFIGURATION}:4: hook 1 (`a`): `language` is the text `pyhton`"), wanted)
    # The staged one is reported.
    git.write(CONFIGURATION, "")
    for answer in (git.bridge("run"), git.commit()):
        refused(answer, "hookhost: refused: 8 BadConfig ", wanted, "hookhost refused, so nothing was checked", status=answer.status)
        check(answer.status == 3 or not answer.is_made, f"{answer!r}")
    refused(git.bridge("run", cwd="."), wanted)
    git.add(CONFIGURATION, configuration(BLANKS))
    program = os.path.join(top, "program")
    git.write(program, f'#!/bin/sh\ncase $1:$2 in run*:--help) ;; run*) exit 3 ;; esac\nexec {quoted(PROGRAM)} "$@"\n', 0o755)
    same("another refusal", git.bridge("run", env={"HOOKHOST": program}).lines(), ["hookhost refused, so nothing was checked"])


def install_lists_stages(top, env):
    git = Repository.made(os.path.join(top, "git"), env)
    installed = f"installed: {git.folder}/.git/hooks/pre-commit\n"
    hooks = [BLANKS + ", stages: [pre-commit, pre-push]", WORDS, "id: subject, name: S, language: system, entry: s, stages: [commit-msg]",
             "id: 'push `x`', name: P, language: system, entry: s, stages: [pre-push, post-checkout]", "id: by hand, name: H, language: system, entry: s, stages: [manual, commit-msg]"]
    unserved = "not served: pre-push, post-checkout\n"
    rows = [
        (None, "", "hookhost-git: there is no .pre-commit-config.yaml yet: each commit is refused until one is in the index\n"),
        (configuration(*hooks), "runs: pre-commit (2 hooks)\nnot run: commit-msg (subject, by hand), manual (by hand), other stages (push `x`)\n" + unserved, ""),
        (configuration(hooks[2]), "runs: nothing, since no hook has the stage pre-commit\nnot run: commit-msg (subject)\n", ""),
        (configuration(BLANKS), "runs: pre-commit (1 hook)\n", ""),
        ("repos: 1\n", "", None),
    ]
    for text, out, err in rows:
        if text is not None:
            git.write(CONFIGURATION, text)
        told = git.run(PROGRAM, "explain").out + "hookhost-git: each commit is refused until .pre-commit-config.yaml is one that hookhost takes, or pre-commit is installed, for hooks of other repositories\n" if err is None else err
        for folder in ("", "sub"):
            os.makedirs(os.path.join(git.folder, folder), exist_ok=True)
            answer = git.bridge("install", "--hook-type", "pre-commit", cwd=folder)
            same(f"install with {text!r}", (answer.status, answer.out, answer.err), (0, installed + out, told))
    # If none lies there, the staged one is reported.
    git.add(CONFIGURATION, configuration(BLANKS))
    os.remove(os.path.join(git.folder, CONFIGURATION))
    same("the staged one", git.bridge("install").out, installed + "runs: pre-commit (1 hook)\n")


CASES = [
    run_takes_an_id, run_takes_files, run_takes_commits, a_failure_is_not_cached, a_hook_counts_each_file_as_read, run_tells_what_was_cached,
    a_report_has_colors_where_they_are_asked_for, answers_of_an_earlier_version_are_forgotten, a_large_store_is_made_anew, an_older_program, a_refused_configuration_is_explained, install_lists_stages,
]
