"""Cases of tests/store/store.py: stories, line by line, and random plays that are compared with the model, in files that sqlite3 reads
afterwards; and plays that are killed.
"""
import copy
import os
import random
import subprocess

from store_cases import (ANSWER_ROWS, ANSWER_ROWS_LEFT, BAD_LINES, CHILDREN, COMMITTED_ROWS, EDITABLE, EDITABLE_COUNTS,
                         EDITED, EDITED_COUNTS, EDITS, FACTS, FAULTS, FIXES_AFTER, FOUR_CHILDREN, FOUR_STORY,
                         HOOKS_STORY, HOST_STORY, KEPT_ROWS, LARGE_EDITS, LATER_REFUSED_EDITS, META_ROWS, NOT_A_STORE,
                         ONE_STAGED, REFUSED_EDITS, REPLACED_META_ROWS, RUN_CHILDREN, RUN_STORY, SHOWN, SQL, STORY,
                         TAKEN_ROWS, UNSTAGED_STORY, USE_ROWS, USE_ROWS_LEFT)
from store_model import Model, model_of, random_play
from store_program import (PROGRAM, answered_until_killed, answers, ask, check, check_file, check_story, rows_of,
                           rows_of_model, run, run_words, seconds_of, shown)


def plays_the_story(folder):
    path = os.path.join(folder, "store.db")
    lines = [line for line, _ in STORY]
    check_story(STORY, answers(path, [*lines, "close"]))
    model = model_of(lines)
    check(shown(path) == model.shown(), f"opened again it shows {shown(path)!r}, wanted {model.shown()!r}")
    check_file(path, model.store)


def plays_the_story_of_an_unstaged_file(folder):
    path = os.path.join(folder, "store.db")
    check_story(UNSTAGED_STORY, answers(path, [line for line, _ in UNSTAGED_STORY]))


def plays_the_story_of_a_host(folder):
    path = os.path.join(folder, "store.db")
    large = "1" * 16777217
    story = [*HOST_STORY, (f"add - /a {large}", "refused\t3\tBadPath\t2"),
             (f"add - a.txt/b {large}", "refused\t5\tTooLarge\tnone"), (f"add - a.txt {large[1:]}", "ok"),
             ("weigh", "ok\t2\t16777220")]
    check_story(story, answers(path, [line for line, _ in story]))


# How many contents, staged files and fixes a file has.
COUNTS = "SELECT (SELECT count(*) FROM blobs), (SELECT count(*) FROM staged), (SELECT count(*) FROM fixes)"


def makes_several_changes_at_once(folder):
    for word in ("edit-all", "stage-all"):
        path = os.path.join(folder, f"{word}.db")
        lines = ["create", *(line for edits, _ in EDITS for line in (f"{word} {edits}", "staged"))]
        wanted = ["ok", *(answer for _, staged in EDITS for answer in ("ok", staged))]
        check_story(list(zip(lines, wanted)), answers(path, [*lines, "close"]))
        check(ask(path, COUNTS) == [EDITED_COUNTS], f"{word}: sqlite3 counts {ask(path, COUNTS)!r}")
        check_file(path, model_of(lines).store)


def makes_none_of_several_changes_where_one_is_refused(folder):
    """One change is refused at any place among the others, and by any refusal. The file, the fixes and the contents are as they were."""
    each = [(" | ".join([*EDITABLE[:at], edit, *EDITABLE[at:]]), *refusals, at)
            for edit, *refusals in [*REFUSED_EDITS, *LARGE_EDITS] for at in range(len(EDITABLE) + 1)]
    for by_store, word in enumerate(["edit-all", "stage-all"]):
        path, model = os.path.join(folder, f"{word}.db"), model_of(EDITED)
        refused = [(f"{word} {edits}", f"refused\t{refusals[by_store]}\tat\t{at}")
                   for edits, *refusals, at in [*each, *LATER_REFUSED_EDITS]]
        given = answers(path, [*EDITED, *(line for line, _ in refused), *SHOWN, "close"])[len(EDITED):]
        check_story(refused, given)
        for line, wanted in refused:
            check(model.play(line) == wanted, f"the model answers {line[:200]!r} otherwise")
        check(given[len(refused):-1] == model.shown(), f"{word}: a refusal leaves {given[len(refused):]!r}")
        check(ask(path, COUNTS) == EDITABLE_COUNTS[:1], f"{word}: sqlite3 counts {ask(path, COUNTS)!r} after refusals")
        check_file(path, model_of(EDITED).store)
        made = f"{word} {' | '.join(EDITABLE)}"
        check(answers(path, ["open", made, "close"]) == ["ok"] * 3, f"{word}: the changes alone are refused")
        check(model.play(made) == "ok", f"{word}: the model refuses the changes alone")
        check(ask(path, COUNTS) == EDITABLE_COUNTS[1:], f"{word}: sqlite3 counts {ask(path, COUNTS)!r} then")
        check_file(path, model.store)


def plays_the_stories_of_hooks(folder):
    stories = [(CHILDREN, HOOKS_STORY), (FOUR_CHILDREN, FOUR_STORY), (RUN_CHILDREN, RUN_STORY)]
    for at, (children, told) in enumerate(stories):
        path, model = os.path.join(folder, f"{at}.db"), Model()
        story = [*((line, "ok") for line in children), *told]
        check_story(story, answers(path, [line for line, _ in story]))
        for line, wanted in story:
            check(model.play(line) == wanted, f"the model answers {line!r} otherwise")


def keeps_fixes_of_staged_files_until_the_next_stage(folder):
    for at, (lines, wanted) in enumerate(FIXES_AFTER):
        given = answers(os.path.join(folder, f"{at}.db"), ["create", "stage plain a.txt 1", *lines, "fixes"])
        check(given == ["ok"] * (len(lines) + 2) + [wanted], f"{lines!r} are answered {given!r}")


def numbers_and_says_each_refusal(folder):
    given = answers(os.path.join(folder, "none.db"), ["faults"])
    check(given == ["\t".join(["ok", *(field for fault in FAULTS for field in fault)])], f"answered {given!r}")


def reads_rows_in_the_order_of_their_keys(folder):
    filled = [*META_ROWS, *KEPT_ROWS, *TAKEN_ROWS, *COMMITTED_ROWS, *ANSWER_ROWS, *USE_ROWS]
    changed = [*REPLACED_META_ROWS, *KEPT_ROWS, *TAKEN_ROWS, *COMMITTED_ROWS, *ANSWER_ROWS_LEFT, *USE_ROWS_LEFT]
    left = [*REPLACED_META_ROWS, *KEPT_ROWS, *COMMITTED_ROWS]
    rows = [*filled, ("changed",), *changed, ("emptied",), *left]
    wanted = "\t".join(["ok", *(field for row in rows for field in row)])
    for words in ([os.path.join(folder, "tables.db")], ["log", "100000"]):
        given, status, _ = run_words(words, ["play-tables", "open"])
        check(status == 0 and given[:1] == [wanted], f"answered {given!r}")
        check(given[1] == NOT_A_STORE, f"tables that weren't committed are there: {given[1]!r}")


def keeps_each_content_once(folder):
    path = os.path.join(folder, "store.db")
    answers(path, ["create", "stage plain a.txt 1", "stage plain b.txt 1", "commit m\\n", "close"])
    counts = [ask(path, f"SELECT count(*) FROM {table}") for table in ("blobs", "commits", "entries")]
    check(counts == [["1"], ["1"], ["2"]], f"blobs, commits and entries number {counts!r}")


def plays_as_the_model(folder):
    """Each line, opened again here and there, and now and then as a store of version 1."""
    for seed in range(20):
        path = os.path.join(folder, f"{seed}.db")
        model, lines, wanted = Model(), [], []
        for line in random_play(seed, 60):
            lines.append(line)
            wanted.append(model.play(line))
            if model.is_open:
                lines += [*SHOWN, *FACTS]
                wanted += [*model.shown(), *(model.play(fact) for fact in FACTS)]
        check_story(list(zip(lines, wanted)), answers(path, lines), f"play {seed}: ")
        check(shown(path) == model.shown(), f"play {seed} isn't the same when it is opened again")
        check_file(path, model.store)


def refuses_bad_lines(folder):
    for at, line in enumerate(BAD_LINES):
        path = os.path.join(folder, f"{at}.db")
        found = run(path, ["create", "stage plain a.txt 1", line])
        check(found == (["ok", "ok"], 2, "store_trial: this line can't be played\n"), f"{line!r}: {found!r}")
        check(shown(path) == ONE_STAGED, f"{line!r} leaves {shown(path)!r}")
    for words in ([], ["log", "x"], ["disk", "1"], ["log", "1", "2"]):
        done = subprocess.run([PROGRAM, *words], capture_output=True, stdin=subprocess.DEVNULL)
        check(done.returncode == 2, f"the words {words!r} aren't refused")


def refuses_a_second_store(folder):
    path = os.path.join(folder, "store.db")
    lines = [line for line, _ in STORY]
    answers(path, [*lines, "close"])
    given = answers(path, ["create", "staged"])
    check(given[0].startswith(SQL) and given[1] == "no store", f"a second store is answered {given!r}")
    check_file(path, model_of(lines).store)


# ---- plays that are killed

def state_when_opened(model):
    """What the store shows that a model has, and the rows that it has then."""
    opened = copy.deepcopy(model)
    opened.open()
    return opened.shown(), rows_of_model(opened.store)


def is_left_whole_by_a_kill(folder):
    """Killed at random moments, the store is the one after some calls, at least those that were answered, in what it shows and in its
    rows. There are contents in these that no file has."""
    chance = random.Random(1)
    lines = random_play(7, 600)
    # The least of three, so that a busy moment doesn't put the kills after the play's end; and a second at most.
    whole = min(1.0, *(seconds_of(os.path.join(folder, f"whole{at}.db"), lines) for at in range(3)))
    states, model, in_play = [[(None, None)]], Model(), 0
    for line in lines:
        model.play(line)
        states.append(model.states(state_when_opened))
    for number in range(40):
        path = os.path.join(folder, f"{number}.db")
        answered = answered_until_killed(path, lines, chance.uniform(0.002, whole))
        opened = answers(path, ["open", *SHOWN])
        found = opened[1:] if opened[0] == "ok" else None
        check(found is not None or opened[0] == NOT_A_STORE, f"kill {number}: {opened[0]!r}")
        state = (found, rows_of(path) if found else None)
        check(state in [states[answered][-1], *states[min(answered + 1, len(lines))]],
              f"kill {number} after {answered} answers: it is {state!r}")
        in_play += 0 < answered < len(lines)
    check(in_play > 0, "no kill came in mid-play")
    print(f"kills: {in_play} of 40 came in mid-play")


CASES = [plays_the_story, plays_the_story_of_an_unstaged_file, plays_the_story_of_a_host, makes_several_changes_at_once,
         makes_none_of_several_changes_where_one_is_refused, plays_the_stories_of_hooks,
         keeps_fixes_of_staged_files_until_the_next_stage, numbers_and_says_each_refusal,
         reads_rows_in_the_order_of_their_keys, keeps_each_content_once, plays_as_the_model, refuses_bad_lines,
         refuses_a_second_store, is_left_whole_by_a_kill]
