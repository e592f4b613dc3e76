"""Lists of commands that a host of commit_flow makes at one call, over children of which one call fails. The call is

play fused KTH FAULT CHILD.. COMMAND..

with the commands of `crates/hook_trial/src/plays.rt`. Each play of tests/shared/host_plays.py is made with each fault at its first
call, at its second, and so on, until no call failed. The command in which one did is made again at once, and then the play goes on.
Its answer is given after that command, after the same again, and at the end. The hook failed with the fault's line, its child isn't
cached and is started again, and the counts are those of the calls.

The answers are those of tests/shared/host_model.py. They are also compared with a host of the model that caches nothing and whose
children never fail, on the repository as it then is. The repeated command has to reply what that one does."""
from host_model import FAULTS, Committed, call_of, played
from host_plays import FRESH_RUN, PLAYS, commands_of, host_of, words_of

PROGRAM = "hook_trial"


def fused_command(hooks, commands, kth):
    """The index of the command in which the call of this number is made, or None."""
    host = host_of(hooks)
    for at, command in enumerate(commands):
        host.reply(call_of(command))
        if host.memory.calls >= kth:
            return at
    return None


def check_from_scratch(hooks, commands, at, kth, said):
    """Checks that the model itself gives these plays the same answers from scratch."""
    host, scratch = host_of(hooks, kth=kth, fault=said), host_of(hooks)
    replies = [host.reply(call_of(command)) for command in commands[:at + 1]]
    memory, is_made = host.memory, isinstance(replies[-1], Committed)
    assert b"".join(reply.told() for reply in replies).count(f"- fault: {said}\n".encode()) == memory.faults == 1
    # What was cached before a fresh run still is.
    assert (memory.fused in memory.book) == (commands[at] == FRESH_RUN)
    scratch.history, scratch.staged, scratch.fixes, calls = host.history, host.staged, host.fixes, memory.calls
    assert host.reply(call_of(commands[at])) == scratch.reply(call_of(commands[at]))
    # The hook after a commit isn't asked by the same commit, which is none any more; all others are started again.
    assert memory.faults == 1 and (is_made or memory.calls > calls and memory.fused in memory.book)


def row(hooks, commands, kth, fault, said):
    return "play", "fused", str(kth), fault, *words_of(commands), played(host_of(hooks, kth=kth, fault=said), commands)


def fused_rows(hooks, commands, said, fault):
    """The rows of a play whose calls fail in turn, and of the play in which none does any more."""
    for kth in range(1, 100):
        at = fused_command(hooks, commands, kth)
        if at is None:
            yield row(hooks, commands, kth, fault, said)
            return
        check_from_scratch(hooks, commands, at, kth, said)
        again = [*commands[:at + 1], *commands[at:]]
        yield from (row(hooks, again[:end], kth, fault, said) for end in (at + 1, at + 2, len(again)))


ROWS = [each for hooks, commands in PLAYS for said, fault in FAULTS.items() for each in fused_rows(hooks, commands_of(hooks, commands), said, fault)]
