"""A model of the registry: the roots in the order in which they were watched, each with its triggers in the order in which they
were first defined. Also `watchmand migrate`, and whether a migration that was cut left all of the registry."""
import json, subprocess

from server import outcome, replies, run_lines

RETIRED = (1, "", "watchmand: 20 Retired\n")
MIGRATED = (0, "migrated\n", "")


def after(state, line):
    """The registry after a request, as a dictionary of roots, each with a dictionary of its triggers' commands."""
    kind, root = line[0], line[1]
    state = {path: dict(triggers) for path, triggers in state.items()}
    if kind == "watch":
        state.setdefault(root, {})
    elif kind == "watch-del":
        state.pop(root, None)
    elif root in state and kind == "trigger":
        state[root][line[2]["name"]] = line[2]["command"]
    elif root in state:
        state[root].pop(line[2], None)
    return state


def after_all(state, lines):
    for line in lines:
        state = after(state, line)
    return state


def ordered(state):
    """A registry as `found` gives it."""
    return [(path, list(triggers.items())) for path, triggers in state.items()]


def found(program, path):
    """The roots that a start over the file lists, in order, each with its triggers' names and commands; None if it is retired."""
    listed = run_lines(program, path, [["watch-list"]])
    if outcome(listed) == RETIRED:
        return None
    assert listed.returncode == 0, f"a start over {path} failed: {listed.stderr}"
    roots = json.loads(listed.stdout)["roots"]
    triggers = replies(program, path, [["trigger-list", root] for root in roots])
    return [(root, [(it["name"], it["command"]) for it in reply["triggers"]]) for root, reply in zip(roots, triggers)]


def prefix_found(state, in_flight, there):
    """How many of the commands in flight lead from the state to the registry that was found; None if no number of them does."""
    for kept in range(len(in_flight) + 1):
        if ordered(after_all(state, in_flight[:kept])) == there:
            return kept
    return None


def migrate(program, old, new, *before, **how):
    """One call, after the words of a tracer if there are any."""
    return subprocess.run([*before, program, "migrate", old, new], capture_output=True, text=True, **how)


def is_finished(program, old, new, wanted, what):
    """After a migration that was cut the old file has the registry, or it is retired and the new file has it. A further migration
    finishes, and then the new file has it. Whether the old file was retired before that."""
    kept = found(program, old)
    was_retired = kept is None
    if was_retired:
        kept = found(program, new)
    assert kept == wanted, f"{what}: the {'new' if was_retired else 'old'} file has {kept!r}, not {wanted!r}"
    ended = migrate(program, old, new)
    assert outcome(ended) == MIGRATED, f"{what}: a further migration ended {ended!r}"
    assert found(program, old) is None, f"{what}: the old file isn't retired after a further migration"
    kept = found(program, new)
    assert kept == wanted, f"{what}: after a further migration the new file has {kept!r}, not {wanted!r}"
    return was_retired
