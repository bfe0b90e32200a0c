"""SIGKILL of `watchmand lines` in the middle of watches and triggers, again and again: no command that was answered is lost.
Each start finds the registry after the answered commands and the first of those in flight, and nothing else. Also SIGKILL of
migrations: afterwards one of the two files has all that was answered."""
import os, random, subprocess, time

from registry import after_all, found, is_finished, migrate, prefix_found
from server import check, folder, lines_of, new_state, programs


def command(rng):
    """A request that changes watches or triggers, or nothing."""
    root, name = f"/r{rng.randrange(6)}", f"t{rng.randrange(3)}"
    kind = rng.choice(["watch", "watch", "watch-del", "trigger", "trigger", "trigger", "trigger-del"])
    if kind == "trigger":
        return [kind, root, {"name": name, "command": ["true"] * rng.randrange(1, 4)}]
    return [kind, root, name] if kind == "trigger-del" else [kind, root]


def killed(path, rng):
    """Sends commands and kills the program; the commands that were answered, and those in flight."""
    lines = [command(rng) for _ in range(rng.randrange(1, 60))]
    process = subprocess.Popen([programs.watchmand, "lines", path], stdin=subprocess.PIPE, stdout=subprocess.PIPE)
    os.write(process.stdin.fileno(), lines_of(lines).encode())
    # the kill comes after a number of replies, in the middle of the commands that follow
    answers, wanted = b"", rng.randrange(len(lines) + 1)
    while answers.count(b"\n") < wanted:
        answers += os.read(process.stdout.fileno(), rng.randrange(1, 4096))
    for _ in range(rng.randrange(2000)):
        pass
    process.kill()
    process.stdin.close()
    answers += process.stdout.read()
    process.wait()
    answered = answers.count(b"\n")
    return lines[:answered], lines[answered:]


def session_killed(path, state, rng):
    """The registry after a killed session, as a model and as a start finds it; how many commands were answered, and how many of
    those in flight were kept."""
    answered, in_flight = killed(path, rng)
    state, there = after_all(state, answered), found(programs.watchmand, path)
    kept = prefix_found(state, in_flight, there)
    assert kept is not None, f"a start found {there!r}, not {state!r} with some of {in_flight!r}"
    return after_all(state, in_flight[:kept]), there, len(answered), kept


def sessions(kills, version):
    """So many kills over one file of the version."""
    rng = random.Random(f"{programs.seed} of version {version}")
    answered_in_all, kept_in_flight, state = 0, 0, {}
    with folder() as made:
        new_state(programs.watchmand, f"{made}/state", version)
        for _ in range(kills):
            state, _, answered, kept = session_killed(f"{made}/state", state, rng)
            answered_in_all += answered
            kept_in_flight += kept > 0
    check(f"version {version}: {kills} kills, {answered_in_all} commands answered, none lost; "
          f"{kept_in_flight} times one in flight was kept", answered_in_all)


def whole_migration(made):
    """How long a migration takes that isn't killed."""
    old, new = f"{made}/timed_old", f"{made}/timed_new"
    new_state(programs.watchmand, old, 1)
    began = time.monotonic()
    ended = migrate(programs.watchmand, old, new)
    seconds = time.monotonic() - began
    assert ended.returncode == 0, ended
    os.remove(old)
    os.remove(new)
    return seconds


def version_2():
    sessions(programs.rounds, 2)


def version_1():
    sessions((programs.rounds + 3) // 4, 1)


def migrations():
    """Migrations that are killed at some moment, each after a session that was killed too."""
    rng, count, retired, refused_new = random.Random(f"{programs.seed} of migrations"), (programs.rounds + 3) // 4, 0, 0
    with folder() as made:
        old, new = f"{made}/old", f"{made}/new"
        for number in range(count):
            new_state(programs.watchmand, old, 1)
            seconds = whole_migration(made)
            # the registry that a start finds then is that which has to be moved
            _, there, _, _ = session_killed(old, {}, rng)
            for _ in range(rng.choice([1, 1, 2])):
                process = subprocess.Popen([programs.watchmand, "migrate", old, new], stdout=subprocess.DEVNULL)
                time.sleep(rng.random() * seconds)
                process.kill()
                process.wait()
            refused_new += not os.path.exists(new)
            retired += is_finished(programs.watchmand, old, new, there, f"migration {number}")
            os.remove(new)
            os.remove(old)
    check(f"{count} migrations killed, {refused_new} before the new file was there and {retired} after the end of the old one: "
          "nothing lost", True)


CASES = [version_2, version_1, migrations]
