"""Each call that `watchmand lines` makes of its state file fails once: reads, writes and syncs with EIO, writes and syncs with
ENOSPC too (by strace), and writes are cut short (by a limit on the file's size in the middle of each; after it nothing is
written). The program says so, and nothing that was answered is lost: a start finds the registry after the answered commands,
perhaps with the one that failed.

The session is short, and has a checkpoint in its middle. It runs over a file of version 2, and with a third of the faults over
one of version 1. Then a file of version 1 is migrated: each call of the two files fails once, and the program is killed at each;
of the writes of zeros some do. One of the two files then has all that was answered, and a further migration finishes."""
import json, os, re, resource, shutil, signal

from registry import MIGRATED, after, found, is_finished, migrate, ordered
from server import check, folder, new_state, outcome, programs, run_lines

WORD = ["a" * 1000] * 3
COMMANDS = [
    ["watch", "/b"], *(["trigger", "/r", {"name": f"t{i}", "command": [*WORD, str(i)]}] for i in range(6)),
    ["trigger-del", "/r", "t1"], ["watch", "/c"], ["watch-del", "/b"],
]
CALLS = {"pread64": ["EIO"], "pwrite64": ["EIO", "ENOSPC"], "fdatasync": ["EIO", "ENOSPC"], "fsync": ["EIO", "ENOSPC"]}
CALLS_OF_MIGRATION = {"pread64": ["EIO"], "pwrite64": ["EIO", "ENOSPC"], "fdatasync": ["EIO"], "fsync": ["EIO"]}
# Of the writes of a migration so many come first that write zeros.
ZEROS = 137
FAILED = (1, "", "watchmand: 13 DeviceFailed\n")


def traced(path, lines, log):
    """The calls of the state file in a session without a fault, in order: name, place and count of bytes. Also the replies."""
    ended = run_lines(programs.watchmand, path, lines, "strace", "-o", log, "-y", "-e", "trace=" + ",".join(CALLS))
    assert ended.returncode == 0, ended.stderr
    calls = []
    with open(log) as text:
        for line in text:
            call = re.match(r"(\w+)\(\d+<([^>]*)>", line)
            if call and call.group(2) == os.path.realpath(path):
                place = re.search(r", (\d+), (\d+)\) += ", line)
                calls.append((call.group(1), int(place.group(2)) if place else 0, int(place.group(1)) if place else 0))
    return calls, [json.loads(reply) for reply in ended.stdout.splitlines()]


def nearly_full(path, made, version):
    """A state file of the version whose journal has room for a few of the commands: as many big commands as come before the
    checkpoint, less three. A jump of the places of the writes shows the checkpoint. The registry that the file has."""
    big = [["watch", "/r"], *(["trigger", "/r", {"name": "t", "command": [*WORD, str(i)]}] for i in range(120))]
    new_state(programs.watchmand, path, version)
    calls, _ = traced(path, big, f"{made}/calls")
    places = [place for name, place, _ in calls if name == "pwrite64"]
    turn = next(i for i in range(1, len(places)) if abs(places[i] - places[i - 1]) > 100_000)
    os.remove(path)
    new_state(programs.watchmand, path, version)
    # the start makes two writes, and each command two; the last of three kilobytes each has to find no room
    kept = big[: (turn - 2) // 2 - 3]
    assert run_lines(programs.watchmand, path, kept).returncode == 0
    return {"/r": {"t": kept[-1][2]["command"]}}


def judge(path, state, ended, wanted, what):
    """The answered commands are found, and the program reported the failure. Whether the command that failed is found too."""
    replies, answered = [json.loads(reply) for reply in ended.stdout.splitlines()], 0
    while answered < len(replies) and replies[answered] == wanted[answered]:
        state = after(state, COMMANDS[answered])
        answered += 1
    refused = [int(reply.get("error", "0 Answered").split()[0]) for reply in replies[answered:]]
    says_so = ended.returncode == 1 and re.search(r"watchmand: 1[23] ", ended.stderr)
    is_whole = answered + len(refused) in (0, len(COMMANDS))
    assert says_so and is_whole and refused == [13, *[12] * 9][: len(refused)], f"{what}: {refused}, {ended}"
    there = found(programs.watchmand, path)
    if there == ordered(state):
        return False
    assert refused and there == ordered(after(state,
                                              COMMANDS[answered])), f"{what}: after {answered} answers a start found {there!r}"
    return True


def faults_at(calls, step):
    """The faults for strace: each call that was made with each of its errors, or each third call (a step of 3)."""
    for name, errors in CALLS.items():
        for number in range(1, 1 + sum(call[0] == name for call in calls), step):
            for error in errors:
                yield name, "inject=%s:error=%s:when=%d" % (name, error, number)


def cuts_at(calls, step):
    """The middle of each write of several bytes, or of each third."""
    writes = [(place, count) for name, place, count in calls if name == "pwrite64" and count > 1]
    return [place + count // 2 for place, count in writes[::step]]


def limited(limit):
    # else the write would be the process's end, which is a crash
    signal.signal(signal.SIGXFSZ, signal.SIG_IGN)
    resource.setrlimit(resource.RLIMIT_FSIZE, (limit, limit))


def sweep(version, step):
    """The session over a file of the version, with a fault at each call, or at each third."""
    with folder() as made:
        base, path = f"{made}/base", f"{made}/state"
        state = nearly_full(base, made, version)
        calls, wanted = traced(shutil.copyfile(base, path), COMMANDS, f"{made}/calls")
        assert len(wanted) == len(COMMANDS) and not any("error" in reply for reply in wanted), wanted
        assert len([place for name, place, _ in calls if name == "pwrite64"]) > 2 * len(COMMANDS) + 2, "no checkpoint"
        runs, kept, cuts = 0, 0, cuts_at(calls, step)
        for name, inject in faults_at(calls, step):
            tracer = ["strace", "-o", "/dev/null", "-e", "trace=" + name, "-e", inject, "-P", path]
            ended = run_lines(programs.watchmand, shutil.copyfile(base, path), COMMANDS, *tracer)
            kept += judge(path, state, ended, wanted, inject)
            runs += 1
        check(f"version {version}: {runs} calls failed once, {kept} times the command that failed was kept", runs)
        for limit in cuts:
            ended = run_lines(programs.watchmand, shutil.copyfile(base, path), COMMANDS, preexec_fn=lambda: limited(limit))
            judge(path, state, ended, wanted, f"a write cut at {limit}")
        check(f"version {version}: {len(cuts)} times writing was cut short", cuts)


def chosen(name, count):
    """The numbers of the calls that are tried: of the writes of zeros the first, the last and each fifteenth."""
    return [number for number in range(1, count + 1) if name != "pwrite64" or number >= ZEROS or number % 15 == 1]


class Migration:
    """A migration of a file that is new each time."""

    def __init__(self, made):
        self.base, self.old, self.new = (f"{made}/{name}" for name in ("base", "old", "new"))
        self.tracer = ["strace", "-P", self.old, "-P", self.new, "-P", made]
        nearly_full(self.base, made, 1)
        assert run_lines(programs.watchmand, self.base, COMMANDS).returncode == 0
        self.wanted = found(programs.watchmand, self.base)

    def run(self, *before, **how):
        shutil.copyfile(self.base, self.old)
        if os.path.exists(self.new):
            os.remove(self.new)
        return migrate(programs.watchmand, self.old, self.new, *before, **how)

    def counts(self, log):
        """How many calls of each kind it makes of the two files and of their folder."""
        ended = self.run(*self.tracer, "-o", log, "-e", "trace=" + ",".join(CALLS_OF_MIGRATION))
        assert outcome(ended)[:2] == MIGRATED[:2], ended
        with open(log) as text:
            names = re.findall(r"^(\w+)\(", text.read(), re.M)
        return {name: names.count(name) for name in CALLS_OF_MIGRATION}

    def was_retired(self, what):
        """Whether the old file was retired; one of the two has the registry, and a further migration finishes."""
        return is_finished(programs.watchmand, self.old, self.new, self.wanted, what)


def migration_with_faults(migration, made):
    counts = migration.counts(f"{made}/calls")
    assert counts["pwrite64"] > ZEROS and all(counts.values()), counts
    for name, errors in CALLS_OF_MIGRATION.items():
        for number in chosen(name, counts[name]):
            for how in [*(f"error={error}" for error in errors), "signal=SIGKILL"]:
                what = f"inject={name}:{how}:when={number}"
                ended = migration.run(*migration.tracer, "-o", "/dev/null", "-e", f"trace={name}", "-e", what)
                is_killed = how == "signal=SIGKILL"
                assert outcome(ended)[:2] == (-signal.SIGKILL, "") if is_killed else outcome(ended) == FAILED, f"{what}: {ended}"
                yield is_killed, migration.was_retired(what)


def migrations():
    """A migration in which each call fails once, one that is killed at each call, and some whose files can't grow."""
    with folder() as made:
        migration = Migration(made)
        runs = list(migration_with_faults(migration, made))
        killed, retired = sum(run[0] for run in runs), sum(run[1] for run in runs)
        check(f"a migration: {len(runs) - killed} calls failed once, {killed} times it was killed, {retired} times the old file "
              "was retired then", killed)
        limits = [5_000, 2_625_536, 4_194_304, 8_916_991]
        for limit in limits:
            ended = migration.run(preexec_fn=lambda: limited(limit))
            assert outcome(ended) == FAILED, f"a limit of {limit}: {ended}"
            assert not migration.was_retired(f"a limit of {limit}"), "the old file was retired"
        check(f"a migration: {len(limits)} times writing was cut short", True)


def version_2():
    sweep(2, 1)


def version_1():
    sweep(1, 3)


CASES = [version_2, version_1, migrations]
