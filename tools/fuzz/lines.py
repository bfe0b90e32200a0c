"""Sessions of request lines through `watchmand lines`, each reply compared with the model's, for tools/fuzz/fuzz.py.

A run is some sessions over one file. A session is its lines and its end: at the end of input, or by a kill. After each the
file is read too."""
import itertools, os, subprocess, threading
from make import Maker
from model import Session, lines_of
from mutate import line_of, long_line, nested, spoilt
from server import new_state
from state_file import is_same, meaning
from watches import empty

# A session that takes longer hangs.
SECONDS = 120
# This follows the end of a session over a file of version 1.
FIRST = " over a file of version 1"


class Difference(Exception):
    """A difference between the program and the model, as a text."""


def crowd(rng):
    """Lines beyond the limits of roots, triggers, cursors and subscriptions."""
    kind = rng.randrange(4)
    start = [["watch", "/r"], ["listing", "/r", 0, "", []]]
    if kind == 0:
        roots = [["watch", "/r%d" % number] for number in range(258)]
        return roots + [["watch-del", "/r7"], ["watch", "/r3"], ["watch", "/s"], ["watch", "/t"]]
    if kind == 1:
        triggers = [["trigger", "/r", {"name": "t%d" % number, "command": ["true"]}] for number in range(66)]
        return start + triggers + [["trigger-del", "/r", "t5"], ["trigger", "/r", {"name": "u", "command": ["a"]}]]
    if kind == 2:
        cursors = [["since", "/r", "n:%d" % number] for number in range(258)]
        return start + cursors + [["since", "/r", "n:7"], ["query", "/r", {"since": "n:x"}]]
    subscriptions = [["subscribe", "/r", "s%d" % number, {}] for number in range(34)]
    return start + subscriptions + [["subscribe", "/r", "s0", {}], ["unsubscribe", "/r", "s1"], ["subscribe", "/r", "new", {}]]


def many_pairs(rng):
    """An observation of 65,536 pairs and one more."""
    pairs = [["a", None]] * 65535 + [["a", {"mtime_ms": 0, "size": 1, "type": "f"}]]
    return [["watch", "/r"], ["listing", "/r", 0, "", []], ["observe", "/r", pairs],
            ["observe", "/r", pairs + [["b", None]]], ["since", "/r", "c:1:1:1"]]


def large(rng):
    """A listing of some thousand paths, a second one of a part, and questions about the changes."""
    path = lambda number: "%s/%x" % (rng.choice(["a", "b", "a/b"]), number)
    one = lambda size: {"mtime_ms": 0, "size": size, "type": "f"}
    names = list(dict.fromkeys(path(number) for number in range(rng.choice([3000, 12000]))))
    part = [[name, one(rng.choice([1, 1, 1, 2]))] for name in names if name.startswith("a/") and rng.random() < 0.9]
    return [["watch", "/r"], ["listing", "/r", 0, "", [[name, one(1)] for name in names]],
            ["observe", "/r", [[name, None] for name in names[:2000]]],
            ["listing", "/r", 1, "a", part], ["since", "/r", "c:1:1:1"], ["age-out", "/r", 0],
            ["query", "/r", {"fields": ["name", "oclock"]}]]


def fill(rng, version):
    """Triggers up to the last byte that a registry may have, if no other root is watched."""
    one = lambda root, name, words: ["trigger", root, {"name": name, "command": words}]
    roots, words, size = ([("/r", 63)], 11, 157) if version == 1 else ([("/r", 64), ("/s", 64), ("/t", 64), ("/u", 62)], 12, 497)
    made = []
    for root, count in roots:
        made += [["watch", root]] + [one(root, "%02d" % number, ["w" * 1024] * 16) for number in range(count)]
    last, count = roots[-1]
    made += [one(last, str(count), ["w" * 1024] * words + ["x" * (size + more)]) for more in rng.sample([-2, -1, 0, 1, 2], 3)]
    return made + [["watch", "/v"]]


def churn(rng):
    """Triggers of many bytes that replace each other, until journals are full."""
    words = [["w" * 1024] * 16, ["v" * 1024] * 15 + ["u"], ["x" * rng.randrange(1, 1024)] * 16]
    one = lambda: ["trigger", "/r", {"name": "t", "command": rng.choice(words)}]
    return [["watch", "/r"]] + [rng.choice([one(), one(), one(), ["watch", "/c"], ["watch-del", "/c"]])
                                for _ in range(60)] + [["trigger-list", "/r"]]


def specials(rng, model):
    """Lines that a few random ones don't lead to; mostly none."""
    chance, made = rng.random(), []
    if chance < 0.005:
        made = [["watch-del", root] for root in model.state[2]] + fill(rng, model.state[3])
    elif chance < 0.022:
        kinds = ((0.015, crowd), (0.019, churn), (0.0205, many_pairs), (1, large))
        made = next(kind for most, kind in kinds if chance < most)(rng)
    return [line_of(request, rng) for request in made]


def made_line(maker, rng, spoils, made):
    """A line; sometimes an earlier one."""
    again = made and rng.random() < 0.04
    line = rng.choice(made) if again else line_of(maker.request(), rng)
    chance = rng.random()
    if chance < spoils:
        return spoilt(line, rng)
    if chance < spoils + 0.01:
        return nested(rng)
    return long_line(line, rng) if chance < spoils + 0.0125 else line


def begins(maker):
    """Lines that show the registry after a start, and make its roots, or the first, ready."""
    found = list(maker.session.state[2])
    requests = [["watch-list"]] + [["trigger-list", root] for root in found] + ([] if found else [["watch", maker.roots[0]]])
    return requests + [maker.listing(root) for root in found or maker.roots[:1]]


def session_by(rng, model):
    """The lines of a session and its end. The model answers them meanwhile, so that later lines ask about paths that exist."""
    maker, spoils, made = Maker(rng, model), rng.choice([0, 0.05, 0.3]), []
    plan = [line_of(request, rng) for request in begins(maker)[:40]] if rng.random() < 0.9 else []
    plan += specials(rng, model) or [None] * rng.choice([5, 20, 60, 120])
    for line in plan:
        line = line or made_line(maker, rng, spoils, made)
        made.append(line)
        for part in lines_of(line):
            model.met(part)
    end = rng.choice(["end", "end", "end", "killed", "cut short"])
    if end == "end" and rng.random() < 0.1:
        made.append(made_line(maker, rng, 0.5, made)[:-1])
    return made, end + FIRST * (model.state[3] == 1)


def version_by(rng):
    """The version of a file: the second, mostly."""
    return 1 if rng.random() < 0.2 else 2


def version_of(sessions):
    """The version of the file of a run."""
    return 1 if any(end.endswith(FIRST) for _, end in sessions) else 2


def run_by(rng):
    """The sessions of a run, from its random numbers alone."""
    sessions, state = [], empty(version_by(rng))
    for _ in range(rng.choice([1, 1, 2, 3])):
        model = Session(state)
        sessions.append(session_by(rng, model))
        state = model.state
    return sessions


def expected(content, state):
    """The bytes of all replies, the number of bytes after each line, and the states after each line, that of the start first."""
    model, told = Session(state), []
    states = [model.state]
    for line in lines_of(content):
        told.append(model.met(line))
        states.append(model.state)
    return b"".join(told), list(itertools.accumulate(map(len, told))), states


def fed(process, content):
    try:
        process.stdin.write(content)
        process.stdin.flush()
    except (BrokenPipeError, ValueError):
        pass


def killed(program, path, content, wanted):
    """The output of a session that is killed once so many bytes of it were read."""
    process = subprocess.Popen([program, "lines", path], stdin=subprocess.PIPE, stdout=subprocess.PIPE,
                               stderr=subprocess.DEVNULL, bufsize=0)
    feeder, guard = threading.Thread(target=fed, args=(process, content)), threading.Timer(SECONDS, process.kill)
    feeder.start()
    guard.start()
    seen = b""
    while len(seen) < wanted:
        more = process.stdout.read(min(65536, wanted - len(seen)))
        if not more:
            break
        seen += more
    process.kill()
    guard.cancel()
    seen += process.stdout.read()
    process.wait()
    feeder.join()
    process.stdout.close()
    process.stdin.close()
    return seen


def place(seen, wanted):
    """The first line that differs: the expected one, and that of the program."""
    for number, (a, b) in enumerate(zip(wanted.split(b"\n"), seen.split(b"\n")), 1):
        if a != b:
            return f"line {number} of the replies:\n  expected {a[:2000]!r}\n  seen     {b[:2000]!r}"
    return f"expected {len(wanted)} bytes, seen {len(seen)}"


def ended(program, path, content, wanted):
    ran = subprocess.run([program, "lines", path], input=content, capture_output=True, timeout=SECONDS)
    if ran.stdout != wanted:
        raise Difference(place(ran.stdout, wanted))
    if (ran.returncode, ran.stderr) != (0, b""):
        raise Difference(f"expected status 0, seen {ran.returncode} {ran.stderr[:500]!r}")


def cut_short(program, path, content, wanted, ends, share):
    """How many lines were surely answered, if a session is killed after a share of its replies; -1 if it may not have started."""
    seen = killed(program, path, content, int(len(wanted) * share))
    if not wanted.startswith(seen):
        raise Difference(place(seen, wanted[:len(seen)]))
    return sum(1 for end in ends if end <= len(seen)) if seen else -1


def met(program, path, lines, end, state):
    """Runs one session and compares. It returns the state of its file, which is that after some line from the last
    answered one."""
    content = b"".join(lines)
    wanted, ends, states = expected(content, state)
    answered = len(ends)
    if end.startswith("end"):
        ended(program, path, content, wanted)
    else:
        whole = end.startswith("killed") or not wanted
        answered = cut_short(program, path, content, wanted, ends, 1 if whole else len(content) % 97 / 97)
        if whole and wanted and answered < len(ends):
            raise Difference(f"expected {len(ends)} answered lines, seen {answered}")
    return found(path, [state] + states if answered < 0 else states[answered:])


def found(path, states):
    """The state of the file, by the fuzzer's own reader: it must be one of these."""
    with open(path, "rb") as file:
        try:
            state = meaning(file.read())[0]
        except Exception as problem:
            raise Difference(f"the file means nothing: {problem!r}")
    if not any(is_same(state, candidate) for candidate in states):
        raise Difference(f"the file means {str(state)[:2000]}, expected {str(states)[:2000]}")
    return state


def make(program, path, version):
    """A new file of the version, which replaces an old one."""
    if os.path.exists(path):
        os.remove(path)
    new_state(program, path, version)


def difference(program, folder, sessions):
    """The difference that a run finds, with the number of its session; or None."""
    path, state = os.path.join(folder, "state"), empty(version_of(sessions))
    make(program, path, version_of(sessions))
    for number, (lines, end) in enumerate(sessions, 1):
        try:
            state = met(program, path, lines, end, state)
        except Difference as problem:
            return f"session {number}, {problem}"
    return None


def line_shown(line):
    return "  " + repr(line if len(line) < 600 else line[:300] + b"..%d bytes" % len(line)) + "\n"


def shown(sessions):
    return "".join(f"-- a session, {end}\n" + "".join(map(line_shown, lines)) for lines, end in sessions)


def counts(sessions):
    counted = {"lines": sum(len(lines_of(b"".join(lines))) for lines, _ in sessions), "sessions": len(sessions)}
    return {**counted, "sessions over version 1": len(sessions) * (version_of(sessions) == 1)}
