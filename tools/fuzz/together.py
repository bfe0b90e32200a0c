"""Several clients of one `watchmand serve` at once on one root, for tools/fuzz/fuzz.py: each observes and
crawls a folder of its own.

A client's own operations decide the answers about its own paths since its own clocks, whatever the others do meanwhile: the
files, their order, the lines of a subscription and the input of a trigger's runs. At the end a fresh client sees all paths."""
import contextlib, os, re, shlex, threading
from history import History
from lines import Difference
from server import Client, until
from sockets import SECONDS, ask, crawled, new_folder, run_all, running, watched_first

FIELDS = ["exists", "mtime_ms", "name", "new", "size", "type"]
NAMES = ["a", "b", "a/b", "a/c", "c.PHP", "\u00e9", "q\"\n", "d" * 200]
# The weight of a step that defines the client's trigger; all others have some twenty together.
TRIGGERS = 1
CLOCK = re.compile("c:1:1:([1-9][0-9]*)")


def pairs_by(rng, own):
    metadata = lambda: {"mtime_ms": rng.randrange(3), "size": rng.randrange(3), "type": rng.choice(["f", "f", "d", "l", "o"])}
    return [[f"{own}/{rng.choice(NAMES)}", None if rng.random() < 0.35 else metadata()]
            for _ in range(rng.choice([0, 1, 1, 2, 3]))]


def step_by(rng, own):
    """A step: its kind, pairs, and a share that stands for one of the client's clocks so far."""
    others = ["clock", "subscribe", "subscribe", "unsubscribe", "recrawl", "listing", "listing", "other"]
    kind = rng.choice(["observe"] * 6 + ["query"] * 4 + others + ["trigger"] * TRIGGERS)
    return kind, pairs_by(rng, own) if kind in ("observe", "listing") else [], rng.random()


def run_by(rng):
    """The clients of a run, each with its steps and the name of its own folder."""
    return [([step_by(rng, f"p{number}") for _ in range(rng.choice([10, 40, 80]))], f"p{number}")
            for number in range(rng.choice([2, 3, 5, 12]))]


def plain(pairs):
    return [(path, found and (found["type"], found["size"], found["mtime_ms"])) for path, found in pairs]


def make_own(folder):
    os.makedirs(folder + "/a")
    with open(folder + "/a/b", "w") as file:
        file.write("1")


class Talk(threading.Thread):
    def __init__(self, path, root, steps, own):
        super().__init__()
        self.path, self.root, self.steps, self.own, self.problem = path, root, steps, own, None
        self.expression = ["match", own + "/**", "wholename"]
        self.history, self.clocks, self.tick = History(0, 0), {}, 1
        self.history.listing(0, 0, "", [])
        # The possible places of the subscription, if there is one: the own tick of its last line, and whether it
        # has had none yet.
        self.told = set()
        # The output of the trigger's program, and the own tick of its first definition.
        self.out, self.defined = f"{os.path.dirname(root)}/{own}.out", None

    def run(self):
        self.session = Client(self.path, SECONDS)
        try:
            self.clocked(self.reply("clock", self.root), False)
            for kind, pairs, share in self.steps:
                getattr(self, kind)(pairs, share)
            while self.told and all(self.due(told, self.history.tick()) for told in self.told):
                self.tell(self.session.next())
            self.await_runs()
        except Exception as problem:
            self.problem = problem if isinstance(problem, Difference) else repr(problem)
        self.session.close()

    def reply(self, *request):
        """The reply to a request; the lines before it are those of the subscription."""
        seen = ask(self.session, *request)
        while "unilateral" in seen:
            self.tell(seen)
            seen = self.session.next()
        return seen

    def expect(self, holds, seen, wanted=""):
        if not holds:
            raise Difference(f"expected {wanted!r}, seen {seen!r}; clocks {self.clocks}")

    def clocked(self, reply, has_changed):
        """A reply's clock never goes back, and goes forward if the own map has changed. It stands for the present own tick."""
        found = CLOCK.fullmatch(reply.get("clock", ""))
        self.expect(found and int(found.group(1)) >= self.tick + has_changed, reply, f"a clock from {self.tick + has_changed} on")
        self.tick = int(found.group(1))
        self.clocks[self.history.tick()] = reply["clock"]

    def some_tick(self, share):
        ticks = sorted(self.clocks)
        return ticks[int(share * len(ticks))]

    def files(self, since, now):
        answer = self.history.answer((0, 0, since), self.expression, now=now)
        return [{field: file[field] for field in FIELDS} for file in answer[2]]

    def observe(self, pairs, share):
        before = self.history.tick()
        self.history.observe(0, plain(pairs))
        self.clocked(self.reply("observe", self.root, pairs), self.history.tick() > before)

    def listing(self, pairs, share):
        """A reading of the own folder that began at one of the own clocks."""
        before, begun_at = self.history.tick(), self.some_tick(share)
        listed = list({path: [path, found] for path, found in pairs if found}.values())
        self.history.listing(0, begun_at, self.own, plain(listed))
        tick = int(self.clocks[begun_at].rsplit(":", 1)[1])
        self.clocked(self.reply("listing", self.root, tick, self.own, listed), self.history.tick() > before)

    def recrawl(self, pairs, share):
        """The server crawls the own folder."""
        before = self.history.tick()
        self.history.listing(0, before, self.own, crawled(self.root, self.own).items())
        self.clocked(self.reply("recrawl", self.root, self.own), self.history.tick() > before)

    def other(self, pairs, share):
        """Another root comes and goes."""
        other = f"{self.root}/{self.own}"
        self.expect(self.reply("watch", other) == {"version": "w1", "watch": other}, other)
        self.expect(self.reply("watch-del", other) == {"root": other, "version": "w1", "watch-del": True}, other)

    def clock(self, pairs, share):
        self.clocked(self.reply("clock", self.root), False)

    def object(self, since):
        return {"since": self.clocks[since], "expression": self.expression, "fields": FIELDS}

    def query(self, pairs, share):
        since = self.some_tick(share)
        seen, wanted = self.reply("query", self.root, self.object(since)), self.files(since, self.history.tick())
        self.expect(seen.get("files") == wanted and seen["is_fresh_instance"] is False, seen, (since, wanted))
        self.clocked(seen, False)

    def subscribe(self, pairs, share):
        """Before the reply the lines are those of the earlier subscription."""
        since = self.some_tick(share)
        self.clocked(self.reply("subscribe", self.root, "s", self.object(since)), False)
        self.told = {(since, True)}

    def unsubscribe(self, pairs, share):
        seen = self.reply("unsubscribe", self.root, "s")
        self.expect(seen.get("deleted") is bool(self.told), seen, self.told)
        self.told = set()

    def due(self, told, now):
        return told[1] or self.files(told[0], now)

    def tell(self, seen):
        """A line of the subscription: its files must be due at one of the own ticks since the last line. Several
        ticks may fit."""
        ways = [(told, now) for told in self.told for now in range(told[0], self.history.tick() + 1)]
        stands = {(now, False) for told, now in ways if self.due(told, now) and seen["files"] == self.files(told[0], now)}
        self.expect(stands and not seen["is_fresh_instance"], seen, self.told)
        self.told = stands

    def trigger(self, pairs, share):
        """A program that writes the paths of each run, with a zero byte after each of them, and one after the run."""
        out = shlex.quote(self.out)
        words = ["sh", "-c", f"printf '%s\\0' \"$@\" >> {out}; printf '\\0' >> {out}", "sh"]
        definition = {"name": self.own, "command": words, "append_files": True, "expression": self.expression}
        seen = self.reply("trigger", self.root, definition)
        wanted = "created" if self.defined is None else "already_defined"
        self.expect(seen == {"disposition": wanted, "triggerid": self.own, "version": "w1"}, seen, wanted)
        self.defined = self.history.tick() if self.defined is None else self.defined

    def names(self, since, now):
        answer = self.history.answer(since and (0, 0, since), self.expression, now=now)
        return [file["name"] for file in answer[2]]

    def last_runs(self):
        """The own ticks at which the last run may have been started, by the runs so far; None before the first."""
        content, stands = b"", {None}
        with contextlib.suppress(FileNotFoundError), open(self.out, "rb") as file:
            content = file.read()
        for run in content.split(b"\0\0")[:-1]:
            ways = [(told, now) for told in stands for now in range(told or self.defined, self.history.tick() + 1)]
            stands = {now for told, now in ways if run.decode().split("\0") == self.names(told, now)}
        return stands

    def await_runs(self):
        """Each change has a run in the end: after one more change no run is due any more."""
        if self.defined is not None:
            self.observe([[self.own + "/last", {"mtime_ms": 1, "size": 1, "type": "f"}]], 0)
            is_run = lambda: any(not self.names(told, self.history.tick()) for told in self.last_runs())
            self.expect(until(is_run, SECONDS), self.last_runs(), "each change in a run")


def judge(talks, names, there):
    for talk in talks:
        if talk.problem:
            raise Difference(f"client {talk.expression[1]}: {talk.problem}")
    wanted = sorted(there + [path for talk in talks for path in talk.history.maps[-1]])
    if sorted(names) != wanted:
        raise Difference(f"a fresh client is told {sorted(names)}, expected {wanted}")


def talked(path, root, clients):
    watched_first(path, [root])
    there = list(crawled(root))
    for _, own in clients:
        make_own(f"{root}/{own}")
    talks = [Talk(path, root, *client) for client in clients]
    run_all(talks)
    session = Client(path, SECONDS)
    names = ask(session, "query", root, {"fields": ["name"]})["files"]
    session.close()
    return talks, names, there


def difference(program, folder, clients):
    try:
        with new_folder(folder + "/together") as place, running(program, place) as path:
            judge(*talked(path, place + "/root", clients))
    except Difference as problem:
        return str(problem)
    return None


def shown(clients):
    return "".join(f"-- a client of {own}\n" + "".join(f"  {step!r}\n" for step in steps) for steps, own in clients)


def counts(clients):
    return {"clients": len(clients), "lines of clients": sum(len(steps) for steps, _ in clients)}
