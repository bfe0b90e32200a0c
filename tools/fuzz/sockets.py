"""Several clients of one `watchmand serve` at once, each on a root of its own, for tools/fuzz/fuzz.py: lines
whole, split and joined, and early ends.

A client is its lines and its end. Each whole reply must be the model's, and each line of a subscription an answer of the
root's history. The watched roots and triggers, which a fresh client asks for and which the file has after a kill, must be
those that were acknowledged.

After a kill the server is started again over its file. Each client asks it since the clocks of its earlier answers, which
must be fresh, and then sends the lines that weren't answered. No earlier clock may come again.

The second in which the server performs an operation isn't known. So a question by a number is fresh if the number is before
the server's start, and lists nothing if it is after the present second; in between it is fresh, or answered as from some
tick of the root."""
import contextlib, json, os, random, re, shutil, signal, socket, stat, struct, subprocess, threading, time
from files import opened
from history import History, Refused
from lines import Difference, Session as Model, line_shown, made_line
from make import Maker
from model import line_of, lines_of, rendered, trigger_shown
from requests import SERVED, request_of
from server import Client, Server as Served, until
from state_file import meaning
from values import written
from watches import with_watch

NAMES = ["alpha", "bravo", "charlie", "delta", "echo"]
# The folder of the runs. Its name has always the same length, so that a seed makes the same lines each time.
PLACE = ""
OF_REGISTRY = ("watch", "watch-del", "trigger", "trigger-del", "trigger-list")
SECONDS = 30
# The end of a client that kills the server once half of its lines are answered.
KILLS = "kills the server"
# The most starts of the server in a run, and the number of old clocks that a client asks about after a start.
LIVES, OLD_CLOCKS = 3, 20
CLOCK = re.compile(b'"clock":"(c:[0-9]+:[0-9]+:[0-9]+)"')
# Ten numbers that stand for the seconds around the beginning of a client, so that a seed makes the same lines each time.
NEAR_SECONDS = range(1111111110, 1111111120)
NEAR = re.compile(rb"(?<![-+.0-9])111111111([0-9])(?![.0-9])")


class Cut(Exception):
    """A stream ended before a line did."""


def make_tree(root):
    os.makedirs(root + "/a")
    os.makedirs(root + "/b")
    for name, content in (("a/b", "1"), ("a.c", ""), ("b/c.PHP", "php"), (".hid", "2")):
        with open(f"{root}/{name}", "w") as file:
            file.write(content)
    os.symlink("a.c", root + "/ab")


def crawled(root, top=""):
    """All that is below a folder: each path with its kind, size and time; links aren't followed."""
    start, found = (f"{root}/{top}" if top else root), {}
    if os.path.islink(start) or not os.path.isdir(start):
        return found
    for folder, folders, files in os.walk(start):
        for name in folders + files:
            seen = os.lstat(f"{folder}/{name}")
            kind = {stat.S_IFDIR: "d", stat.S_IFLNK: "l", stat.S_IFREG: "f"}.get(stat.S_IFMT(seen.st_mode), "o")
            found[os.path.relpath(f"{folder}/{name}", root)] = (kind, seen.st_size, seen.st_mtime_ns // 10**6)
    return found


def in_seconds(content):
    """The content with the present seconds in place of the numbers that stand for them."""
    began = int(time.time()) - 5
    return NEAR.sub(lambda found: b"%d" % (began + int(found[1])), content)


class Server(Model):
    """The model of the only session on a root that a server has crawled. The root has this number. The server was started so
    often (`life`), the last time in the second `began` or later. After a second start `roots` are the root and those below it,
    with their triggers."""

    def __init__(self, root, number, files, life=1, roots=None, began=0):
        super().__init__()
        self.began = began
        self.state = (life, number + 1 + len(roots), roots, 2) if roots else with_watch((life, number, {}, 2), root)
        self.root, self.commands, self.floors, self.asked = root, SERVED, {0}, []
        self.histories = {path: History(life, number) for path in self.state[2]}
        self.cursors = {path: {} for path in self.state[2]}
        self.histories[root].listing(0, 0, "", files.items())

    def recrawl(self, root, top):
        history = self.history(root)
        history.listing(self.moment, history.tick(), top, crawled(root, top).items())
        return self.clock(root)

    def met(self, line):
        """Only the reply: the lines of subscriptions may come at any time, before the reply those of earlier subscriptions."""
        reply = super().met(line)
        self.floors.add(self.histories[self.root].floor)
        return reply

    def starts(self, since, tick):
        """The starts from which a question up to a tick may be answered: its own, if it isn't a moment. A moment is before all
        operations (None: fresh), after all of them (the tick), or may be either, or between any two."""
        if not isinstance(since, int):
            return [since]
        history = self.histories[self.root]
        ticks = [(history.incarnation, history.number, start) for start in range(tick + 1)]
        return [None] if since < self.began else ticks[-1:] if since > time.time() else [None] + ticks

    def by_moment(self, line):
        """The replies that a question by a number may have, once it is answered; none for any other line."""
        try:
            command, arguments = request_of(line, self.commands)
        except Refused:
            return []
        if command not in ("since", "query") or not arguments[1][0] or arguments[1][0][0] != "moment":
            return []
        (_, moment), expression, fields, empty = arguments[1]
        history = self.histories[self.root]
        starts = self.starts(moment, history.tick())
        return [line_of(rendered(history.answer(start, expression, empty), fields)) for start in starts]

    def is_answered(self):
        self.asked = list(self.subscriptions)

    def due(self):
        return b""

    def tell(self, line):
        """A line that came unasked: it must be an answer that is due to its subscription at its clock, with some
        earlier floor."""
        seen, history = json.loads(line), self.histories[self.root]
        tick = int(seen["clock"].rsplit(":", 1)[1])
        asked = [told for told in self.asked if (told.root, told.name) == (seen["root"], seen["subscription"])]
        for told in asked if 1 <= tick <= history.tick() else []:
            starts = self.starts(told.since, tick)
            answers = [history.answer(start, told.expression, told.empty, tick, floor) for floor in self.floors
                       for start in starts]
            if line in [told.told(answer) for answer in answers if told.is_due(answer)]:
                told.since, told.is_first = (history.incarnation, history.number, tick), False
                return
        raise Difference(f"a line of a subscription that is asked since {[told.since for told in asked]}: {line[:1000]!r}")

    def is_told(self):
        """Whether nothing is due any more."""
        history = self.histories[self.root]
        return not any(told.is_due(history.answer(told.since, told.expression, told.empty)) for told in self.subscriptions)


def is_judged(line, model):
    """Whether the model knows the reply: it knows one ready root, and the registry's commands on roots below it."""
    try:
        command, arguments = request_of(line, SERVED)
    except Refused:
        return True
    if command in OF_REGISTRY:
        return arguments[0].startswith(model.root) and (command, arguments[0]) != ("watch-del", model.root)
    if command == "age-out" and 0 < arguments[1] < 2**31 - 1:
        return False
    return command != "watch-list" and (command == "version" or arguments[0] == model.root)


def client_by(rng, number):
    """The lines of one client, about a root of its own in PLACE, and its end."""
    model = Server(f"{PLACE}/{NAMES[number]}", number + 1, {})
    maker, spoils, made = Maker(rng, model), rng.choice([0, 0.05, 0.2]), []
    maker.roots = [model.root, model.root + "/w", model.root + "/x"]
    maker.seconds = [0, 1, 10**9, 10**11, 2**63 - 1, *NEAR_SECONDS]
    for _ in range(rng.choice([5, 20, 50])):
        line = made_line(maker, rng, spoils, made)
        if all(is_judged(part, model) for part in lines_of(line)):
            made.append(line)
            for part in lines_of(line):
                model.met(part)
    return made, rng.choice(["read to its end", "read to its end", "cut in a line", "left in a reply"])


def run_by(rng):
    """The clients of a run; sometimes the first of them kills the server in the middle of its lines."""
    clients = [client_by(rng, number) for number in range(rng.randint(1, len(NAMES)))]
    return [(clients[0][0], KILLS)] + clients[1:] if rng.random() < 0.25 else clients


class Talk(threading.Thread):
    """One client: a thread that writes, and another that reads and compares. All clients of a run know whether the server was
    killed."""

    def __init__(self, path, root, number, life, began, killed, lines, end, roots=None, older=frozenset()):
        super().__init__()
        self.session, self.killed, self.sure, self.clocks, self.older = Client(path, SECONDS), killed, 0, set(), older
        self.fresh = lambda: Server(root, number, crawled(root), life, roots, began)
        self.model, self.end, self.problem = self.fresh(), end, None
        self.lines = [line for line in lines_of(in_seconds(b"".join(lines))) if line.endswith(b"\n")]
        self.states, self.sent = [self.model.state], []

    def run(self):
        try:
            self.talk()
        except Exception as problem:
            is_cut = self.killed.is_set() and isinstance(problem, (Cut, OSError))
            self.problem = None if is_cut else problem
        self.session.close()

    def kill(self):
        """Kills the server, which is the process at the other end of the socket."""
        self.killed.set()
        process, _, _ = struct.unpack("3i", self.session.socket.getsockopt(socket.SOL_SOCKET, socket.SO_PEERCRED, 12))
        os.kill(process, signal.SIGKILL)

    def write(self, content):
        """The bytes in pieces: single ones, some, many, all that are left."""
        rng, at = random.Random(len(content)), 0
        try:
            while at < len(content):
                size = rng.choice([1, 7, 100, 5000, len(content)]) if len(content) < 200000 else len(content)
                self.session.socket.sendall(content[at:at + size])
                at += size
        except OSError:
            pass

    def talk(self):
        judged, read = self.judged()
        self.sent = judged
        content = b"".join(judged) + (b'["ver' if self.end == "cut in a line" else b"")
        writer = threading.Thread(target=self.write, args=(content,))
        writer.start()
        try:
            for line in judged[:read]:
                self.reply(line)
            while self.end == "read to its end" and not self.model.is_told():
                self.model.tell(self.line())
            if self.end == KILLS:
                self.kill()
        finally:
            with contextlib.suppress(OSError):
                self.session.socket.shutdown(socket.SHUT_RDWR)
            writer.join()

    def judged(self):
        """The lines whose replies the model knows, and how many of these are read. The states after all of them are kept."""
        going, judged = self.fresh(), []
        for line in self.lines:
            if is_judged(line, going):
                going.met(line)
                judged.append(line)
                self.states.append(going.state)
        return judged, len(judged) // 2 if self.end in (KILLS, "left in a reply") else len(judged)

    def line(self):
        line = self.session.line()
        if not line.endswith(b"\n"):
            raise Cut(f"a reply was cut: {line[:500]!r}")
        self.clocks.update(clock.decode() for clock in CLOCK.findall(line))
        return line

    def reply(self, line):
        wanted, seen = self.model.met(line), self.line()
        while b'"unilateral":true' in seen:
            self.model.tell(seen)
            seen = self.line()
        self.model.is_answered()
        self.sure += 1
        if seen not in (self.model.by_moment(line) or [wanted]):
            raise Difference(f"to {line[:1000]!r}:\n  expected {wanted[:1000]!r}\n  seen     {seen[:1000]!r}")


def ask(session, *request):
    return session.reply(written(list(request)).encode())


def await_ready(session, roots, life):
    """Waits until each root is ready; its first clock is of this life."""
    for number, root in enumerate(roots, 1):
        clock = until(lambda: ask(session, "clock", root).get("clock"), SECONDS)
        if clock != f"c:{life}:{number}:1":
            raise Difference(f"the first clock of root {number} in life {life} is {clock}")


def watched_first(path, roots):
    """Watches the clients' roots in order, and waits until each is ready."""
    session = Client(path, SECONDS)
    for number, root in enumerate(roots, 1):
        make_tree(root)
        ask(session, "watch", root)
        await_ready(session, roots[:number], 1)
    session.close()


def started_again(path, roots, life, wanted):
    """The watched roots and triggers after a start, and waits until the clients' roots are ready."""
    session = Client(path, SECONDS)
    told = registry(session)
    if told != wanted:
        raise Difference(f"life {life} begins with {told!r}, expected {wanted!r}")
    await_ready(session, roots, life)
    session.close()


def shown_roots(roots):
    return [(root, [trigger_shown(*trigger) for trigger in triggers.items()]) for root, (_, triggers) in roots.items()]


def kept(client, roots):
    """The state after some line from the last surely answered one, in which the roots below a client's have just these triggers;
    None if there is none."""
    own = [(root, triggers) for root, triggers in roots if root.startswith(client.model.root)]
    states = [state for state in client.states[client.sure:] if own == shown_roots(state[2])]
    return states[0] if states else None


def registry(session):
    """The watched roots and their triggers by a client's questions."""
    return [(root, ask(session, "trigger-list", root).get("triggers")) for root in ask(session, "watch-list")["roots"]]


def found(content):
    return shown_roots(meaning(content)[0][2])


def run_all(threads):
    """Starts all, and waits for all."""
    for thread in threads:
        thread.start()
    for thread in threads:
        thread.join()


def talked(path, place, life, began, clients, before):
    """Runs all clients at once. It returns them, and the registry by a fresh client, unless the server was killed. A
    life begins in the second `began` or later, a later one with the registry `before`."""
    roots = [f"{place}/{NAMES[number]}" for number in range(len(clients))]
    watched_first(path, roots) if life == 1 else started_again(path, roots, life, before)
    killed = threading.Event()
    numbered = enumerate(zip(roots, clients), 1)
    talks = [Talk(path, root, number, life, began, killed, *client) for number, (root, client) in numbered]
    run_all(talks)
    if killed.is_set():
        return talks, None
    session = Client(path, SECONDS)
    told = registry(session)
    session.close()
    return talks, told


def judge(talks, told, content):
    for number, talk in enumerate(talks, 1):
        if talk.problem:
            raise Difference(f"client {number}: {talk.problem if isinstance(talk.problem, Difference) else repr(talk.problem)}")
        if talk.clocks & talk.older:
            raise Difference(f"client {number}: clocks of an earlier life are told again: {sorted(talk.clocks & talk.older)[:5]}")
        if kept(talk, found(content)) is None or told is not None and kept(talk, told) is None:
            seen = f"a fresh client is told {told!r}, the file means {found(content)!r}"
            raise Difference(f"client {number}: {seen}, expected {talk.states[talk.sure:]}")


def goes_on(talk, content, life):
    """A client after the kill that ended this life: it asks since earlier clocks, and sends the lines that weren't answered."""
    older = talk.older | talk.clocks
    asked = [(written(["since", talk.model.root, clock]) + "\n").encode() for clock in sorted(older)[-OLD_CLOCKS:]]
    end = "read to its end" if talk.end == KILLS and life + 1 == LIVES else talk.end
    return asked + talk.sent[talk.sure:], end, kept(talk, found(content))[2], older


@contextlib.contextmanager
def new_folder(place):
    os.mkdir(place)
    try:
        yield place
    finally:
        shutil.rmtree(place)


@contextlib.contextmanager
def running(program, place):
    """The socket of a server over a folder; its log is dropped."""
    with Served(program, place, stderr=subprocess.DEVNULL) as served:
        yield served.path


def lived(program, clients):
    """The lives of a server, all but the last ended by a kill. It returns the content of the file then."""
    content = None
    for life in range(1, LIVES + 1):
        began = int(time.time())
        with running(program, PLACE) as path:
            talks, told = talked(path, PLACE, life, began, clients, content and found(content))
        with open(PLACE + "/state", "rb") as file:
            content = file.read()
        judge(talks, told, content)
        if told is not None:
            return content
        clients = [goes_on(talk, content, life) for talk in talks]
    return content


def difference(program, folder, clients):
    try:
        with new_folder(PLACE):
            opened(program, PLACE + "/again", lived(program, clients))
    except Difference as problem:
        return str(problem)
    return None


def shown(clients):
    return "".join(f"-- a client, {end}\n" + "".join(line_shown(line) for line in lines) for lines, end in clients)


def counts(clients):
    return {"clients": len(clients), "lines of clients": sum(len(lines) for lines, _ in clients),
            "runs with kills": sum(end == KILLS for _, end in clients)}
