"""Each growth of memory that a session of the built program asks for is refused in turn (cc).

The sessions are one of `lines`, one of `lines` in which a checkpoint comes, and one at the socket of `serve`. Each is played with
ample memory, which gives the number of growths, and then once for each growth, which is refused. A request that is answered
`16 NoMemory` or `17 TooMany`, or not at all since the program or the session ended by it, is asked again. Each reply, the lines
that are due to a subscription, and the lists of the next start must be as written here. The sessions run over state files of
version 2, and those of `lines` over files of version 1 too, of which each tenth growth is refused. It fails too if no growth was
refused."""
import collections, contextlib, json, os, re, shutil, socket, subprocess

from server import TOO_MANY, Client, Server, check, folder, new_state, programs, replies, run_lines

HERE = os.path.dirname(os.path.abspath(__file__))
REFUSED = b'{"error":"16 NoMemory","version":"w1"}\n'
ENDED = (1, "watchmand: 16 NoMemory\n")
LOGGED = re.compile(r"^\d{4}-\d\d-\d\dT\d\d:\d\d:\d\dZ .*\n", re.MULTILINE)  # a line of the log of `serve`
SLOT_B = {1: 1314816, 2: 4460544}  # its gate is open once a checkpoint came (docs/FORMATS.md)
META = {"mtime_ms": 0, "size": 3, "type": "f"}
ASKED = {"expression": ["anyof", ["suffix", "c"], ["match", "b*", "basename"]], "fields": ["name", "exists", "size"],
         "since": "n:build"}
BUILD = {"append_files": True, "command": ["true", "-c"], "expression": ["suffix", "x"], "name": "build"}
SHOWN = {**BUILD, "stdin": "/dev/null"}
DONE = {}  # a reply that has only a clock, which is left out of each


def file(name, exists, size, **more):
    return {"exists": exists, "name": name, "size": size, **more}


def answer(files, is_fresh):
    return {"files": files, "is_fresh_instance": is_fresh}


def due(files, is_fresh):
    return {**answer(files, is_fresh), "root": "/r", "subscription": "s", "unilateral": True}


def of_root(root, size, first, told):
    """Requests of a root in which a.c and lib/b.h are, of this size, each with the lines that answer it by the definitions. The
    requests `first` make the root ready, and `told` are the lines of a subscription to the change."""
    changed = [file("a.c", False, size), file("d.c", True, 3)]
    return [
        (["watch", root], [{"watch": root}]),
        (["trigger", root, BUILD], [{"disposition": "created", "triggerid": "build"}]),
        (["trigger-list", root], [{"triggers": [SHOWN]}]),
        *first,
        (["query", root, ASKED], [answer([file("a.c", True, size), file("lib/b.h", True, size)], True)]),
        (["observe", root, [["d.c", META], ["a.c", None]]], [DONE, *told]),
        (["since", root, "CLOCK"], [answer([file("a.c", False, size, new=False), file("d.c", True, 3, new=True)], False)]),
        (["query", root, ASKED], [answer(changed, False)]),
        (["trigger-del", root, "build"], [{"deleted": True, "trigger": "build"}]),
        (["watch-list"], [{"roots": [root]}]),
    ]


LISTED = [(["listing", "/r", 0, "", [["a.c", META], ["lib/b.h", META]]], [DONE])]
SUBSCRIBED = [(["subscribe", "/r", "s", {"expression": ["suffix", "c"], "fields": ["name"]}],
               [{"subscribe": "s"}, due(["a.c"], True)])]
LINES = of_root("/r", 3, LISTED + SUBSCRIBED, [due(["a.c", "d.c"], False)]) + [
    (["age-out", "/r", 0], [{"floor": 2}]),
    (["unsubscribe", "/r", "s"], [{"deleted": True, "unsubscribe": "s"}]),
    (["query", "/r", {"fields": ["name"]}], [answer(["d.c", "lib/b.h"], True)]),
]


class Once(list):
    """A request that isn't asked again if it is refused, and whose reply isn't compared."""


def at_a_server(root):
    """At a server, whose roots are folders. After the observation of a file that isn't there a crawl finds the files that are:
    memory that runs out for the first mustn't spoil the second."""
    crawled = (["recrawl", root], [DONE])
    there = (["query", root, {"expression": ["type", "f"], "fields": ["name"]}], [answer(["a.c", "lib/b.h"], True)])
    return [*of_root(root, 0, [crawled], []), (Once(["observe", root, [["b.c", META]]]), []), crawled, there]


def big(n):
    """A trigger whose record takes a sixteenth of the journal."""
    return {"append_files": False, "command": [chr(97 + n) * 1000] * 16, "name": "big"}


def set_big(n):
    return (["trigger", "/r", big(n)], [{"disposition": "replaced", "triggerid": "big"}])


def listed(*triggers):
    return [{"triggers": [{**it, "stdin": "/dev/null"} for it in triggers]}]


WATCHES = (["watch-list"], [{"roots": ["/r"]}])
# The second of these finds no room in the journal that fill() filled.
FILLED = [set_big(20), (["trigger-list", "/r"], listed(big(20))), set_big(21)]


class Wrong(Exception):
    pass


class Session:
    """A session with a program, which is started anew if it ends for want of memory."""

    def __init__(self, begin, number):
        self.begin, self.refusals, self.clock = begin, 0, ""
        self.start(number)

    def start(self, number):
        self.process, self.at, ready = self.begin(number)
        if ready:
            self.connect()
        else:
            self.has_ended()

    def connect(self):
        self.client = Client(self.at, 20)
        self.is_new, self.is_turned_away = True, False

    def refused(self, by):
        self.refusals += 1
        if self.refusals > 1:
            raise Wrong(f"refused again: {by!r}")

    def has_ended(self):
        said = LOGGED.sub("", self.process.communicate(timeout=20)[1])
        self.refused(said)
        if (self.process.returncode, said) != ENDED:
            raise Wrong(f"ended with {self.process.returncode}: {said!r}")
        self.start(0)

    def once(self, line, due):
        """The reply to a line, if there is one; the lines that are due to a subscription before it are put to the others."""
        with contextlib.suppress(BrokenPipeError, ConnectionResetError):
            reply = self.client.ask(line)
            while b'"subscription":' in reply:
                due.append(reply)
                reply = self.client.line()
            return reply
        return b""

    def ask(self, request, due):
        """The reply to a request, which is asked again if it was refused for want of memory."""
        line, is_served = json.dumps(request).replace("CLOCK", self.clock).encode(), isinstance(self.at, str)
        while True:
            reply = self.once(line, due)
            if reply == REFUSED:
                # a session for which there was no memory when it came is closed after this line
                self.is_turned_away = self.is_new
                self.refused(reply)
                if isinstance(request, Once):
                    return reply
            elif reply == b"" and self.is_turned_away:
                self.connect()
            elif reply == TOO_MANY or reply == b"" and is_served:
                self.refused(reply)
                self.connect()
            elif reply == b"":
                self.has_ended()
            else:
                self.is_new = False
                return reply

    def answers(self, request):
        """The reply and the lines that are due after it, without clocks and versions: a start or a crawl more moves clocks."""
        due = []
        reply = self.ask(request, due)
        for _ in range(2):
            self.ask(["version"], due)
        lines = [] if isinstance(request, Once) else [json.loads(it) for it in [reply, *due]]
        if request[0] == "query":
            self.clock = lines[0].get("clock", "")
        return [{key: value for key, value in it.items() if key not in ("clock", "version")} for it in lines]


class Case:
    """A kind of session over copies of a state file: requests with their answers, and those of the next start."""

    def __init__(self, made, first, requests, left, is_served=False):
        self.made, self.first, self.requests, self.left, self.is_served = made, first, requests, left, is_served
        self.state, self.count = made + "/state", made + "/count"

    def begin(self, number):
        """A program whose growth of this number is refused, where its client connects, and whether it is ready."""
        settings = dict(os.environ, LD_PRELOAD=self.made + "/refuse.so", REFUSE=str(number), GROWTHS=self.count)
        if self.is_served:
            server = Server(programs.watchmand, self.made, "--workers", "1", env=settings, text=True)
            return server.process, server.path, server.ready == "ready\n"
        ours, theirs = socket.socketpair()
        with theirs:
            words, streams = [programs.watchmand, "lines", self.state], {"stdin": theirs, "stdout": theirs}
            return subprocess.Popen(words, **streams, stderr=subprocess.PIPE, env=settings, text=True), ours, True

    def play(self, number):
        """How often the session was refused; a wrong answer is an error."""
        shutil.copyfile(self.first, self.state)
        session = Session(self.begin, number)
        try:
            for request, wanted in self.requests:
                answers = session.answers(request)
                if answers != wanted:
                    raise Wrong(f"{json.dumps(request)[:80]}: {answers!r} in place of {wanted!r}"[:600])
        finally:
            session.process.kill()
            session.process.wait()
        ended = run_lines(programs.watchmand, self.state, [request for request, _ in self.left])
        listed = [json.loads(it) for it in ended.stdout.splitlines()]
        if ended.stderr or listed != [{**wanted[0], "version": "w1"} for _, wanted in self.left]:
            raise Wrong(f"the next start: {ended.stdout[:300]!r}, {ended.stderr!r}")
        return session.refusals

    def growths(self):
        with open(self.count, "rb") as count:
            return int.from_bytes(count.read(8), "little")

    def verdict(self, number):
        try:
            return "16, then right" if self.play(number) else "right"
        except (Wrong, OSError, ValueError, subprocess.TimeoutExpired) as error:
            return f"{type(error).__name__}: {error}"

    def sweep(self, name, step=1):
        ample = self.verdict(0)
        check(f"{name}: right with ample memory", ample == "right", ample)
        seen = collections.defaultdict(list)
        for number in range(1, self.growths() + 1, step):
            seen[self.verdict(number)].append(number)
        wrong = {verdict: numbers for verdict, numbers in seen.items() if verdict not in ("right", "16, then right")}
        right, refused = len(seen["right"]), len(seen["16, then right"])
        check(f"{name}: {right} growths without which all is right, {refused} that are answered 16", not wrong and refused, wrong)


def fill(state):
    """Fills the journal of a state file but for the room of one more such record."""
    replies(programs.watchmand, state, [["watch", "/r"], *(["trigger", "/r", big(n)] for n in range(15))])


def has_slot_b(state, version):
    with open(state, "rb") as it:
        it.seek(SLOT_B[version])
        return it.read(1) == b"\xa5"


@contextlib.contextmanager
def refusing():
    """A folder with the library that refuses growths."""
    with folder() as made:
        subprocess.run(["cc", "-O1", "-shared", "-fPIC", "-o", made + "/refuse.so", HERE + "/refuse_growth.c"], check=True)
        yield made


def sweep_lines(version, step):
    """The sessions of `lines` over files of the version, with each growth refused in turn, or each tenth (a step of 10)."""
    with refusing() as made:
        new, full = f"{made}/new", f"{made}/full"
        for state in (new, full):
            new_state(programs.watchmand, state, version)
        fill(full)
        Case(made, new, LINES, [WATCHES, (["trigger-list", "/r"], listed())]).sweep(f"lines, version {version}", step)
        checkpoint = Case(made, full, FILLED, [(["trigger-list", "/r"], listed(big(21)))])
        checkpoint.sweep(f"a checkpoint, version {version}", step)
        check("a checkpoint: it came", not has_slot_b(full, version) and has_slot_b(checkpoint.state, version))


def lines_of_version_2():
    sweep_lines(2, 1)


def lines_of_version_1():
    sweep_lines(1, 10)


def socket_of_a_server():
    with refusing() as made:
        root = made + "/root"
        os.makedirs(root + "/lib")
        for name in ("a.c", "lib/b.h"):
            open(f"{root}/{name}", "w").close()
        new_state(programs.watchmand, made + "/new")
        watches = (["watch-list"], [{"roots": [root]}])
        Case(made, made + "/new", at_a_server(root), [watches, (["trigger-list", root], listed())], True).sweep("a server")


CASES = [lines_of_version_2, lines_of_version_1, socket_of_a_server]
