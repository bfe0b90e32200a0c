"""Clients that change one root, look at it, report what they saw somewhat later, and have it crawled, while the server is killed and
the root is watched anew. A path that changed last before a `recrawl` was sent stands in the answer behind it as in the folder; or as
in a report of a client that was under way since then."""
import contextlib, json, math, os, random, signal, threading, time

from feed_site import metadata
from server import Client, Server, at_once, check, folder, programs

PATHS = ["a", "b", "c", "d/a", "d/b"]
CLIENTS, SECONDS = 6, 8
# Empty folders that make a crawl last.
FOLDERS = 150


class Reported:
    """A path as a client saw it, and when the report of it was sent and answered."""

    def __init__(self, path, seen, kind):
        self.path, self.seen, self.kind, self.sent, self.answered = path, seen, kind, time.monotonic(), math.inf


class History:
    """The root's folder, when each path changed last, the reports, and what was found."""

    def __init__(self, top):
        self.top, self.lock, self.reports, self.end = top, threading.Lock(), [], time.monotonic() + SECONDS
        self.changed, self.compared, self.late, self.wrong = dict.fromkeys(PATHS, 0), 0, {"observe": 0, "listing": 0}, []

    def seen(self, path):
        with contextlib.suppress(FileNotFoundError):
            return metadata(f"{self.top}/{path}")

    def change(self, rng):
        path, brief = rng.choice(PATHS), f"{self.top}.{threading.get_ident()}"
        with self.lock:
            self.changed[path] = math.inf
        with contextlib.suppress(FileNotFoundError):
            if rng.random() < 0.3:
                os.unlink(f"{self.top}/{path}")
            else:
                with open(brief, "w") as file:
                    file.write("x" * rng.randrange(4))
                os.utime(brief, (1, rng.randrange(2)))
                os.rename(brief, f"{self.top}/{path}")
        with self.lock:
            self.changed[path] = time.monotonic()

    def compare(self, sent, answer):
        """The paths that didn't change since a `recrawl` was sent, in the folder and in the answer behind it."""
        listed = {file.pop("name"): file for file in answer}
        truth, now = {path: self.seen(path) for path in PATHS}, time.monotonic()
        with self.lock:
            same = [path for path in PATHS if self.changed[path] < sent]
            self.compared += len(same)
            for path in same:
                if listed.get(path) != truth[path]:
                    kinds = {it.kind for it in self.reports
                             if it.path == path and it.seen == listed.get(path) and it.sent <= now and it.answered >= sent}
                    self.wrong += [] if kinds else [(path, listed.get(path), truth[path])]
                    for kind in kinds:
                        self.late[kind] += 1
            self.reports = [it for it in self.reports if it.answered > now - 20]


class Reporter:
    """A client, which connects again once its server was killed."""

    def __init__(self, history, socket):
        self.history, self.socket, self.client, self.rng = history, socket, None, random.Random()

    def ask(self, *request):
        """The reply; none if the server was killed before it, or isn't there."""
        try:
            self.client = self.client or Client(self.socket)
            return self.client.reply(request)
        except (OSError, json.JSONDecodeError):
            self.client = None
            time.sleep(0.01)
            return {}

    def report(self, kind, paths, request):
        """Reports what is seen at the paths, now and then somewhat later, by the request that is made of it."""
        seen = {path: self.history.seen(path) for path in paths}
        time.sleep(self.rng.choice([0, 0.01 * self.rng.random()]))
        reports = [Reported(path, state, kind) for path, state in seen.items()]
        with self.history.lock:
            self.history.reports += reports
        self.ask(kind, self.history.top, *request(seen))
        for it in reports:
            it.answered = time.monotonic()

    def observe(self):
        self.report("observe", self.rng.sample(PATHS, self.rng.choice([1, 1, 2])), lambda seen: [list(seen.items())])

    def list(self):
        tick = int(self.ask("clock", self.history.top).get("clock", "0").split(":")[-1])
        self.report("listing", PATHS[3:], lambda seen: [tick, "d", [pair for pair in seen.items() if pair[1]]])

    def recrawl(self):
        sent = time.monotonic()
        if "clock" in self.ask("recrawl", self.history.top):
            answer = self.ask("query", self.history.top, {"fields": ["mtime_ms", "name", "size", "type"]})
            if "files" in answer:
                self.history.compare(sent, answer["files"])

    def run(self):
        while time.monotonic() < self.history.end:
            step = self.rng.choices([lambda: self.history.change(self.rng), self.observe, self.list, self.recrawl], [7, 8, 2, 3])
            step[0]()
            time.sleep(0.005 * self.rng.random())


def killed_and_watched_anew(history, place, kills):
    """Kills the server and starts it again, or unwatches the root and watches it, until the time is over."""
    served, rng = Server(programs.watchmand, place, "--quiet"), random.Random()
    watcher = Reporter(history, served.path)
    watcher.ask("watch", history.top)
    with at_once([Reporter(history, served.path).run for _ in range(CLIENTS)]):
        while time.monotonic() < history.end:
            time.sleep(0.3 + rng.random())
            if kills and rng.random() < 0.5:
                served.end(signal.SIGKILL)
                served = Server(programs.watchmand, place, "--quiet")
            else:
                watcher.ask("watch-del", history.top)
                watcher.ask("watch", history.top)
    served.end()


def reports_beside_recrawls():
    """Each path that differs behind a `recrawl` was reported so meanwhile."""
    for kills in (False, True):
        with folder() as made:
            os.makedirs(made + "/T/d")
            for number in range(FOLDERS):
                os.makedirs(f"{made}/T/e/{number}")
            history = History(made + "/T")
            killed_and_watched_anew(history, made, kills)
            what = f"{history.compared} paths behind recrawls, {history.late} of them as a late report has them"
            check(what + (", of killed servers" if kills else ""), history.compared and not history.wrong, history.wrong[:3])
