"""The lines of a server's log. Each case has something happen to a server, and compares the lines of its standard error, but for
their times, with lines that are written here by hand."""
import contextlib, os, re, resource, signal, socket, time

from server import AS_NOBODY, FILE, TOO_MANY, Server, check, folder, names, programs, tree, until

TIME = re.compile(rb"\d{4}-\d\d-\d\dT\d\d:\d\d:\d\dZ ")
SLOTS = 31


class Logged(Server):
    """A server whose standard error goes to a file."""

    def __init__(self, place, *words, **how):
        self.errors = f"{place}/errors"
        with open(self.errors, "wb") as errors:
            super().__init__(programs.watchmand, place, *words, stderr=errors, **how)

    def whole(self):
        with open(self.errors, "rb") as errors:
            return errors.read().splitlines()

    def lines(self):
        """The lines without their times; one without a time is None."""
        return [line[21:].decode() if TIME.match(line) else None for line in self.whole()]

    def has(self, *wanted, seconds=20):
        return until(lambda: self.lines() == list(wanted), seconds)

    def says(self, what, *wanted, seconds=20):
        check(what, self.has(*wanted, seconds=seconds), self.whole())


@contextlib.contextmanager
def logged(*words, before=(), prepare=lambda place: None):
    with folder(prefix="watchmand-log.", dir="/tmp") as made:
        os.chmod(made, 0o777)
        prepare(made)
        with Logged(made, *words, before=before) as server:
            yield server


def dead_socket(place):
    with socket.socket(socket.AF_UNIX) as dead:
        dead.bind(f"{place}/socket")


def socket_taken_over():
    with logged(prepare=dead_socket) as server:
        server.says("a dead socket that is taken over", f"took over the socket {server.path}")
        check("the server is ready as ever", server.ready == b"ready\n", server.ready)
    with logged() as server:
        server.client().ask(["version"])
        server.says("no line without a dead socket")


def shut_folder():
    before = () if os.getuid() else AS_NOBODY
    with logged(before=before) as server:
        top = tree(f"{server.folder}/T")
        os.makedirs(f"{top}/d/shut")
        os.chmod(f"{top}/d/shut", 0o000)
        client = server.client()
        client.ask(["watch", top])
        wanted = f"{top}: a crawl failed at {top}/d/shut: 13 DeviceFailed"
        server.says("the folder that a crawl can't read", wanted)
        before = len(server.lines())
        os.chmod(f"{top}/d/shut", 0o755)
        client.ask(["recrawl", top])
        check("none of a crawl that succeeds", len(server.lines()) == before and names(client, top)["files"], server.whole())
        os.chmod(top, 0o000)
        client.ask(["recrawl", top])
        server.says("a root that a crawl can't read", wanted, f"{top}: a crawl failed at {top}: 13 DeviceFailed")
        os.chmod(top, 0o755)
        os.rename(top, top + ".away")
        client.ask(["watch-del", top])
        client.ask(["recrawl", top])
        check("none of a root that isn't watched", len(server.lines()) == 2, server.whole())


@contextlib.contextmanager
def triggered(*words):
    with logged(*words) as server:
        top = tree(f"{server.folder}/T")
        client = server.client()
        client.ask(["watch", top])
        names(client, top)
        yield server, top, client


def define(client, top, name, *command):
    client.reply(["trigger", top, {"name": name, "command": list(command), "expression": ["suffix", "go"]}])


def trigger_ends():
    for command, line in [
        (["nosuch"], "couldn't start the trigger t: nosuch: no such file"),
        (["./none"], "couldn't start the trigger t: ./none: no such file"),
        (["./a\nb"], "couldn't start the trigger t: ./a\\x0ab: no such file"),
        (["./plain/a"], "couldn't start the trigger t: ./plain/a: no such file"),
        (["./plain"], "couldn't start the trigger t: ./plain: no permission"),
        (["/"], "couldn't start the trigger t: /: no permission"),
        (["./text"], "couldn't start the trigger t: ./text: the system can't run such a file"),
        (["sh", "-c", "exit 3"], "the trigger t ended with status 3"),
        (["sh", "-c", "exit 255"], "the trigger t ended with status 255"),
        (["sh", "-c", "kill -9 $$"], "the trigger t was ended by signal 9"),
        (["sh", "-c", "kill -TERM $$"], "the trigger t was ended by signal 15"),
    ]:
        with triggered() as (server, top, client):
            for name, mode in ("plain", 0o644), ("text", 0o755):
                with open(f"{top}/{name}", "w") as file:
                    file.write("a text\n")
                os.chmod(file.name, mode)
            define(client, top, "t", *command)
            client.ask(["observe", top, [["x.go", FILE]]])
            server.says(f"a trigger by {' '.join(command)}", f"{top}: {line}")
    with triggered() as (server, top, client):
        define(client, top, "well", "sh", "-c", f"echo > {server.folder}/ran")
        client.ask(["observe", top, [["x.go", FILE]]])
        ran = until(lambda: os.path.exists(f"{server.folder}/ran"))
        time.sleep(0.3)
        check("none of a trigger that ends with 0", ran and server.lines() == [], server.whole())


def too_many_files():
    """The paths of a trigger's files are longer together than any limit of the system's, which is 6 MB at most."""
    with triggered() as (server, top, client):
        for part in range(10):
            client.ask(["observe", top, [[f"{part}.{number:04}.{'n' * 194}", FILE] for number in range(3500)]])
        client.reply(["trigger", top, {"name": "t", "command": ["true"], "append_files": True}])
        server.says("a trigger by more files than a start takes",
                    f"{top}: couldn't start the trigger t: true: its arguments are too long together")


def two_triggers():
    """Two triggers that can't be started are both named, and each once a second."""
    with triggered() as (server, top, client):
        define(client, top, "a", "./none")
        define(client, top, "b", "./none")
        end = time.time() + 2.5
        while time.time() < end:
            client.ask(["observe", top, [["x.go", {**FILE, "size": time.monotonic_ns() % 1000000}]]])
            time.sleep(0.02)
        for name in "ab":
            lines = [line for line in server.whole()
                     if line.endswith(f" {top}: couldn't start the trigger {name}: ./none: no such file".encode())]
            check(f"the trigger {name} is named", 2 <= len(lines) <= 4, server.whole())
            check("once a second", len({line[:20] for line in lines}) == len(lines), lines)


def deleted_trigger():
    """One that is deleted while it is due isn't said to have failed."""
    with triggered() as (server, top, client):
        wait = f"while [ ! -e {server.folder}/go ]; do sleep 0.02; done"
        define(client, top, "slow", "sh", "-c", f"echo > {server.folder}/began; {wait}; echo > {server.folder}/over")
        define(client, top, "b", "./none")
        client.ask(["observe", top, [["x.go", FILE]]])
        until(lambda: os.path.exists(f"{server.folder}/began"))
        client.ask(["trigger-del", top, "b"])
        open(f"{server.folder}/go", "w").close()
        over = until(lambda: os.path.exists(f"{server.folder}/over"))
        time.sleep(0.5)
        check("none of a trigger that was deleted before its start", over and server.lines() == [], server.whole())


def session_refused():
    with logged() as server:
        kept = [server.client() for _ in range(SLOTS)]
        answered = [client.ask(["version"]) for client in kept]
        reply = server.client().line()
        server.says("a session that finds no slot", "refused a session: 17 TooMany")
        check("which gets that reply as ever", all(answered) and reply == TOO_MANY, reply)


def one_a_second():
    """Many sessions are refused within some seconds: no two lines are of one second."""
    with logged() as server:
        kept = [server.client() for _ in range(SLOTS)]
        for client in kept:
            client.ask(["version"])
        end = time.time() + 3.5
        refused = 0
        while time.time() < end:
            server.client().line()
            refused += 1
        lines = server.whole()
        check("many are refused, and some lines come", refused > 20 and 3 <= len(lines) <= 5, (refused, lines))
        check("no two of one second", len({line[:20] for line in lines}) == len(lines), lines)


def client_cut_off():
    """A client that doesn't read is cut off after ten seconds, and the line says so once."""
    with logged() as server:
        top = tree(f"{server.folder}/T", **{f"d/{'n' * 200}{i}": "" for i in range(400)})
        lazy, other = server.client(), server.client()
        lazy.ask(["watch", top])
        names(other, top)
        asked = b'["query","%s",{"fields":["name"]}]\n' % top.encode()
        with contextlib.suppress(OSError):
            lazy.socket.settimeout(30)
            for _ in range(2000):
                lazy.socket.sendall(asked)
                if server.lines():
                    break
        server.says("a client that doesn't read its replies", "cut off a client that didn't read", seconds=30)
        time.sleep(1)
        server.says("is told of once", "cut off a client that didn't read")
        check("others are served on", names(other, top)["files"], "")


def subscriber_cut_off():
    with logged() as server:
        top = tree(f"{server.folder}/T")
        lazy, other = server.client(), server.client()
        other.ask(["watch", top])
        names(other, top)
        lazy.ask(["subscribe", top, "s", {"fields": ["name"]}])
        pairs = [[f"{'n' * 200}{i}", FILE] for i in range(200)]

        def changed():
            other.ask(["observe", top, [[name, {**FILE, "size": time.monotonic_ns() % 1000000}] for name, _ in pairs]])
            return server.lines()
        until(changed, 40)
        server.says("a subscriber that doesn't read", "cut off a client that didn't read", seconds=30)


def client_that_goes():
    """A client that closes its end isn't cut off."""
    with logged() as server:
        top = tree(f"{server.folder}/T", **{f"d/{'n' * 200}{i}": "" for i in range(400)})
        client = server.client()
        client.ask(["watch", top])
        names(client, top)
        for _ in range(20):
            gone = server.client()
            gone.send(["query", top, {"fields": ["name"]}])
            gone.close()
        client.ask(["version"])
        time.sleep(0.3)
        server.says("none of clients that go")


def state_file_fails():
    """A state file that can't be written fails a command; a later one is refused without a line."""
    with folder() as made, Server(programs.watchmand, made,
                                  preexec_fn=lambda: signal.signal(signal.SIGXFSZ, signal.SIG_IGN)) as server:
        # from now on no file takes a byte
        resource.prlimit(server.process.pid, resource.RLIMIT_FSIZE, (0, 0))
        client = server.client()
        first = client.reply(["watch", made])
        time.sleep(1.1)
        later = client.reply(["watch", made])
        time.sleep(0.3)
        server.end()
        lines = server.process.stderr.read().splitlines()
    refused = (first.get("error"), later.get("error")) == ("13 DeviceFailed", "12 StoreFailed")
    check("a command that the disk refuses, and a later one", refused, (first, later))
    wanted = [b"the state file failed; commands that change it are refused until a restart"]
    check("a state file that fails, reported once", [line[21:] for line in lines] == wanted, lines)


def forgotten():
    """A line has the last tick that an age-out forgot: one by the interval, and one that is asked for. No line comes of one that
    forgets nothing."""
    with logged("--gc-age", "0", "--gc-interval", "0") as server:
        top = tree(f"{server.folder}/T")
        client = server.client()
        client.ask(["watch", top])
        names(client, top)
        deleted = client.reply(["observe", top, [["x", FILE]]]), client.reply(["observe", top, [["x", None]]])
        check("a path comes and goes", [reply.get("clock", "").split(":")[-1] for reply in deleted] == ["2", "3"], deleted)
        check("no line before something is forgotten", server.lines() == [], server.whole())
        client.ask(["observe", top, [["y", FILE]]])
        wanted = f"{top}: forgot paths that were deleted up to tick 3"
        server.says("what an operation's age-out forgets", wanted)
        time.sleep(1.1)  # another second, or a further line would be left out
        client.ask(["observe", top, [["z", FILE]]])
        time.sleep(0.3)
        server.says("none of an age-out that forgets nothing", wanted)
        client.ask(["observe", top, [["y", None]]])
        client.ask(["age-out", top, 0])
        server.says("what an age-out forgets that is asked for", wanted, f"{top}: forgot paths that were deleted up to tick 6")
        client.ask(["observe", top, [["z", None]]])
        time.sleep(1.1)
        client.ask(["recrawl", top])
        server.says("what a crawl's age-out forgets", wanted, f"{top}: forgot paths that were deleted up to tick 6",
                    f"{top}: forgot paths that were deleted up to tick 7")


def quiet():
    with logged("--quiet", prepare=dead_socket) as server:
        kept = [server.client() for _ in range(SLOTS)]
        for client in kept:
            client.ask(["version"])
        server.client().line()
        check("a server that is quiet is ready as ever", server.ready == b"ready\n", server.ready)
        time.sleep(0.3)
        server.says("and writes nothing")


def drained_at_the_end():
    """What was logged right before the end is written, and a server ends though its standard error is closed."""
    with logged("--sessions", "1", prepare=dead_socket) as server:
        server.client().close()
        status = server.process.wait(20)
        check("a server that ends", status == 0 and server.lines() == [f"took over the socket {server.path}"],
              (status, server.whole()))
    reader, writer = os.pipe()
    os.close(reader)
    with folder() as made:
        dead_socket(made)
        with Server(programs.watchmand, made, "--sessions", "1", stderr=writer) as server:
            os.close(writer)
            reply = server.client().ask(["version"])
            ended = server.process.wait(20)
            check("a log that nobody reads ends no server", server.ready == b"ready\n" and reply and ended == 0,
                  (server.ready, reply))


CASES = [socket_taken_over, shut_folder, trigger_ends, too_many_files, two_triggers, deleted_trigger, session_refused,
         one_a_second, client_cut_off, subscriber_cut_off, client_that_goes, state_file_fails,
         forgotten, quiet, drained_at_the_end]
