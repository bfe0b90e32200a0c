"""For the scripts that try a server: checks, waits, state files, a client of a socket, and a server over a folder of its own."""
import argparse, contextlib, gzip, json, os, resource, shutil, signal, socket, subprocess, tempfile, threading, time

TOP = os.path.dirname(os.path.dirname(os.path.dirname(os.path.abspath(__file__))))
# State files of version 1, which an earlier program made.
KEPT = f"{TOP}/tools/try/kept_files"
NAMES = ("watchmand", "wmctl", "wmfeed", "wm")
VERSION = b'{"version":"w1"}\n'
TOO_MANY = b'{"error":"17 TooMany","version":"w1"}\n'
FILE = {"mtime_ms": 0, "size": 1, "type": "f"}
NOBODY = 65534
AS_NOBODY = ["setpriv", f"--reuid={NOBODY}", f"--regid={NOBODY}", "--clear-groups"]

# The four programs by name, and the other words of tools/try.py.
programs = argparse.Namespace()
failed = []


def built(where=None):
    """The four programs: those of a folder, those of paths in the order of NAMES, or else those that were built here."""
    if where and len(where) == 1 and os.path.isdir(where[0]):
        where = [f"{where[0]}/{name}" for name in NAMES]
    return dict(zip(NAMES, map(os.path.abspath, where or [f"{TOP}/crates/{name}/out/{name}" for name in NAMES])))


def check(what, holds, seen=""):
    print(("ok     " if holds else "FAILED ") + what + ("" if holds else f": {seen!r}"), flush=True)
    if not holds:
        failed.append(what)


def until(look, seconds=20):
    """The value of `look()` as soon as it is true, or the last one once the time is over."""
    end = time.time() + seconds
    while time.time() < end:
        seen = look()
        if seen:
            return seen
        time.sleep(0.02)
    return look()


@contextlib.contextmanager
def at_once(calls):
    """Each of these calls in a thread of its own; all have ended at the end of the block."""
    threads = [threading.Thread(target=call) for call in calls]
    for thread in threads:
        thread.start()
    yield threads
    for thread in threads:
        thread.join()


def unpack(name, path):
    """Writes a kept file to the path."""
    with gzip.open(f"{KEPT}/{name}.gz") as packed, open(path, "wb") as file:
        file.write(packed.read())


def new_state(program, path, version=2, before=(), **how):
    """A new state file: `format` makes one of version 2; an earlier `format` made that of version 1."""
    if version == 1:
        unpack("new", path)
    else:
        made = subprocess.run([*before, program, "format", path], capture_output=True, **how)
        assert made.returncode == 0, made


def outcome(ended):
    return ended.returncode, ended.stdout, ended.stderr


def lines_of(requests):
    """Requests as a text of lines."""
    return "".join(json.dumps(request) + "\n" for request in requests)


def run_lines(program, path, requests, *before, **how):
    """A finished `watchmand lines` over the file, after the words of a tracer if there are any."""
    return subprocess.run([*before, program, "lines", path], input=lines_of(requests), capture_output=True, text=True, **how)


def replies(program, path, requests):
    """The replies of a `watchmand lines` that ends well."""
    ended = run_lines(program, path, requests)
    assert ended.returncode == 0, f"a start over {path} failed: {ended.stderr}"
    return [json.loads(line) for line in ended.stdout.splitlines()]


class Client:
    """A connection to the socket at a path, or one that is given. A request is a value, or a line as bytes without its end."""

    def __init__(self, at, seconds=60):
        self.socket = at if isinstance(at, socket.socket) else socket.socket(socket.AF_UNIX)
        self.socket.settimeout(seconds)
        if self.socket is not at:
            self.socket.connect(at)
        self.lines = self.socket.makefile("rb")

    def __enter__(self):
        return self

    def __exit__(self, *_):
        self.close()

    def close(self):
        with contextlib.suppress(OSError):
            self.lines.close()
        self.socket.close()

    def send(self, request):
        self.socket.sendall((request if isinstance(request, bytes) else json.dumps(request).encode()) + b"\n")

    def line(self):
        """The next line as bytes; none once the connection has ended."""
        return self.lines.readline()

    def next(self):
        """The next line as a value."""
        return json.loads(self.line())

    def ask(self, request):
        """The line that follows a request."""
        self.send(request)
        return self.line()

    def reply(self, request):
        """The same as a value."""
        return json.loads(self.ask(request))


class Server:
    """A server over the state file of a folder, which is made if it isn't there, with further words. `ready` is its first line.
    `before` are words of a program that starts it, `limits` is its limit of descriptors, and `how` is passed to Popen."""

    def __init__(self, program, folder, *words, before=(), limits=None, socket_name="socket", **how):
        self.folder, self.state, self.path = folder, os.path.join(folder, "state"), os.path.join(folder, socket_name)
        if not os.path.exists(os.path.join(how.get("cwd", ""), self.state)):
            alike = {word: how[word] for word in ("cwd", "user", "group", "extra_groups") if word in how}
            new_state(program, self.state, before=before, **alike)
        if limits:
            how["preexec_fn"] = lambda: resource.setrlimit(resource.RLIMIT_NOFILE, limits)
        how = {"stdout": subprocess.PIPE, "stderr": subprocess.PIPE, **how}
        self.process = subprocess.Popen([*before, program, "serve", self.state, self.path, *words], **how)
        self.ready = self.process.stdout.readline()

    def __enter__(self):
        return self

    def __exit__(self, *_):
        self.end()

    def client(self, **how):
        return Client(self.path, **how)

    def end(self, how=signal.SIGKILL):
        """Ends it by a signal; its status."""
        self.process.send_signal(how)
        return self.process.wait(30)

    def wait(self):
        """Its status and all that it wrote to standard error, once it ends by itself."""
        status = self.process.wait(60)
        return status, self.process.stderr.read()

    def memory(self, field="VmRSS"):
        """Its resident memory in kilobytes, or the most of it (VmHWM)."""
        with open(f"/proc/{self.process.pid}/status") as text:
            return next(int(line.split()[1]) for line in text if line.startswith(field))


@contextlib.contextmanager
def folder(**where):
    made = tempfile.mkdtemp(**{"prefix": "watchmand-", **where})
    try:
        yield made
    finally:
        shutil.rmtree(made, ignore_errors=True)


@contextlib.contextmanager
def server(program, *words, **how):
    """A server over a new folder."""
    with folder() as made, Server(program, made, *words, **how) as served:
        yield served


@contextlib.contextmanager
def serving(program, place, *words):
    """The path of the socket of a server over a folder. What it writes to standard error is shown."""
    with Server(program, place, *words, stderr=None) as served:
        yield served.path


def tree(top, **files):
    os.makedirs(top + "/d", exist_ok=True)
    for name, text in {"a": "abc", "d/b": "b", **files}.items():
        with open(f"{top}/{name}", "w") as file:
            file.write(text)
    return top


def names(client, root, **asked):
    """The answer to a query by names, once the root is ready."""
    def look():
        reply = client.reply(["query", root, {"fields": ["name"], **asked}])
        return None if str(reply.get("error", "")).startswith("6") else reply
    return until(look)


@contextlib.contextmanager
def watched(program, *words, **files):
    """A server whose one root, a tree with these files, was crawled; the root, and two clients, the first of which watched it."""
    with server(program, *words) as s:
        top = tree(s.folder + "/T", **files)
        a, b = s.client(), s.client()
        a.ask(["watch", top])
        names(a, top)
        yield s, top, a, b
