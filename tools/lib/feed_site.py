"""A server with a root and a feed, the content of a folder, whether the server's view is that, and random changes of a folder."""
import contextlib, os, random, shutil, stat, subprocess, time

from server import Client, Server, check, folder, programs, until

# For so long a view may differ from its folder: a case fails by a view that stays wrong, not by a slow machine.
PATIENCE = 10


def processor_of(process):
    """The processor time that a process has had, in milliseconds."""
    with open(f"/proc/{process}/stat") as text:
        fields = text.read().rsplit(") ", 1)[1].split()
    return (int(fields[11]) + int(fields[12])) * 1000 / os.sysconf("SC_CLK_TCK")


def is_running(process):
    return os.path.exists(f"/proc/{process}")


def children(process):
    """The children of a process, each with its name."""
    found = {}
    with contextlib.suppress(OSError), open(f"/proc/{process}/task/{process}/children") as text:
        for child in map(int, text.read().split()):
            with contextlib.suppress(OSError), open(f"/proc/{child}/comm") as name:
                found[child] = name.read().strip()
    return found


class Site:
    """A folder with a root, a server, and a feed. The words `user` start a program as another user."""

    def __init__(self, place, root="root", user=()):
        self.folder, self.path, self.root = place, place + "/socket", f"{place}/{root}"
        self.user, self.errors = list(user), place + "/errors"
        os.makedirs(self.root, exist_ok=True)
        self.feed = self.server = None

    def start_server(self):
        self.server, self.viewer = Server(programs.watchmand, self.folder, before=self.user), None
        assert self.server.ready == b"ready\n"

    def start_feed(self, *words, before=(), of_root=None, **how):
        """Starts a feed of the root, or of all roots, with these words more."""
        root = [self.root] if (programs.of_root if of_root is None else of_root) else []
        with open(self.errors, "ab") as errors:
            self.feed = subprocess.Popen([*self.user, *before, programs.wmfeed, *words, self.path, *root], stderr=errors, **how)

    def words_of_feed(self):
        with open(self.errors) as errors:
            return errors.read()

    def client(self):
        return Client(self.path)

    def watch(self, root=None):
        with self.client() as client:
            return client.reply(["watch", root or self.root])

    def await_feed(self, root=None):
        """Waits until the changes of a root are reported."""
        root = root or self.root
        mark = root + "/.mark"
        with self.client() as client:
            until(lambda: view(client, root) is not None)
            until(lambda: [open(mark, "w").close(), time.sleep(0.05)] and ".mark" in view(client, root))
            os.unlink(mark)
            until(lambda: ".mark" not in view(client, root))

    def watchers(self):
        """The processes of inotifywait that the feed started."""
        return [child for child, name in children(self.feed.pid).items() if name == "inotifywait"]

    def watcher(self):
        found = self.watchers()
        return found[0] if found else None

    def processor(self):
        """The processor time of the server, the feed and inotifywait, in milliseconds."""
        return sum(map(processor_of, [self.server.process.pid, self.feed.pid, *self.watchers()]))

    def ask(self, request):
        """The reply to a request by a client of the site's own."""
        self.viewer = self.viewer or self.client()
        return self.viewer.reply(request)

    def view(self, root=None):
        self.viewer = self.viewer or self.client()
        return view(self.viewer, root or self.root)

    def settle(self, seconds=PATIENCE, root=None, closed=()):
        """Waits until the view is the folder's content; the milliseconds that took, and the differences if it never is."""
        wanted, began = crawled(root or self.root, closed), time.perf_counter()
        until(lambda: self.view(root) == wanted, seconds)
        return (time.perf_counter() - began) * 1000, differences(self.view(root), wanted)

    def equal(self, what, seconds=PATIENCE, root=None, closed=()):
        """The view is the folder's content, and stays so."""
        took, differs = self.settle(seconds, root, closed)
        if not differs:
            time.sleep(0.3)
            differs = differences(self.view(root), crawled(root or self.root, closed))
        check(f"{what}: {took:.0f} ms", not differs, differs)

    def lives(self):
        return self.feed.poll() is None

    def goes_on(self, what="the feed goes on"):
        check(what, self.lives(), (self.feed.poll(), self.words_of_feed()))

    def end_feed(self):
        self.feed.kill()
        self.feed.wait()

    def end(self):
        if self.feed:
            self.end_feed()
        if self.server:
            self.server.end()


@contextlib.contextmanager
def site(fed=True, before=None, user=(), owner=None, root="root", words=()):
    """A server, and a feed with these words more unless it isn't wanted; `before` fills the root at first."""
    with folder(prefix="wmfeed-") as place:
        made = Site(place, root, user)
        try:
            if before:
                before(made.root)
            if owner:
                subprocess.run(["chown", "-R", str(owner), place], check=True)
            made.start_server()
            if fed:
                made.watch()
                made.start_feed(*words)
                made.await_feed()
            yield made
        finally:
            made.end()


LETTERS = {stat.S_IFREG: "f", stat.S_IFDIR: "d", stat.S_IFLNK: "l"}


def metadata(path):
    """The metadata of a path as a request has it."""
    seen = os.lstat(path)
    return {"mtime_ms": seen.st_mtime_ns // 10**6, "size": seen.st_size, "type": LETTERS.get(stat.S_IFMT(seen.st_mode), "o")}



def crawled(root, closed=()):
    """All below a root, but for the content of these folders: the kind, size and time of each path that a view can hold."""
    found, folders = {}, [""]
    while folders:
        above = folders.pop()
        for entry in os.scandir(os.fsencode(f"{root}/{above}")):
            try:
                name = entry.name.decode()
            except UnicodeDecodeError:
                continue
            path = f"{above}/{name}" if above else name
            if len(path.encode()) > 1024:
                continue
            seen = entry.stat(follow_symlinks=False)
            kind = LETTERS.get(stat.S_IFMT(seen.st_mode), "o")
            # a time before 1970 is reported as 0
            found[path] = (kind, seen.st_size, max(seen.st_mtime_ns // 1_000_000, 0))
            if kind == "d" and path not in closed:
                folders.append(path)
    return found


def view(client, root):
    """The server's view of a root, as `crawled` gives a folder; None if the server refuses it."""
    reply = client.reply(["query", root, {"fields": ["name", "type", "size", "mtime_ms"], "expression": "exists"}])
    return {f["name"]: (f["type"], f["size"], f["mtime_ms"]) for f in reply["files"]} if "files" in reply else None


def differences(held, wanted):
    """Some paths of which two views differ."""
    held = held or {}
    return sorted((path, held.get(path), wanted.get(path)) for path in {*held, *wanted} if held.get(path) != wanted.get(path))[:5]


def tree(top, folders, files):
    """So many files in each of these folders."""
    for name in folders:
        os.makedirs(f"{top}/{name}", exist_ok=True)
        for n in range(files):
            write(f"{top}/{name}/f{n}", str(n))


def write(path, text="x", how="w"):
    with open(path, how) as file:
        file.write(text)


def later(root):
    """Something happens in each folder of a root."""
    for top, _, _ in list(os.walk(root)):
        write(top + "/later", "later", "a")


def changed_much(root, seed):
    """Changes of every kind, without a pause."""
    changer = Changer(root, seed)
    for _ in range(150):
        with contextlib.suppress(OSError):
            changer.change()
    tree(root, [f"while{seed}/a/b", f"while{seed}/c"], 3)


NAMES = ["a", "b c", "new\nline", "col:on,comma", "é\U0001F600", "tab\t", "-", "*", "q\"uote\\", "Watches established."]


class Changer:
    """Random changes of a folder: each is one of these methods. If several change one folder at once no link leads above the root
    (`up`): one that takes a folder's place while another one reads it would have the root itself removed or renamed."""

    def __init__(self, root, seed, up=".."):
        self.root, self.random, self.up = root, random.Random(seed), up

    def folders(self):
        return [root for root, _, _ in os.walk(self.root)]

    def folder(self):
        return self.random.choice(self.folders())

    def name(self):
        return self.random.choice(NAMES) + str(self.random.randrange(20))

    def entries(self, folder):
        return [entry.path for entry in os.scandir(folder)]

    def any(self, which=lambda path: True):
        found = [path for folder in self.folders() for path in self.entries(folder) if which(path)]
        return self.random.choice(found) if found else None

    def write(self):
        path = f"{self.folder()}/{self.name()}"
        if not os.path.isdir(path) and not os.path.islink(path):
            with open(path, self.random.choice("wa")) as file:
                file.write("x" * self.random.randrange(1000))

    def bytes_name(self):
        with contextlib.suppress(OSError):
            os.close(os.open(os.fsencode(self.folder()) + b"/\xff" + str(self.random.randrange(5)).encode(),
                             os.O_CREAT | os.O_WRONLY))

    def folders_deep(self):
        path = self.folder()
        for _ in range(self.random.randrange(1, 5)):
            path += "/" + self.name()
            with contextlib.suppress(OSError):
                os.mkdir(path)
                open(path + "/" + self.name(), "w").close()

    def link(self):
        with contextlib.suppress(OSError):
            os.symlink(self.random.choice([".", self.up, "nowhere", self.folder()]), f"{self.folder()}/{self.name()}")

    def remove(self):
        path = self.any()
        if path and os.path.isdir(path) and not os.path.islink(path):
            shutil.rmtree(path, ignore_errors=True)
        elif path:
            os.unlink(path)

    def move(self):
        path = self.any()
        if path:
            with contextlib.suppress(OSError):
                os.rename(path, f"{self.folder()}/{self.name()}")

    def move_out_and_in(self):
        path = self.any(os.path.isdir)
        if path and not os.path.islink(path):
            with contextlib.suppress(OSError):
                os.rename(path, self.root + ".out")
                os.rename(self.root + ".out", f"{self.folder()}/{self.name()}")
            shutil.rmtree(self.root + ".out", ignore_errors=True)

    def touch(self):
        path = self.any()
        if path and not os.path.islink(path):
            os.utime(path, ns=(0, self.random.randrange(10**18)))

    def rights(self):
        path = self.any(os.path.isfile)
        if path and not os.path.islink(path):
            os.chmod(path, self.random.choice([0o600, 0o644, 0o400]))

    def swap(self):
        """A folder becomes a link or a file, and the other way round."""
        path = self.any(os.path.isdir)
        if path and not os.path.islink(path):
            shutil.rmtree(path, ignore_errors=True)
            with contextlib.suppress(OSError):
                os.symlink(self.up, path) if self.random.random() < 0.5 else open(path, "w").close()

    def change(self):
        steps = [self.write] * 6 + [self.folders_deep] * 2 + [self.remove] * 2 + [self.move] * 2
        self.random.choice(steps + [self.bytes_name, self.link, self.move_out_and_in, self.touch, self.rights, self.swap])()
