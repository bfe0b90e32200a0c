"""Events that are lost, processes that are stopped or killed, questions about now, and how soon a change is known."""
import functools, json, os, random, shutil, signal, stat, statistics, subprocess, time

from feed_site import changed_much, crawled, is_running, later, site, tree, view, write
from server import at_once, check, programs, until


def queue_overflow():
    """inotifywait is stopped while more happens than the system keeps for it."""
    with open("/proc/sys/fs/inotify/max_queued_events") as text:
        most = int(text.read())
    with site() as made:
        watcher = made.watcher()
        os.kill(watcher, signal.SIGSTOP)
        for n in range(most // 2 + 1000):
            os.mknod(f"{made.root}/f{n}")
        os.makedirs(made.root + "/late/deep")
        os.kill(watcher, signal.SIGCONT)
        made.equal(f"more than {most} events at once", 30)
        write(made.root + "/late/deep/file", "x")
        made.equal("and a folder that was made then is watched")


def stopped(name, pick):
    """A process is stopped for two seconds while much happens, and continued."""
    with site(before=lambda root: tree(root, [f"d{n}/e" for n in range(20)], 5)) as made:
        for n in range(2):
            process = pick(made)
            os.kill(process, signal.SIGSTOP)
            changed_much(made.root, programs.seed + n)
            time.sleep(2)
            os.kill(process, signal.SIGCONT)
            made.equal("for two seconds")
            later(made.root)
            made.equal("and what happens in each folder later")
        made.goes_on()


def feed_stopped():
    stopped("feed_stopped", lambda made: made.feed.pid)


def inotifywait_stopped():
    stopped("inotifywait_stopped", lambda made: made.watcher())


def server_stopped():
    stopped("server_stopped", lambda made: made.server.process.pid)


def inotifywait_killed():
    with site(before=lambda root: tree(root, ["d/e"], 3)) as made:
        for n in range(5):
            watcher = made.watcher()
            write(f"{made.root}/d/before{n}")
            os.kill(watcher, signal.SIGKILL)
            tree(made.root, [f"made{n}/then"], 2)
            made.equal(f"killed {n}")
            check("it is started anew", until(lambda: made.watcher() not in (None, watcher), 10), made.watcher())
            write(f"{made.root}/made{n}/then/file")
            made.equal(f"and what happens then {n}")
        made.goes_on()


def nothing_survives():
    """inotifywait ends with a feed, however that ends."""
    # a shell that starts this in its background has it ignore SIGINT, and nohup SIGHUP, and so its children would
    signal.signal(signal.SIGINT, signal.default_int_handler)
    signal.signal(signal.SIGHUP, signal.SIG_DFL)
    for how in (signal.SIGKILL, signal.SIGTERM, signal.SIGINT, signal.SIGHUP):
        with site() as made:
            watchers = made.watchers()
            made.feed.send_signal(how)
            ended = made.feed.wait(10)
            check(f"a feed ends by {how.name}", ended == -how, ended)
            check(f"inotifywait ends with a feed that gets {how.name}",
                  watchers and until(lambda: not any(map(is_running, watchers)), 5), watchers)


def limit_of_watches():
    """What inotifywait says about the limit of watches is shown, and the feed goes on once there are more."""
    apart = ["unshare", "--user", "--map-root-user"]
    if not shutil.which("unshare") or subprocess.run([*apart, "sh", "-c", "echo 1000 > /proc/sys/user/max_inotify_watches"],
                                                     capture_output=True).returncode:
        return print("skip   a namespace with a limit of its own can't be made")
    with site(fed=False, before=lambda root: tree(root, [f"d{n}" for n in range(40)], 1)) as made:
        made.watch()
        made.start_feed(before=[*apart, "sh", "-c", 'echo 20 > /proc/sys/user/max_inotify_watches && exec "$@"', "-"],
                        of_root=False)
        check("the sysctl to raise is shown", until(lambda: "max_user_watches" in made.words_of_feed(), 10), made.words_of_feed())
        time.sleep(3)
        made.goes_on()
        check("it is shown once", made.words_of_feed().count("max_user_watches") == 1, made.words_of_feed())
        raised = subprocess.run(["nsenter", "-t", str(made.feed.pid), "-U", "sh", "-c",
                                 "echo 1000 > /proc/sys/user/max_inotify_watches"], capture_output=True)
        check("it is raised", raised.returncode == 0, raised)
        later(made.root)
        made.equal("and all is told then", 30)


def clock_of(made, root=None):
    return made.ask(["clock", root or made.root])["clock"]


def marks(made, root=None):
    """The folder where a file of a client is a question whether all before it is known. It is named by the root's number."""
    folder = f"{made.path}.sync/{clock_of(made, root).split(':')[2]}"
    until(lambda: os.path.isdir(folder), 10)
    return folder


def synced(folder, name, seconds=10):
    """Makes a file there and waits until the feed took it away; whether it did."""
    mark = f"{folder}/{name}"
    os.close(os.open(mark, os.O_CREAT | os.O_WRONLY, 0o600))
    end = time.monotonic() + seconds
    while os.path.lexists(mark):
        if time.monotonic() > end:
            return False
        time.sleep(0.0002)
    return True


class Tree:
    """Changes that each of the rounds makes one of, in folders that are made just before among others."""

    def __init__(self, root, seed):
        self.root, self.random, self.made = root, random.Random(seed), 0

    def folders(self):
        return [top for top, _, _ in os.walk(self.root)]

    def files(self):
        return [f"{top}/{name}" for top, _, names in os.walk(self.root) for name in names]

    def fresh(self, folder):
        self.made += 1
        return f"{folder}/{self.random.choice('aez~')}{self.made}"

    def write(self):
        files = self.files()
        write(self.random.choice(files) if files and self.made % 2 else self.fresh(self.random.choice(self.folders())),
              "x" * self.random.randrange(100), "a")

    def folder_and_file(self):
        path = self.fresh(self.random.choice(self.folders()))
        for _ in range(self.random.randrange(4)):
            path = self.fresh(path)
        os.makedirs(path)
        write(self.fresh(path), "in a new folder")

    def rename_file(self):
        if files := self.files():
            os.rename(self.random.choice(files), self.fresh(self.random.choice(self.folders())))

    def rename_folder(self):
        if folders := self.folders()[1:]:
            moved = self.random.choice(folders)
            into = self.random.choice([folder for folder in self.folders() if not (folder + "/").startswith(moved + "/")])
            os.rename(moved, self.fresh(into))

    def delete(self):
        found = self.files() + self.folders()[1:]
        if len(found) > 60:
            path = self.random.choice(found)
            shutil.rmtree(path) if os.path.isdir(path) else os.unlink(path)

    def change(self):
        kind = self.random.choice([self.write, self.write, self.folder_and_file, self.rename_file, self.rename_folder,
                                   self.delete, self.delete])
        kind()
        return kind.__name__


def sync_rounds():
    """A change, a sync and a question, round by round: no change is missed."""
    with site(before=lambda root: tree(root, [f"d{n}/e" for n in range(10)], 3)) as made:
        folder, changes = marks(made), Tree(made.root, programs.seed)
        missed, late, times = [], 0, []
        for n in range(programs.rounds * 10):
            kinds = [changes.change() for _ in range(changes.random.choice([1, 1, 1, 2, 5]))]
            began = time.perf_counter()
            if not synced(folder, f"round{n}"):
                late += 1
            times.append((time.perf_counter() - began) * 1000)
            held, wanted = made.view(), crawled(made.root)
            if held != wanted:
                missed.append((n, kinds, [path for path in set(held) | set(wanted) if held.get(path) != wanted.get(path)][:3]))
        times.sort()
        print(f"       sync_rounds: {len(times)} syncs: median {statistics.median(times):.1f} ms, "
              f"99th percentile {times[len(times) * 99 // 100]:.1f} ms, longest {times[-1]:.0f} ms")
        check("each is answered", late == 0, late)
        check(f"no change is missed in {len(times)}", not missed, (len(missed), missed[:3]))
        made.equal("and after the last")


def sync_of_much():
    """A sync after 5,000 files in new folders, and one after a moved folder and a feed that is stopped."""
    with site() as made:
        folder = marks(made)
        for n in range(3):
            tree(f"{made.root}/t{n}", [f"d{m}/e" for m in range(50)], 100)
            check("5,000 files in 100 new folders", synced(folder, f"much{n}", 30) and made.view() == crawled(made.root))
            os.rename(f"{made.root}/t{n}", f"{made.root}/moved{n}")
            check("and all of them moved", synced(folder, f"moved{n}", 30) and made.view() == crawled(made.root))
        os.kill(made.feed.pid, signal.SIGSTOP)
        tree(made.root, ["while/it/stops"], 3)
        check("a feed that is stopped answers nothing", not synced(folder, "stopped", 0.5))
        os.kill(made.feed.pid, signal.SIGCONT)
        check("and all of it then", until(lambda: not os.path.exists(folder + "/stopped"), 10)
              and made.view() == crawled(made.root))


def sync_by_many():
    """Eight clients sync at once, each after a change of its own."""
    with site() as made:
        folder, wrong = marks(made), []

        def run(n):
            mine = made.client()
            for m in range(20):
                os.makedirs(f"{made.root}/by{n}/{m}")
                write(f"{made.root}/by{n}/{m}/file", "x")
                if not synced(folder, f"{n}-{m}") or f"by{n}/{m}/file" not in view(mine, made.root):
                    wrong.append((n, m))

        with at_once([functools.partial(run, n) for n in range(8)]):
            pass
        check("eight at once, 20 rounds", not wrong, wrong[:5])


def sync_of_two_roots():
    with site() as made:
        other = made.folder + "/other"
        tree(other, ["d"], 1)
        made.watch(other)
        if programs.of_root:
            return print("skip   a feed of a root has only one")
        made.await_feed(other)
        for n in range(50):
            root = (made.root, other)[n % 2]
            tree(root, [f"n{n}/e"], 1)
            done = synced(marks(made, root), f"m{n}")
            if not done or f"n{n}/e/f0" not in made.view(root):
                return check("sync_of_two_roots", False, (n, done))
        check("sync_of_two_roots", True)


def wmctl(made, request, *words):
    return subprocess.run([programs.wmctl, made.path, json.dumps(request), *words], capture_output=True)


def sync_by_wmctl():
    """`wmctl --sync` asks after all that was done; without a feed it says so."""
    with site() as made:
        missed, folder = [], marks(made)
        for n in range(30):
            os.makedirs(f"{made.root}/n{n}/deep")
            write(f"{made.root}/n{n}/deep/file")
            told = wmctl(made, ["query", made.root, {"expression": ["name", f"n{n}/deep/file", "wholename"], "fields": ["name"]}],
                         "--sync", made.root)
            if told.returncode or json.loads(told.stdout)["files"] != [f"n{n}/deep/file"]:
                missed.append((n, told))
        check("30 files in new folders", not missed, missed[:2])
        for at in (made.path + ".sync", folder):
            check("only the user may use its folder", stat.S_IMODE(os.stat(at).st_mode) == 0o700, oct(os.stat(at).st_mode))
        check("no file is left", os.listdir(folder) == [], os.listdir(folder))
        before = made.view()
        check("none is in the root", before == crawled(made.root))
        told = wmctl(made, ["clock", made.folder + "/nowhere"], "--sync", made.folder + "/nowhere")
        check("a root that isn't watched", told.returncode in (1, 3), told)
        made.end_feed()
        began = time.perf_counter()
        told = wmctl(made, ["clock", made.root], "--sync", made.root, "--sync-timeout", "300")
        took = time.perf_counter() - began
        check("a feed that was killed: status 3",
              told.returncode == 3 and told.stderr == b"wmctl: no feed\n" and told.stdout == b"", told)
        check(f"after its time-out: {took * 1000:.0f} ms", 0.25 < took < 10, took)
        made.start_feed()
        made.await_feed()
        told = wmctl(made, ["clock", made.root], "--sync", made.root)
        check("a feed that was started again", told.returncode == 0, told)
    with site(fed=False) as made:
        made.watch()
        told = wmctl(made, ["clock", made.root], "--sync", made.root)
        check("no feed at all: status 3",
              told.returncode == 3 and told.stderr == b"wmctl: no feed\n" and told.stdout == b"", told)


def every_event():
    """A changed mode, and a write of the same size and time, are reported by a feed that is asked to."""
    def same_again(path, kept):
        write(path, chr(ord("a") + kept["n"] % 26) * 5)
        os.utime(path, ns=(10**18, 10**18))

    with site(before=lambda root: tree(root, ["d/e"], 5), words=["--every-event"]) as made:
        kept = {"n": 0}
        folder, wrong = marks(made), []
        for n in range(5):
            os.utime(f"{made.root}/d/e/f{n}", ns=(10**18, 10**18))
            same_again(f"{made.root}/d/e/f{n}", kept)
        synced(folder, "first")
        for n in range(100):
            path, kept["n"] = f"d/e/f{n % 5}", n
            clock = clock_of(made)
            if n % 2:
                os.chmod(f"{made.root}/{path}", 0o644 if n % 4 == 1 else 0o755)
            else:
                same_again(f"{made.root}/{path}", kept)
            done = synced(folder, f"m{n}")
            told = made.ask(["query", made.root, {"since": clock, "fields": ["name"]}])
            if not done or path not in told.get("files", []):
                wrong.append((n, done, told))
        check("100 changes that show nothing new are reported", not wrong, (len(wrong), wrong[:2]))
        made.equal("and the view is the folder")
        chmod = clock_of(made)
        time.sleep(1)
        check("nothing is reported when nothing happens", clock_of(made) == chmod)
    with site(before=lambda root: tree(root, ["d"], 1)) as made:
        folder = marks(made)
        clock = clock_of(made)
        os.chmod(made.root + "/d/f0", 0o755)
        synced(folder, "chmod")
        check("without it a changed mode is no change", clock_of(made) == clock)


def latency():
    """A saved file until a subscriber's line: printed, and none is lost."""
    with site(before=lambda root: [os.makedirs(f"{root}/d{n}") for n in range(50)]) as made:
        client = made.client()
        client.reply(["subscribe", made.root, "s", {"fields": ["name"]}])
        client.next()
        times = []
        for n in range(60):
            began = time.perf_counter()
            write(f"{made.root}/d{n % 50}/file{n}", "x" * n)
            while f"d{n % 50}/file{n}" not in client.next()["files"]:
                pass
            times.append((time.perf_counter() - began) * 1000)
            time.sleep(0.05)
        times.sort()
        check(f"a saved file until a subscriber's line: median {times[30]:.1f} ms, longest {times[-1]:.0f} ms, of 60",
              times[53] < 10_000, times)


CASES = [queue_overflow, feed_stopped, inotifywait_stopped, server_stopped, inotifywait_killed, nothing_survives,
         limit_of_watches, latency, sync_rounds, sync_of_much, sync_by_many, sync_of_two_roots, sync_by_wmctl, every_event]
