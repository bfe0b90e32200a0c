#!/usr/bin/env python3
"""A server with its feed beside Watchman: feed.py WATCHMAND WMFEED [--sizes 1000,100000] [--runs 1] [--syncs 1000] [--json FILE]

Both watch a tree of their own with so many files, ten to a folder, at the same time. Each row's change is made in
the one tree and then in the other. Each figure is printed as ours, theirs and the ratio ours / theirs, by medians
of the runs. Processor time and memory are those of server, feed and inotifywait together, beside those of
Watchman; nobody asks while processor time is taken. With --json FILE gets the figures of each run, with the
machine, the date and its load. bench/peer.sh installs Watchman, and runs this for --feed-only."""
import argparse, json, os, statistics, subprocess, sys, tempfile, time
import asked
from peer import Watchman, Watchmand, machine, show, timed

TICK = 1000 / os.sysconf("SC_CLK_TCK")
FRESH = {"fields": ["name"], "sync_timeout": 0}


def of_all(processes, figure):
    return sum(figure(process) for process in processes)


def processor(process):
    """The milliseconds of processor that a process has had, all its threads together."""
    with open(f"/proc/{process}/stat") as text:
        fields = text.read().rsplit(")", 1)[1].split()
    return (int(fields[11]) + int(fields[12])) * TICK


def kept(process, field):
    """The memory of a process by /proc/PID/smaps_rollup, in MB."""
    with open(f"/proc/{process}/smaps_rollup") as text:
        return next(int(line.split()[1]) / 1024 for line in text if line.startswith(field + ":"))


class Fed(Watchmand):
    """Our server and one feed."""

    def __init__(self, program, folder, feed, of_root):
        super().__init__(program, folder)
        self.program, self.of_root, self.feed = feed, of_root, None

    def watch(self, client, root):
        client.asked("watch", root)
        self.feed = subprocess.Popen([self.program, self.path, *([root] if self.of_root else [])])
        await_it(lambda: "files" in client.asked("query", root, FRESH))

    def processes(self):
        with open(f"/proc/{self.feed.pid}/task/{self.feed.pid}/children") as text:
            return [self.process.pid, self.feed.pid, *map(int, text.read().split())]

    def synced(self, client, root, number, query):
        """A question about now: the feed must first delete a file of its sync folder."""
        mark = f"{self.path}.sync/{client.clock(root).split(':')[2]}/{number}"
        os.close(os.open(mark, os.O_CREAT | os.O_WRONLY, 0o600))
        end = time.monotonic() + 10
        while os.path.lexists(mark):
            assert time.monotonic() < end, "the feed removes no mark"
            time.sleep(0.00005)
        return client.asked("query", root, query)

    def can_sync(self):
        return os.path.isdir(self.path + ".sync")

    def end(self):
        if self.feed:
            self.feed.kill()
            self.feed.wait()
        super().end()


class Peer(Watchman):
    def watch(self, client, root):
        client.asked("watch", root)

    def processes(self):
        return [self.process.pid]

    def synced(self, client, root, number, query):
        """A question about now: Watchman's cookie."""
        return client.asked("query", root, {**query, "sync_timeout": 10000})

    def can_sync(self):
        return True


class Asker(asked.Asker):
    def clock(self, root):
        return self.asked("clock", root)["clock"]

    def changed(self, root, since, expression):
        return self.asked("query", root, {**FRESH, "since": since, "expression": expression}).get("files", [])


def await_it(look, pause=0.001, seconds=120):
    end = time.monotonic() + seconds
    while not look():
        assert time.monotonic() < end, "no end"
        time.sleep(pause)


class Site:
    """A server with a root of its own, and the changes made there."""

    def __init__(self, server, folder, size):
        self.server, self.root, self.size = server, f"{folder}/{server.name}", size
        os.mkdir(self.root)
        self.folders = make_tree(self.root, size)
        self.client = Asker(server.path)
        server.watch(self.client, self.root)
        self.await_file("ready")
        self.made = 0

    def await_file(self, name):
        """Waits until the server knows a new file."""
        since = self.client.clock(self.root)
        def look():
            with open(f"{self.root}/{name}", "a") as file:
                file.write("x")
            time.sleep(0.02)
            return self.client.changed(self.root, since, ["name", name])
        await_it(look)

    def rest(self):
        """Waits until nobody has anything to do."""
        while True:
            before = of_all(self.server.processes(), processor)
            time.sleep(0.3)
            if of_all(self.server.processes(), processor) - before < 2 * TICK:
                return

    def cost(self, change):
        """The milliseconds of processor for a change, until nobody has anything to do."""
        self.rest()
        before = of_all(self.server.processes(), processor)
        change()
        self.rest()
        return of_all(self.server.processes(), processor) - before

    def memory(self, field):
        return of_all(self.server.processes(), lambda process: kept(process, field))


def make_tree(root, size):
    """Ten files to a folder, a hundred folders to a folder; the folders with files in them."""
    made = []
    for at in range(size // 10):
        folder = f"module{at // 100:03}/part{at % 100:02}"
        os.makedirs(f"{root}/{folder}")
        for n in range(10):
            with open(f"{root}/{folder}/file{n}.c", "w") as file:
                file.write("x" * n)
        made.append(folder)
    return made


def memory_when_ready(site, note):
    note("memory when ready, MB of RSS", site.memory("Rss"))
    note("memory when ready, MB of PSS", site.memory("Pss"))


def saved_files(site, note):
    """A saved file until a subscriber's line names it."""
    client, times = Asker(site.server.path), []
    client.asked("subscribe", site.root, "s", {"fields": ["name"]})
    client.line()
    for n in range(200):
        name = f"{site.folders[n % len(site.folders)]}/saved"
        began = time.perf_counter()
        with open(f"{site.root}/{name}", "a") as file:
            file.write("x")
        while name not in client.next().get("files", []):
            pass
        times.append(1000 * (time.perf_counter() - began))
        time.sleep(0.03)
    client.close()
    spread("a saved file until a subscriber's line", times, note)


def spread(what, times, note):
    times.sort()
    note(f"{what}, median ms", statistics.median(times))
    note(f"{what}, 99th percentile, ms", times[len(times) * 99 // 100])


def touch(site):
    """Writes a thousand files."""
    for folder in site.folders[:100]:
        for n in range(10):
            with open(f"{site.root}/{folder}/file{n}.c", "a") as file:
                file.write("y")


def touched_files(site, note):
    from_first, from_last = [], []
    for _ in range(9):
        since, began = site.client.clock(site.root), time.perf_counter()
        touch(site)
        took, _ = timed(lambda: await_it(lambda: len(site.client.changed(site.root, since, ["suffix", "c"])) == 1000))
        from_first.append(1000 * (time.perf_counter() - began))
        from_last.append(took)
        time.sleep(0.1)
    note("1,000 files touched until known, ms", statistics.median(from_first))
    note("and after the last was touched, ms", statistics.median(from_last))
    note("1,000 files touched, ms of processor", site.cost(lambda: [touch(site) or time.sleep(0.2) for _ in range(5)]) / 5)


def synced_questions(site, note, rounds):
    """A file is written, and asked for at once."""
    times, missed = [], 0
    if not site.server.can_sync():
        return
    for n in range(rounds):
        since = site.client.clock(site.root)
        name = f"{site.folders[n % len(site.folders)]}/synced"
        with open(f"{site.root}/{name}", "a") as file:
            file.write("x")
        took, reply = timed(lambda: site.server.synced(site.client, site.root, n, {"since": since, "fields": ["name"]}))
        times.append(took)
        missed += name not in reply.get("files", [])
        time.sleep(0.002)
    spread("a question about now", times, note)
    note("questions about now that missed the change", missed)


def new_folders(site, note):
    def change():
        for n in range(100):
            os.mkdir(f"{site.root}/{site.folders[0]}/new{n}")
            time.sleep(0.02)
    note("a new folder, ms of processor", site.cost(change) / 100)


def moved_folders(site, note):
    """A folder of a hundred files is renamed."""
    def is_there(since, name):
        return len(site.client.changed(site.root, since, ["allof", "exists", ["match", f"{name}/f*", "wholename"]])) == 100
    os.mkdir(f"{site.root}/package0")
    for n in range(100):
        open(f"{site.root}/package0/f{n}", "w").close()
    site.rest()
    times = []
    for n in range(9):
        since = site.client.clock(site.root)
        os.rename(f"{site.root}/package{n}", f"{site.root}/package{n + 1}")
        took, _ = timed(lambda: await_it(lambda: is_there(since, f"package{n + 1}")))
        times.append(took)
        time.sleep(0.2)
    note("a folder of 100 files moved until known, ms", statistics.median(times))

    def change():
        for n in range(9, 29):
            os.rename(f"{site.root}/package{n}", f"{site.root}/package{n + 1}")
            time.sleep(0.05)
    note("a folder of 100 files moved, ms of processor", site.cost(change) / 20)


def grown(site):
    """20,000 files in 200 new folders; since when, and how long that took."""
    since, top = site.client.clock(site.root), f"{site.root}/grown{site.made}"
    site.made += 1
    began = time.perf_counter()
    for n in range(200):
        os.makedirs(f"{top}/d{n}")
        for m in range(100):
            os.close(os.open(f"{top}/d{n}/f{m:02}", os.O_CREAT | os.O_WRONLY, 0o644))
    return since, began, time.perf_counter()


def grown_is_known(site, since):
    """The last of each folder first, since that is a short answer."""
    return len(site.client.changed(site.root, since, ["name", "f99"])) == 200 and len(site.client.changed(site.root, since,
        ["type", "f"])) == 20000


def many_files(site, note):
    """Three times 20,000 files: twice until they are known, once for the processor time; then the memory."""
    from_first, from_last = [], []
    for _ in range(2):
        since, began, ended = grown(site)
        await_it(lambda: grown_is_known(site, since), 0.005)
        now = time.perf_counter()
        from_first.append(1000 * (now - began))
        from_last.append(1000 * (now - ended))
    note("20,000 files made in 200 new folders until known, ms", statistics.median(from_first))
    note("and after the last was made, ms", statistics.median(from_last))
    asked = []
    note("20,000 files made in 200 new folders, ms of processor", site.cost(lambda: asked.append(grown(site)[0])))
    await_it(lambda: grown_is_known(site, asked[0]), 0.1)
    note("memory after 60,000 files more, MB of RSS", site.memory("Rss"))
    note("memory after 60,000 files more, MB of PSS", site.memory("Pss"))


def measure(chosen, size, rows):
    """One run: both on a new tree each, row by row."""
    steps = [memory_when_ready, saved_files, touched_files, lambda site, note: synced_questions(site, note, chosen.syncs),
             new_folders, moved_folders, many_files]
    with tempfile.TemporaryDirectory(prefix="feed-", dir=os.environ.get("PEER_FOLDER")) as folder:
        servers = [Fed(chosen.program, folder, chosen.feed, chosen.of_root)]
        try:
            if chosen.peer != "none":
                servers.append(Peer(chosen.peer, folder))
            sites = [Site(server, folder, size) for server in servers]
            for step in steps:
                for site in sites:
                    step(site, lambda what, value: rows.setdefault(what, {}).setdefault(site.server.name, []).append(value))
        finally:
            for server in servers:
                server.end()


def main():
    words = argparse.ArgumentParser()
    words.add_argument("program")
    words.add_argument("feed")
    words.add_argument("--sizes", default="1000,100000")
    words.add_argument("--runs", type=int, default=1)
    words.add_argument("--syncs", type=int, default=1000)
    words.add_argument("--of-root", action="store_true", help="the feed is started with the root")
    words.add_argument("--nice", type=int, default=0, help="of all processes alike")
    words.add_argument("--peer", default="watchman")
    words.add_argument("--json")
    chosen = words.parse_args()
    os.nice(chosen.nice)
    run = {**machine(chosen), "sizes": {}}
    for size in map(int, chosen.sizes.split(",")):
        rows = {}
        for _ in range(chosen.runs):
            measure(chosen, size, rows)
        print(f"{size} files", flush=True)
        show(rows)
        run["sizes"][size] = rows
    run["load after"] = round(os.getloadavg()[0], 2)
    print(f"load {run['load before']} to {run['load after']}")
    if chosen.json:
        with open(chosen.json, "w") as file:
            json.dump(run, file, indent=1)
            file.write("\n")
    return 0


if __name__ == "__main__":
    sys.exit(main())
