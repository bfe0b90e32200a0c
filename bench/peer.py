#!/usr/bin/env python3
"""watchmand beside Watchman: peer.py WATCHMAND ASK [--feed WMFEED] [--sizes 1000,20000,100000] [--seconds 1]
[--runs 1] [--json FILE]

The same clients ask both in JSON over their sockets: the program of ask.c for answers a second, this one for the
rest. Each figure is printed as ours, theirs and the ratio ours / theirs, by medians of the runs. With --feed a
feed runs beside our server for the last row. With --json FILE gets the figures of each run, with the machine, the
date and its load: bench/plots.py draws from them. bench/peer.sh installs Watchman, builds ask.c and runs this."""
import argparse, contextlib, json, os, platform, shutil, statistics, subprocess, sys, tempfile, time
from asked import Asker
from server import Server


class Watchmand(Server):
    """Our server, with the settings of `make run`."""

    name = "watchmand"

    def __init__(self, program, folder, *words):
        settings = {**os.environ, "MALLOC_TRIM_THRESHOLD_": "131072", "MALLOC_ARENA_MAX": "8"}
        super().__init__(program, folder, *words, stderr=None, env=settings)

    def first_answer(self, client, root, query):
        client.asked("watch", root)
        while True:
            reply = client.asked("query", root, query)
            if not reply.get("error", "").startswith("6 "):
                return reply
            time.sleep(0.0002)

    def take_in(self, client, root, since):
        client.asked("recrawl", root)

    @contextlib.contextmanager
    def feeding(self, feed, client, root):
        """A feed of the root, which already reports changes."""
        process = subprocess.Popen([feed, self.path, root])
        try:
            mark, is_known = f"{root}/mark", False
            while not is_known:
                assert process.poll() is None, "the feed ended"
                open(mark, "w").close()
                time.sleep(0.05)
                found = client.asked("query", root, {"expression": ["name", ["mark"]], "fields": ["name"]})
                is_known = found.get("files") == ["mark"]
            os.unlink(mark)
            yield process
        finally:
            process.kill()
            process.wait()


class Watchman:
    name = "watchman"

    def __init__(self, program, folder):
        self.path = f"{folder}/theirs.socket"
        files = [f"--sockname={self.path}", f"--logfile={folder}/theirs.log", f"--pidfile={folder}/theirs.pid"]
        self.process = subprocess.Popen([program, "--foreground", "--no-save-state", *files],
                                        stdout=subprocess.DEVNULL, stderr=subprocess.DEVNULL)
        for _ in range(500):
            if os.path.exists(self.path):
                break
            time.sleep(0.01)

    def end(self):
        self.process.kill()
        self.process.wait()

    def first_answer(self, client, root, query):
        client.asked("watch", root)
        return client.asked("query", root, query)

    def take_in(self, client, root, since):
        await_changes(client, root, since)

    @contextlib.contextmanager
    def feeding(self, feed, client, root):
        """The kernel reports changes to it."""
        yield self.process


def await_changes(client, root, since):
    query = {"since": since, "expression": ["suffix", "c"], "fields": ["name"]}
    while len(client.asked("query", root, query)["files"]) < 1000:
        time.sleep(0.001)


def make_tree(root, size):
    made, at = 0, 0
    while made < size:
        folder = f"{root}/module{at // 20:03}/part{at % 20:02}"
        os.makedirs(folder)
        for i in range(min(50, size - made)):
            with open(f"{folder}/file{i:02}.c", "w") as it:
                it.write("x" * (i % 7))
            made += 1
        at += 1


def timed(call):
    began = time.perf_counter()
    result = call()
    return 1000 * (time.perf_counter() - began), result


def median_of(client, line, count):
    return statistics.median(timed(lambda: client.ask(line))[0] for _ in range(count))


def rate(ask, path, line, clients, seconds):
    words = [ask, path, str(clients), str(int(1000 * seconds))]
    asked = subprocess.run(words, input=line + b"\n", capture_output=True, check=True)
    return int(asked.stdout) / seconds


def of_process(process, field):
    for line in open(f"/proc/{process.pid}/status"):
        if line.startswith(field):
            return int(line.split()[1]) / 1024
    return 0.0


def ticks(process):
    parts = open(f"/proc/{process.pid}/stat").read().rsplit(")", 1)[1].split()
    return int(parts[11]) + int(parts[12])


def touch(root, size, stamp):
    at = 0
    for folder, folders, files in os.walk(root):
        folders.sort()
        for name in sorted(files):
            with open(f"{folder}/{name}", "a") as it:
                it.write("y")
            os.utime(f"{folder}/{name}", (stamp, stamp))
            at += 1
            if at == 1000:
                return


def measure(server, ask, feed, root, size, seconds, rows):
    client, fields = Asker(server.path), ["name", "exists", "new", "size"]
    note = lambda what, value: rows.setdefault(what, {}).setdefault(server.name, []).append(value)
    took, reply = timed(lambda: server.first_answer(client, root, {"fields": ["name"]}))
    note("watch to first answer, ms", took)
    note("files in it", len(reply["files"]))
    since = reply["clock"]
    none = json.dumps(["query", root, {"since": since, "fields": fields, "sync_timeout": 0}]).encode()
    note("since, nothing changed, median ms", median_of(client, none, 200))
    client.close()  # watchmand serves 31 sessions at once
    time.sleep(0.1)
    for clients in (1, 8, 31):
        note(f"since a second, {clients} clients", rate(ask, server.path, none, clients, seconds))
    clock = json.dumps(["clock", root]).encode()
    for clients in (1, 8, 31):
        note(f"clock a second, {clients} clients", rate(ask, server.path, clock, clients, seconds))
    time.sleep(0.1)
    client = Asker(server.path)
    touch(root, size, time.time() - size)
    took, _ = timed(lambda: server.take_in(client, root, since))
    note("1,000 files touched until known, ms", took)
    note("since, 1,000 changed, median ms", median_of(client, none, 50))
    note("files in that", len(client.reply(none)["files"]))
    whole = json.dumps(["query", root, {"fields": fields, "sync_timeout": 0}]).encode()
    note("all files, median ms", median_of(client, whole, 10))
    note("memory, MB", of_process(server.process, "VmRSS"))
    before = ticks(server.process)
    time.sleep(3)
    note("processor ticks idle for 3 s", ticks(server.process) - before)
    if feed:
        with server.feeding(feed, client, root):
            since = client.asked("clock", root)["clock"]
            touch(root, size, time.time() - 2 * size)
            took, _ = timed(lambda: await_changes(client, root, since))
            note("1,000 files touched until known, with a feed, ms", took)


def measure_both(chosen, size, rows):
    """One run: a new server each on a new tree each."""
    with tempfile.TemporaryDirectory(prefix="peer-", dir=os.environ.get("PEER_FOLDER")) as folder:
        servers = [Watchmand(chosen.program, folder)]
        if chosen.peer and chosen.peer != "none":
            servers.append(Watchman(chosen.peer, folder))
        try:
            for server in servers:
                root = f"{folder}/{server.name}"
                os.mkdir(root)
                make_tree(root, size)
                measure(server, chosen.ask, chosen.feed, root, size, chosen.seconds, rows)
        finally:
            for server in servers:
                server.end()


def machine(chosen):
    """Where and when a run is made, and under which load."""
    with open("/proc/cpuinfo") as text:
        model = next((line.split(":")[1].strip() for line in text if line.startswith("model name")), "unknown")
    version = "none"
    if chosen.peer not in (None, "none"):
        version = subprocess.run([chosen.peer, "--version"], capture_output=True, text=True).stdout.strip()
    system = f"{os.cpu_count()} processors, {model}, {platform.system()} {platform.release()}"
    return {"date": time.strftime("%Y-%m-%d %H:%M"), "machine": system, "load before": round(os.getloadavg()[0], 2),
            "watchman": version}


def show(rows):
    """Prints the figures of a size, medians of its runs."""
    shown = lambda value: "-" if value is None else f"{value:,.3f}" if value < 10 else f"{value:,.0f}"
    for what, found in rows.items():
        ours, theirs = (statistics.median(found[name]) if name in found else None for name in ("watchmand", "watchman"))
        ratio = f"{ours / theirs:.2f}" if ours is not None and theirs else "-"
        print(f"  {what:40} {shown(ours):>12} {shown(theirs):>12} {ratio:>6}")


def main():
    words = argparse.ArgumentParser()
    words.add_argument("program")
    words.add_argument("ask")
    words.add_argument("--sizes", default="1000,20000,100000")
    words.add_argument("--seconds", type=float, default=1.0)
    words.add_argument("--runs", type=int, default=1)
    words.add_argument("--feed")
    words.add_argument("--peer", default=shutil.which("watchman"))
    words.add_argument("--json")
    chosen = words.parse_args()
    run = {**machine(chosen), "sizes": {}}
    for size in map(int, chosen.sizes.split(",")):
        rows = {}
        for _ in range(chosen.runs):
            measure_both(chosen, size, rows)
        print(f"{size} files")
        show(rows)
        run["sizes"][size] = rows
    run["load after"] = round(os.getloadavg()[0], 2)
    if chosen.json:
        with open(chosen.json, "w") as it:
            json.dump(run, it, indent=1)
            it.write("\n")
    return 0


if __name__ == "__main__":
    sys.exit(main())
