#!/usr/bin/env python3
"""The time of a server from `watch` to its first answer, by 1, 2 and 4 workers, beside `find -printf` on the same tree: crawl.py
WATCHMAND [ROUNDS] [MODULES]

The trees have 20,000 and 100,000 entries, or MODULES modules of 19 folders with 51 files each. Each round runs
find and a new server for each number of workers in turn. The shortest time of the rounds is printed, and the most
memory that a server took."""
import os, subprocess, sys, tempfile, time
from asked import Asker
from peer import Watchmand, of_process

WORKERS = (1, 2, 4)
FIND = ["-printf", "%p %s %T@ %y\\n"]


def make_tree(root, modules):
    for module in range(modules):
        for part in range(19):
            folder = f"{root}/module{module:04}/part{part:02}"
            os.makedirs(folder)
            for file in range(51):
                open(f"{folder}/source_file_{file:03}.c", "w").close()


def milliseconds(call):
    began = time.perf_counter()
    call()
    return 1000 * (time.perf_counter() - began)


def first_answer(client, root):
    client.asked("watch", root)
    while client.asked("clock", root).get("error", "").startswith("6 "):
        time.sleep(0.0002)


def crawled(program, root, workers):
    """The milliseconds, the entries that the server then lists, and the megabytes that it took at most."""
    with tempfile.TemporaryDirectory() as folder, Watchmand(program, folder, "--workers", str(workers)) as server:
        client = Asker(server.path)
        took = milliseconds(lambda: first_answer(client, root))
        memory = of_process(server.process, "VmHWM")
        return took, len(client.asked("query", root, {"fields": ["type"]})["files"]), memory


def measure(program, root, rounds):
    entries = sum(len(folders) + len(files) for _, folders, files in os.walk(root))
    found, took, memory = [], {workers: [] for workers in WORKERS}, 0
    for _ in range(rounds):
        found.append(milliseconds(lambda: subprocess.run(["find", root, *FIND], stdout=subprocess.DEVNULL, check=True)))
        for workers in WORKERS:
            one, listed, most = crawled(program, root, workers)
            assert listed == entries, f"{listed} of {entries} entries"
            took[workers].append(one)
            memory = max(memory, most)
    least = {workers: min(took[workers]) for workers in WORKERS}
    each = [f"{workers} workers {ms:.1f} ms ({min(found) / ms:.2f} times as fast)" for workers, ms in least.items()]
    print(f"{entries} entries, load {os.getloadavg()[0]:.2f}: find {min(found):.1f} ms; {'; '.join(each)}", end="; ")
    print(f"at most {memory:.0f} MB", flush=True)


def main(program, rounds="10", modules=None):
    for count in [int(modules)] if modules else [20, 101]:
        with tempfile.TemporaryDirectory() as root:
            make_tree(root, count)
            measure(program, root, int(rounds))


if __name__ == "__main__":
    main(*sys.argv[1:])
