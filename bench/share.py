#!/usr/bin/env python3
"""Answers a second while a root changes and while it doesn't: share.py WATCHMAND ASK [FILES] [SECONDS]

A server has one root of FILES (100,000) empty files. 1, 8 and 30 clients ask for the same 100 changed files again
and again (the program of ask.c), for SECONDS (3) each: first while nothing is published, then while a further
client observes a change of one of these files each millisecond. With 31 clients, the most that a server takes,
there is no such client. Before and after all that the answer must be these 100 files; no other reply may be a
refusal."""
import itertools, json, os, subprocess, sys, tempfile, threading, time
from concurrent.futures import ThreadPoolExecutor
from asked import Asker, ensure
from server import serving, until

CHANGING, FOLDER = 100, 100
sizes = itertools.count(1)  # no file gets a size twice


def path(number):
    return f"d{number // FOLDER:05}/f{number:07}"


class Sure(Asker):
    """A client whose answers must be no refusals but `6 NotReady`, before the first crawl has ended."""

    def next(self):
        reply = super().next()
        ensure(reply.get("error", "6 ").startswith("6 "), f"an answer was {reply}")
        return reply

    def asked(self, *request):
        self.send(request)
        return self.next()


def make_files(root, files):
    for number in range(files):
        if number % FOLDER == 0:
            os.makedirs(f"{root}/{os.path.dirname(path(number))}")
        open(f"{root}/{path(number)}", "w").close()


def change(client, root, files, numbers):
    """Observes a change for each of these numbers: one of the changing files, which are far apart, has a new size."""
    for number in numbers:
        pairs = [[path(number % CHANGING * (files // CHANGING)), {"mtime_ms": 0, "size": next(sizes), "type": "f"}]]
        client.send(["observe", root, pairs])
    for _ in numbers:
        ensure("clock" in client.next(), "a change was refused")


def change_until(ended, socket, root, files):
    """Observes a change each millisecond, in a session of its own, until the end; how many a second they were."""
    client, begun, count = Sure(socket), time.monotonic(), 0
    while not ended.wait(0.001):
        due = min(100, int(1000 * (time.monotonic() - begun)) - count)  # a session keeps only so many unread replies
        change(client, root, files, range(count, count + due))
        count += due
    client.close()
    return count / (time.monotonic() - begun)


def answers(ask, socket, question, clients, seconds):
    """How many answers a second these clients got."""
    words = [ask, socket, str(clients), str(int(1000 * seconds)), '{"clock":"c:']
    asked = subprocess.run(words, input=json.dumps(question) + "\n", capture_output=True, text=True)
    ensure(asked.returncode == 0, f"ask ended with status {asked.returncode}: {asked.stderr}")
    return int(asked.stdout) / seconds


def answers_beside(ask, socket, root, files, question, clients, seconds):
    """The same while files change, with the changes a second."""
    ended = threading.Event()
    with ThreadPoolExecutor(1) as beside:
        changes = beside.submit(change_until, ended, socket, root, files)
        try:
            found = answers(ask, socket, question, clients, seconds)
        finally:
            ended.set()
        return found, changes.result()


def measure(ask, socket, root, files, seconds):
    client = Sure(socket)
    client.asked("watch", root)
    ready = until(lambda: client.asked("clock", root).get("clock"), 600)
    there = client.asked("query", root, {"expression": ["type", "f"], "fields": ["name"]})["files"]
    ensure(len(there) == files, f"the server found {len(there)} files of {files}")
    change(client, root, files, range(CHANGING))
    question = ["since", root, ready]
    wanted = sorted(path(number * (files // CHANGING)) for number in range(CHANGING))
    is_right = lambda: sorted(file["name"] for file in client.asked(*question)["files"]) == wanted
    ensure(is_right(), "the answer isn't of the files that changed")
    client.close()
    print("| clients | nothing published | with changes | of what it is without | changes a second |\n|---|---|---|---|---|")
    for clients in (1, 8, 30):
        quiet = answers(ask, socket, question, clients, seconds)
        beside, changes = answers_beside(ask, socket, root, files, question, clients, seconds)
        print(f"| {clients} | {quiet:,.0f} | {beside:,.0f} | {beside / quiet:.2f} | {changes:,.0f} |", flush=True)
    print(f"| 31 | {answers(ask, socket, question, 31, seconds):,.0f} | - | - | - |")
    time.sleep(0.5)  # those sessions end
    client = Sure(socket)
    ensure(is_right(), "the last answer isn't of the files that changed")
    client.close()


def main():
    if len(sys.argv) not in (3, 4, 5):
        sys.exit(__doc__)
    program, ask = sys.argv[1:3]
    files = int(sys.argv[3]) if len(sys.argv) > 3 else 100000
    seconds = float(sys.argv[4]) if len(sys.argv) > 4 else 3.0
    ensure(files >= CHANGING, f"FILES has to be {CHANGING} or more")
    with tempfile.TemporaryDirectory(prefix="watchmand-") as folder, serving(program, folder) as socket:
        root = f"{folder}/root"
        os.mkdir(root)
        make_files(root, files)
        measure(ask, socket, root, files, seconds)


if __name__ == "__main__":
    main()
