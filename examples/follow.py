#!/usr/bin/env python3
"""Keeps a list of a root's files by a subscription, with Python's own library.

usage: examples/follow.py SOCKET [RESTART]; RESTART is a command that kills the server and starts it again.
Take the class Followed; main shows it with a folder of its own."""
import json
import os
import socket
import subprocess
import sys
import tempfile
import time


class Followed:
    """The files of a root: `files` are those that the server knew at `clock`."""

    def __init__(self, path, root):
        self.path, self.root, self.files, self.clock = path, root, set(), None
        self.connect()

    def connect(self):
        """Subscribes since the clock of the list. A server that was started after that clock answers fresh, with all files."""
        for _ in range(100):
            try:
                self.socket = socket.socket(socket.AF_UNIX)
                self.socket.connect(self.path)
                self.lines = self.socket.makefile("rb")
                asked = {"fields": ["name", "exists"]} | ({"since": self.clock} if self.clock else {})
                reply = self.ask("subscribe", self.root, "followed", asked)
                if "error" not in reply:
                    return
                if not reply["error"].startswith("6 "):  # the server hasn't crawled the root yet since its start
                    raise ValueError(reply["error"])
            except OSError:
                pass
            time.sleep(0.05)
        raise TimeoutError("the server doesn't come back")

    def ask(self, *request):
        self.socket.sendall(json.dumps(request).encode() + b"\n")
        return self.line()

    def line(self):
        read = self.lines.readline()
        if not read.endswith(b"\n"):
            raise ConnectionError("the server has ended")
        return json.loads(read)

    def next(self):
        """Waits for the next line of the subscription, applies it to the list, and returns it."""
        while True:
            try:
                line = self.line()
                break
            except ConnectionError:
                self.connect()
        if line["is_fresh_instance"]:
            self.files.clear()
        for file in line["files"]:
            (self.files.add if file["exists"] else self.files.discard)(file["name"])
        self.clock = line["clock"]
        return line


def found(root):
    """The paths of all that is in a folder."""
    walked = [(folder, name) for folder, folders, files in os.walk(root) for name in folders + files]
    return {os.path.relpath(os.path.join(*place), root) for place in walked}


def ask_once(path, *request):
    with socket.socket(socket.AF_UNIX) as asked:
        asked.connect(path)
        asked.sendall(json.dumps(request).encode() + b"\n")
        return json.loads(asked.makefile("rb").readline())


def show(what, followed, root):
    line = followed.next()
    print(f"{what}: fresh {line['is_fresh_instance']}, sent {len(line['files'])}, there {len(followed.files)}")
    assert followed.files == found(root), (followed.files, found(root))


def main():
    path, restart = sys.argv[1], sys.argv[2:]
    with tempfile.TemporaryDirectory() as root:
        os.mkdir(f"{root}/lib")
        for name in ("one.c", "lib/two.c"):
            open(f"{root}/{name}", "w").close()
        ask_once(path, "watch", root)
        ask_once(path, "recrawl", root)
        followed = Followed(path, root)
        show("subscribed", followed, root)
        open(f"{root}/three.c", "w").close()
        os.remove(f"{root}/one.c")
        ask_once(path, "recrawl", root)
        show("one came, one went", followed, root)
        if restart:
            os.remove(f"{root}/lib/two.c")
            subprocess.run(restart[0].split(), check=True)
            show("one went while the server was down", followed, root)
        ask_once(path, "watch-del", root)


if __name__ == "__main__":
    main()
