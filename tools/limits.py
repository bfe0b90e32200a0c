#!/usr/bin/env python3
"""Asks a server at the limits of docs/FORMATS.md and beyond: tools/limits.py WATCHMAND

For each limit a line is printed, which says whether it holds. The status is 1 if one doesn't."""
import json, os, socket, sys, tempfile, time

sys.dont_write_bytecode = True
sys.path.insert(0, os.path.join(os.path.dirname(os.path.abspath(__file__)), "lib"))
from server import Client, check, failed, serving

FILE = {"mtime_ms": 0, "size": 0, "type": "f"}


class Asker(Client):
    """A client that passes over the lines of subscriptions."""

    def answer(self):
        while "unilateral" in (seen := self.next()):
            pass
        return seen

    def asked(self, *request):
        self.send(json.dumps(request, separators=(",", ":")).encode())
        return self.answer()

    def sent(self, line):
        self.send(line)
        return self.answer()

    def refused(self, *request):
        """The number of the refusal; 0 if the request is answered."""
        return int(self.asked(*request).get("error", "0").split()[0])


def lines(path, a, root):
    nested = [a.sent(b"[" * levels + b"]" * levels)["error"] for levels in (127, 128)]
    check("127 arrays in one another are JSON, 128 aren't", nested == ["2 BadCommand", "1 BadLine"], nested)
    check("a line that isn't UTF-8", a.sent(b'["version\xff"]')["error"] == "1 BadLine")
    half = Asker(path)
    half.socket.sendall(b'["version"]')
    half.socket.shutdown(socket.SHUT_WR)
    check("a last line without its newline ends the session", (half.answer()["error"], half.line()) == ("1 BadLine", b""))


def clocks(path, a, root):
    check("a text that begins with c: is fresh", a.asked("since", root, "c:another")["is_fresh_instance"])
    check("another text is no clock", a.refused("since", root, "c") == 7)
    numbers = [a.refused("since", root, number) for number in (0, 2**63 - 1, 2**63, -1, 1.5, "8", True)]
    check("a number of seconds to 2^63 - 1", numbers == [0, 0, 7, 7, 7, 7, 3], numbers)
    check("256 cursors", all(a.refused("since", root, f"n:{name}") == 0 for name in range(256)))
    check("and no more; the others stay", (a.refused("since", root, "n:more"), a.refused("since", root, "n:255")) == (17, 0))
    check("a cursor's name of 0 and 65 bytes", [a.refused("since", root, "n:" + "a" * size) for size in (0, 65)] == [7, 7])
    timeouts = [a.refused("query", root, {"sync_timeout": number}) for number in (2**63 - 1, 2**63, -1)]
    check("sync_timeout to 2^63 - 1", timeouts == [0, 3, 3], timeouts)


def expressions(path, a, root):
    asked = lambda expression: a.refused("query", root, {"expression": expression})
    deep = lambda levels: json.loads('["not",' * (levels - 1) + '"true"' + "]" * (levels - 1))
    check("an expression of 32 levels and no more", [asked(deep(levels)) for levels in (32, 33)] == [0, 8])
    check("1,024 terms and no more", [asked(["allof"] + ["true"] * (terms - 1)) for terms in (1024, 1025)] == [0, 8])
    check("a pattern of 1,024 bytes and no more", [asked(["match", "a" * size]) for size in (1024, 1025)] == [0, 8])


def triggers(path, a, root):
    trigger = lambda name, words=1: a.refused("trigger", root, {"name": name, "command": ["true"] * words, "expression": "false"})
    many = [trigger(f"t{number}") for number in range(64)]
    check("64 triggers a root and no more", (many, trigger("more"), trigger("t0")) == ([0] * 64, 17, 0), many)
    check("16 words and no more", (trigger("t1", words=16), trigger("t1", words=17)) == (0, 10))
    check("a name of 0 and 65 bytes", [trigger(""), trigger("t" * 65)] == [10, 10])
    deleted = a.asked("trigger-del", root, "none"), a.refused("trigger-del", root, "")
    check("a trigger that isn't there, and an empty name, deleted", (deleted[0]["deleted"], deleted[1]) == (False, 10), deleted)


def subscriptions(path, a, root):
    b = Asker(path)
    many = [b.refused("subscribe", root, f"s{number}", {"expression": "false"}) for number in range(33)]
    check("32 subscriptions a session and no more", many == [0] * 32 + [17], many)
    check("the same name again is no further one", b.refused("subscribe", root, "s0", {}) == 0)
    check("a name of 0 and 65 bytes", [b.refused("subscribe", root, "s" * size, {}) for size in (0, 65)] == [3, 3])


def observations(path, a, root):
    pairs = lambda count: [[format(number, "x"), None] for number in range(count)]
    check("65,536 pairs and no more", [a.refused("observe", root, pairs(count)) for count in (65536, 65537)] == [0, 17])
    both = a.refused("observe", root, [["q", FILE], ["q", None]])
    listed = a.asked("query", root, {"expression": ["allof", "exists", ["name", "q"]]})["files"]
    check("of pairs of one path the last counts", (both, listed) == (0, []), (both, listed))
    check("a path twice in a listing", a.refused("listing", root, 0, "", [["a", FILE], ["a", FILE]]) == 3)
    check("a path that isn't below the subtree", a.refused("listing", root, 1, "d", [["a", FILE]]) == 4)
    tick = int(a.asked("clock", root)["clock"].rsplit(":", 1)[1])
    check("a listing that begins later than now", a.refused("listing", root, tick + 1, "", []) == 7)


def ages(path, a, root):
    a.asked("observe", root, [["gone", FILE]])
    a.asked("observe", root, [["gone", None]])
    tick = int(a.asked("clock", root)["clock"].rsplit(":", 1)[1])
    check("a file that was just deleted isn't forgotten after 1,000 seconds", a.asked("age-out", root, 1000)["floor"] == 0)
    time.sleep(2.1)
    check("and is forgotten after 2 seconds", a.asked("age-out", root, 2)["floor"] == tick)


def roots(path, a, root):
    check("a root's path of 1,024 bytes and no more", [a.refused("watch", "/" + "a" * size) for size in (1023, 1024)] == [0, 4])
    check("the root / and one that ends with a slash", [a.refused("watch", name) for name in ("/", "/a/")] == [4, 4])
    many = [a.refused("watch", f"/none/{number}") for number in range(255)]
    check("256 roots and no more", many == [0] * 254 + [17], many)
    check("a root that is watched already", a.refused("watch", "/none/0") == 0)


def main():
    with tempfile.TemporaryDirectory() as folder, serving(os.path.abspath(sys.argv[1]), folder, "--quiet") as path:
        a, root = Asker(path), f"{folder}/root"
        os.mkdir(root)
        a.asked("watch", root)
        a.asked("recrawl", root)
        for group in (lines, clocks, expressions, triggers, subscriptions, ages, observations, roots):
            group(path, a, root)
    print(f"limits: {len(failed)} failed")
    return 1 if failed else 0


if __name__ == "__main__":
    sys.exit(main())
