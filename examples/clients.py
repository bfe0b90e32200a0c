#!/usr/bin/python3
"""pywatchman with JSON at a watchmand: a question, a subscription, and the lines that come unasked.

usage: examples/clients.py SOCKET ROOT"""
import os
import sys

import pywatchman

socket, root = sys.argv[1:]
client = pywatchman.client(sockpath=socket, sendEncoding="json", recvEncoding="json", timeout=10.0)


def asked(*request):
    reply = client.query(*request)
    print(*request, "->", reply)
    return reply


asked("version")
assert asked("watch", root)["watch"] == root
asked("recrawl", root)
clock = asked("clock", root)["clock"]
assert asked("since", root, clock)["files"] == []
names = asked("query", root, {"fields": ["name"]})["files"]
assert sorted(names) == ["a.c", "d", "d/b.h"], names
asked("subscribe", root, "s", {"fields": ["name"], "since": clock})
with open(os.path.join(root, "new.c"), "w"):
    pass
asked("recrawl", root)
# pywatchman keeps a line that comes before the reply
unasked = client.getSubscription("s", root=root) or []
while not any("new.c" in line["files"] for line in unasked):
    client.receive()
    unasked += client.getSubscription("s", root=root) or []
print("unasked ->", unasked)
assert asked("unsubscribe", root, "s")["deleted"]
client.close()
