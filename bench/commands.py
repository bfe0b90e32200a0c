#!/usr/bin/env python3
"""Accepted commands a second: commands.py WATCHMAND ASK [COMMANDS]

A trigger of a watched root is set and deleted in turn; each command is durable before its reply. COMMANDS of them
(400) are sent one after another through `watchmand lines`, and the same writes and syncs are made from here. Then
1, 8 and 31 clients of a server send such commands for two seconds (the program of ask.c), each for a trigger of
its own. SQLite (synchronous=FULL) makes one insert or delete a transaction, from as many threads. Medians of five
rounds. The files are in the folder of TMPDIR."""
import contextlib, json, os, sqlite3, statistics, subprocess, sys, tempfile, threading, time
from concurrent.futures import ThreadPoolExecutor
from asked import Client, ensure, lines
from server import serving

ROUNDS, SECONDS, CLIENTS = 5, 2, (1, 8, 31)
NAME, WORD, ROOT = "t00", "true", "/r"
SET, GONE = '{"disposition":"created",', '{"deleted":true,'  # how the replies begin
STATE, JOURNAL, JOURNAL_END = 8916992, 4198400, 4460544  # the bytes of a state file, and its first journal (docs/FORMATS.md)


def requests(root, name):
    """A trigger is set, and deleted."""
    return [json.dumps(["trigger", root, {"name": name, "command": [WORD]}]), json.dumps(["trigger-del", root, name])]


def by_lines(program, commands):
    """Through `watchmand lines`, with all lines in its pipe."""
    with lines(program) as asked:
        asked.ask("watch", ROOT)
        text = "".join(line + "\n" for line in requests(ROOT, NAME)).encode() * (commands // 2)
        begun = time.perf_counter()
        writer = threading.Thread(target=asked.send, args=(text,))
        writer.start()
        with open(asked.process.stdout.fileno(), "rb", closefd=False) as told:
            replies = [reply.decode() for _, reply in zip(range(commands), told)]
        took = time.perf_counter() - begun
        writer.join()
    for at, reply in enumerate(replies):
        ensure(reply.startswith((SET, GONE)[at % 2]), f"command {at} was answered {reply}")
    ensure(len(replies) == commands, "not all were answered")
    return commands / took


def by_hand(commands):
    """The writes and syncs of these commands: a record and a closed gate behind the last gate, a sync, that gate
    opened, a sync."""
    text = lambda it: len(it).to_bytes(4, "big") + it.encode()
    set_it = b"\3" + text(ROOT) + text(NAME) + (1).to_bytes(4, "big") + text(WORD) + b"\0\0\0\0"
    records = [set_it + b"\0", b"\4" + text(ROOT) + text(NAME) + b"\0"]
    with tempfile.TemporaryFile() as file:
        file.write(bytes(STATE))
        file.flush()
        os.fsync(file.fileno())
        gate, begun = JOURNAL, time.perf_counter()
        for at in range(commands):
            record = records[at % 2]
            if gate + 1 + len(record) > JOURNAL_END:
                gate = JOURNAL
            os.pwrite(file.fileno(), record, gate + 1)
            os.fdatasync(file.fileno())
            os.pwrite(file.fileno(), b"\xa5", gate)
            os.fdatasync(file.fileno())
            gate += len(record)
        return commands / (time.perf_counter() - begun)


def insert_and_delete(name, number, end, turn):
    """How many of a thread's own row SQLite accepted until the end."""
    base = sqlite3.connect(name, timeout=600, isolation_level=None)
    base.execute("PRAGMA synchronous=FULL")
    row, count = (ROOT, f"t{number:02}"), 0
    while time.perf_counter() < end:
        with turn:
            if count % 2 == 0:
                done = base.execute("INSERT INTO triggers VALUES(?,?,?)", (*row, WORD))
            else:
                done = base.execute("DELETE FROM triggers WHERE root=? AND name=?", row)
        ensure(done.rowcount == 1, "SQLite changed nothing")
        count += 1
    base.close()
    return count


def by_sqlite(mode, threads, turn):
    """From these threads. They wait at the lock for their turn, or as SQLite lets them wait."""
    with tempfile.TemporaryDirectory() as folder:
        name = f"{folder}/base"
        base = sqlite3.connect(name)
        ensure(base.execute(f"PRAGMA journal_mode={mode}").fetchone()[0] == mode, f"SQLite has no {mode}")
        base.execute("CREATE TABLE triggers(root TEXT, name TEXT, command TEXT, PRIMARY KEY(root, name))")
        base.close()
        begun = time.perf_counter()
        with ThreadPoolExecutor(threads) as working:
            counts = list(working.map(lambda number: insert_and_delete(name, number, begun + SECONDS, turn), range(threads)))
        return sum(counts) / (time.perf_counter() - begun)


def by_server(program, ask, clients):
    """From these clients of a new server, each with a trigger of its own, over an empty root."""
    with tempfile.TemporaryDirectory() as folder, serving(program, folder) as path:
        root = f"{folder}/root"
        os.mkdir(root)
        with Client(path) as client:
            ensure(client.reply(["watch", root]).get("watch") == root, "the watch was refused")
        text = "".join(line + "\n" for line in requests(root, "t#"))
        words = [ask, path, str(clients), str(1000 * SECONDS), SET, GONE]
        asked = subprocess.run(words, input=text, capture_output=True, text=True)
        ensure(asked.returncode == 0, f"ask ended with status {asked.returncode}: {asked.stderr}")
        return int(asked.stdout) / SECONDS


def tell(title, ways):
    """A table of these ways, each tried once a round."""
    found = {way: [] for way in ways}
    for _ in range(ROUNDS):
        for way, speed in ways.items():
            found[way].append(speed())
    print(f"| {title} | least to greatest | median a second |\n|---|---|---|")
    for way, speeds in found.items():
        print(f"| {way} | {min(speeds):,.0f} to {max(speeds):,.0f} | {statistics.median(speeds):,.0f} |", flush=True)


def main():
    if len(sys.argv) not in (3, 4):
        sys.exit(__doc__)
    program, ask, commands = sys.argv[1], sys.argv[2], int(sys.argv[3]) if len(sys.argv) == 4 else 400
    ensure(commands >= 2 and commands % 2 == 0, "COMMANDS has to be an even number")
    free = contextlib.nullcontext()
    tell("one after another", {
        "`watchmand lines`": lambda: by_lines(program, commands),
        "the same writes and syncs": lambda: by_hand(commands),
        "SQLite, WAL": lambda: by_sqlite("wal", 1, free),
        "SQLite, rollback journal": lambda: by_sqlite("delete", 1, free),
    })
    for clients in CLIENTS:
        tell(f"{clients} at once", {
            "`watchmand serve`": lambda: by_server(program, ask, clients),
            "SQLite, WAL, in turn by a lock": lambda: by_sqlite("wal", clients, threading.Lock()),
            "SQLite, WAL, as it lets them wait": lambda: by_sqlite("wal", clients, free),
        })


if __name__ == "__main__":
    main()
