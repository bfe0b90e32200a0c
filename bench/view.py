#!/usr/bin/env python3
"""Times and memory of a root of many files: view.py WATCHMAND [FILES]

A root of FILES / 10 and one of FILES files (100,000; a multiple of 10,000) are listed to a `watchmand lines` each
and asked about there. A table has the microseconds from the write of a request to the end of its reply, medians if
it is repeated, and the memory of the process. A question since a moment and one since the clock with the same
answer are asked in turn. Then the same files are listed to a server, which keeps a view twice: how much memory a
file takes there. Paths have 40 bytes, folders 100 files; each answer is compared. If a process waited for a
processor, the times are too long."""
import statistics, sys
from asked import ensure, lines
from server import names, server

ROOT, FOLDER, MANY, ROUNDS = "/r", 100, 1000, 11


def path(number, beside=None):
    """The path of the file of this number, in its own folder or in that of another file."""
    return f"srv/project/source/d{(number if beside is None else beside) // FOLDER:07}/f{number:011}"


def meta(size):
    return {"mtime_ms": 0, "size": size, "type": "f"}


def folder_of(first):
    """The path of a folder by the number of its first file, and what a listing of it tells."""
    return path(first).rsplit("/", 1)[0], [[path(number), meta(0)] for number in range(first, first + FOLDER)]


class Root:
    """A root with its files, whose listing is timed."""

    def __init__(self, asked, files):
        self.asked, self.files, self.rows, self.ratios, self.size = asked, files, {}, {}, 0
        asked.ask("watch", ROOT)
        took = self.told("listing", 0, "", [])
        for first in range(0, files, FOLDER):
            took += self.list_folder(first)
        self.rows["the first listing, folder by folder"] = 1e6 * took
        self.rows["memory at most after it, MB"] = asked.memory("VmHWM") / 1e6
        self.resident = asked.memory("VmRSS")
        _, answer = asked.timed("query", ROOT, {"fields": ["name"]})
        ensure(len(answer["files"]) == files, f"{len(answer['files'])} files were listed")

    def told(self, command, *arguments):
        """How long an operation takes. Its clock is kept."""
        took, reply = self.asked.timed(command, ROOT, *arguments)
        self.front, tick = reply["clock"].rsplit(":", 1)
        self.tick = int(tick)
        return took

    def list_folder(self, first):
        return self.told("listing", self.tick, *folder_of(first))

    def observe(self, pairs):
        """An operation that has to change something."""
        before = self.tick
        took = self.told("observe", pairs)
        ensure(self.tick == before + 1, f"an observation went from tick {before} to {self.tick}")
        return took

    def change(self, numbers):
        self.size += 1
        return self.observe([[path(number), meta(self.size)] for number in numbers])

    def answered(self, count, query):
        took, answer = self.asked.timed("query", ROOT, query)
        ensure(len(answer["files"]) == count, f"{len(answer['files'])} files in place of {count}")
        return took, answer

    def answer(self, count, query):
        return self.answered(count, query)[0]

    def since(self, count, moment):
        """What changed last, asked since a clock and since a moment in turn. The line at this moment was the last
        change, and so was each before it then."""
        clock, number = {"since": f"{self.front}:{self.tick - count}"}, {"since": moment - count + 1}
        times = []
        for _ in range(101 if count < MANY else ROUNDS):
            (by_clock, one), (by_moment, other) = self.answered(count, clock), self.answered(count, number)
            ensure(one == other, f"{count} files differ since a clock and since a moment")
            times.append((by_clock, by_moment))
        what = [f"`since` a {start}, {count:,} files changed" for start in ("clock", "moment")]
        for named, taken in zip(what, zip(*times)):
            self.row(named, taken)
        self.ratios[count] = self.rows[what[1]] / self.rows[what[0]]

    def age_out(self, floor):
        took, answer = self.asked.timed("age-out", ROOT, 0)
        ensure(answer["floor"] == floor, f"{answer} in place of the floor {floor}")
        return took

    def row(self, what, times):
        self.rows[what] = 1e6 * statistics.median(times)


def measured(asked, files):
    """The rows of a root of so many files, and the memory of its process after the listing."""
    root = Root(asked, files)
    spread = range(0, files, files // MANY)  # a thousand files that lie far apart
    root.row("a folder of 100 files listed again, nothing new", [root.list_folder(3 * FOLDER) for _ in range(101)])
    root.row("an observation of one file", [root.change([number]) for number in spread])
    last = asked.moment
    for count in (0, 1, 10, 100, MANY):
        root.since(count, last)
    root.row("an observation of 1,000 files, changed", [root.change(spread) for _ in range(ROUNDS)])
    ten = {"expression": ["name", [path(number) for number in spread[:10]], "wholename"]}
    root.row("a query that finds 10 files by their names", [root.answer(10, ten) for _ in range(ROUNDS)])
    root.row("a query that answers all files", [root.answer(files, {}) for _ in range(ROUNDS)])
    added, gone, aged = [], [], []
    for _ in range(ROUNDS):
        beside = [path(files + at, number) for at, number in enumerate(spread)]
        added.append(root.observe([[each, meta(0)] for each in beside]))
        gone.append(root.observe([[each, None] for each in beside]))
        aged.append(root.age_out(root.tick))
    root.row("an observation of 1,000 files, new", added)
    root.row("an observation of 1,000 files, gone", gone)
    root.row("an age-out of 1,000 deleted files", aged)
    root.row("an age-out of none", [root.age_out(root.tick) for _ in range(101)])
    root.rows["memory at most in the end, MB"] = asked.memory("VmHWM") / 1e6
    root.rows["all in all, waiting for a processor"] = 1e6 * asked.waited()
    return root


def resident_twice(program, files):
    """The memory of a server that keeps so many files in both copies of its view."""
    with server(program) as served:
        client, root = served.client(), served.folder + "/none"
        client.ask(["watch", root])
        names(client, root)
        requests = [["listing", root, 1, *folder_of(first)] for first in range(0, files, FOLDER)]
        for request in requests + [["observe", root, [[path(0), meta(size)]]] for size in (1, 2)]:
            ensure("clock" in client.reply(request), f"{request[0]} was refused")
        told = client.reply(["query", root, {"fields": ["name"], "expression": ["suffix", "none"]}])
        ensure(told["clock"].endswith(f":{files // FOLDER + 3}"), f"the clock is {told['clock']}")
        return 1024 * served.memory()


def bytes_twice(program, few, many):
    """How much memory of a server each further file takes."""
    return (resident_twice(program, many) - resident_twice(program, few)) / (many - few)


def main():
    if len(sys.argv) not in (2, 3):
        sys.exit(__doc__)
    files, found = int(sys.argv[2]) if len(sys.argv) == 3 else 100000, []
    ensure(files >= 10 * MANY and files % (10 * MANY) == 0, "FILES has to be a multiple of 10,000")
    counts = (files // 10, files)
    for count in counts:
        with lines(sys.argv[1]) as asked:
            found.append(measured(asked, count))
    few, many = found
    print(f"| µs | {counts[0]:,} files | {counts[1]:,} files |\n|---|---|---|")
    for what in few.rows:
        print(f"| {what} | {few.rows[what]:,.1f} | {many.rows[what]:,.1f} |")
    for count in few.ratios:
        ratios = f"{few.ratios[count]:.2f} and {many.ratios[count]:.2f}"
        print(f"`since` a moment, {count:,} files changed: {ratios} times as long as since the clock.")
    once, twice = (many.resident - few.resident) / (counts[1] - counts[0]), bytes_twice(sys.argv[1], *counts)
    print(f"Each further file took {once:.0f} bytes of memory after the listing, and {twice:.0f} in a server: two copies.")


if __name__ == "__main__":
    main()
