"""Crawls of trees that hold each thing that a file system has, and crawls beside observations, links, ages and readings."""
import collections, contextlib, os, random, select, shutil, socket, stat, time

from feed_site import crawled, differences, metadata, view
from late_reports import reports_beside_recrawls
from server import AS_NOBODY, FILE, NOBODY, Server, at_once, check, folder, names, programs, server, watched


FOLDERS = [f"d{number:03}" for number in range(100)]


def make_folders(top):
    """A tree whose crawl takes a while: in each folder are `kept` and 200 more files."""
    for name in FOLDERS:
        os.mkdir(f"{top}/{name}")
        for file in ["kept", *range(200)]:
            open(f"{top}/{name}/{file}", "w").close()


def recrawl_takes(client, top):
    began = time.monotonic()
    client.ask(["recrawl", top])
    return time.monotonic() - began


def changed_for_a_while(top, away):
    """In each folder `kept` is away and `brief` is there until the next step; then all is as before, and this is observed."""
    for name in FOLDERS:
        os.rename(f"{top}/{name}/kept", f"{away}/{name}")
        open(f"{top}/{name}/brief", "w").close()
    yield None
    for name in FOLDERS:
        os.rename(f"{away}/{name}", f"{top}/{name}/kept")
        os.unlink(f"{top}/{name}/brief")
    yield [pair for name in FOLDERS for pair in
           ([f"{name}/brief", None], [f"{name}/kept", metadata(f"{top}/{name}/kept")], [name, metadata(f"{top}/{name}")])]


def observed_in_a_crawl(crawler, feed, top, away, wait):
    """Whether the observation was answered before the crawl that was asked for before it, and how the view then differs from the
    tree."""
    steps = changed_for_a_while(top, away)
    next(steps)
    crawler.send(["recrawl", top])
    time.sleep(wait)
    feed.ask(["observe", top, next(steps)])
    is_met = not select.select([crawler.socket], [], [], 0)[0]
    crawler.line()
    return is_met, differences(view(feed, top), crawled(top))


def observed_during_a_crawl():
    """A file that is away, and one that is there, only while a crawl reads, and is observed again before the crawl's listing is
    applied."""
    with watched(programs.watchmand, "--workers", "1") as (s, top, crawler, feed):
        away, rng = s.folder + "/away", random.Random(1)
        os.mkdir(away)
        make_folders(top)
        recrawl_takes(crawler, top)
        takes, met, wrong, begun = recrawl_takes(crawler, top), 0, [], time.monotonic()
        # a busy machine has a minute for the least number of such moments
        while met < 12 and not wrong and time.monotonic() < begun + (60 if met < 3 else 15):
            is_met, wrong = observed_in_a_crawl(crawler, feed, top, away, takes * rng.uniform(0.1, 0.9))
            met += is_met
        check("what was observed while a crawl read", not wrong, (met, wrong))
        check("such a moment was met", met >= 3 or wrong, met)
        recrawl_takes(crawler, top)
        check("a crawl finds what is there", view(feed, top) == crawled(top), differences(view(feed, top), crawled(top)))


def part_through_a_link():
    """A crawl of a part whose path goes through a link finds nothing, as the whole crawl does, and deletes nothing."""
    with watched(programs.watchmand) as (s, top, a, _):
        os.symlink("..", top + "/up")
        os.symlink("d", top + "/near")
        a.ask(["recrawl", top])
        before, clock = view(a, top), a.ask(["clock", top])
        told = [a.ask(["recrawl", top, part]) for part in ("up/T", "up", "near", "up/T/d")]
        check("a part through a link changes nothing", a.ask(["clock", top]) == clock and view(a, top) == before,
              (told, differences(before, view(a, top))))
        check("and what is there stays", view(a, top) == crawled(top), differences(view(a, top), crawled(top)))


def since(client, top, clock):
    told = client.reply(["query", top, {"since": clock, "fields": ["name", "exists"]}])
    return told["is_fresh_instance"], [file["name"] for file in told["files"] if not file["exists"]]


class Forgetting:
    """A root that is asked since a clock again and again, after an operation each time. `ready`: the seconds around its crawl."""

    def __init__(self, *words):
        self.words = words

    @contextlib.contextmanager
    def root(self):
        self.ready = [int(time.time())]
        with watched(programs.watchmand, *self.words) as (_, self.top, self.client, _):
            self.ready.append(int(time.time()))
            yield self

    def deletes(self, name):
        """A file comes and goes: the clock between, and the seconds around its end."""
        self.client.ask(["observe", self.top, [[name, FILE]]])
        clock, began = self.client.reply(["clock", self.top])["clock"], int(time.time())
        self.client.ask(["observe", self.top, [[name, None]]])
        return clock, [began, int(time.time())]

    def look(self, clock):
        """An operation that changes nothing, and the answer since the clock; the seconds around the operation."""
        began = int(time.time())
        self.client.ask(["observe", self.top, [["never", None]]])
        ended = int(time.time())
        return since(self.client, self.top, clock), [began, ended]

    def forgets(self, name, clock, first, last):
        """Looks until the file is forgotten: what was wrong, and the seconds around the operation that forgot it. It may be
        forgotten from the second `first` on, and has to be from `last` on."""
        while True:
            seen, (began, ended) = self.look(clock)
            if seen[0]:
                return ("forgotten too early", ended - first) if ended < first else None, [began, ended]
            if name not in seen[1] or began >= last:
                return (seen, began - last), [began, ended]
            time.sleep(0.05)


def forgotten_after_the_age():
    with Forgetting("--gc-age", "2", "--gc-interval", "1").root() as made:
        clock, (first, last) = made.deletes("x")
        seen = since(made.client, made.top, clock)
        check("a deleted file is shown", seen == (False, ["x"]), seen)
        wrong, _ = made.forgets("x", clock, first + 2, last + 2)
        check("until its age has passed, and not longer", wrong is None, wrong)
        clock = made.client.reply(["clock", made.top])["clock"]
        check("the present clock is none that was forgotten", since(made.client, made.top, clock) == (False, []))
    with Forgetting("--gc-age", "0", "--gc-interval", "2").root() as made:
        clock, _ = made.deletes("x")
        wrong, (first, last) = made.forgets("x", clock, made.ready[0] + 2, made.ready[1] + 2)
        check("nothing is forgotten until an interval has passed since the root was ready, and then it is", wrong is None, wrong)
        clock, _ = made.deletes("y")
        wrong, _ = made.forgets("y", clock, first + 2, last + 2)
        check("nor again in the next interval", wrong is None, wrong)


def overtaken_reading_is_7():
    with server(programs.watchmand) as s:
        a, top = s.client(), s.folder + "/none"
        a.ask(["watch", top])
        names(a, top)
        for pairs in ([["x", FILE]], [["x", None]], [["y", FILE]]):
            clock = a.reply(["observe", top, pairs])["clock"]
        tick, floor = int(clock.rsplit(":", 1)[1]), a.reply(["age-out", top, 0])["floor"]
        told = [a.reply(["listing", top, begun_at, "", []]).get("error") for begun_at in (0, floor - 1, tick + 1, 2**63 - 1)]
        check("a reading that began below the floor or above the tick", told == ["7 BadClock"] * 4 and 1 < floor < tick,
              (told, floor, tick))
        check("and it changes nothing", a.reply(["clock", top])["clock"] == clock and names(a, top)["files"] == ["y"])
        told = [a.reply(["listing", top, begun_at, "", [["y", FILE]]]) for begun_at in (floor, tick)]
        check("one that began at the floor, or at the tick, is taken", [it.get("clock") for it in told] == [clock, clock], told)


KINDS = (("f", "files"), ("d", "folders"), ("l", "links"), ("o", "others"))


def listed(s, root):
    """How many files, folders, links and other things the crawl of a server lists, or its refusal."""
    client = s.client()
    watching = client.reply(["watch", root])
    crawl = client.reply(["recrawl", root]) if "error" not in watching else watching
    if "error" in crawl:
        return crawl["error"]
    kinds = collections.Counter(client.reply(["query", root, {"fields": ["type"]}])["files"])
    return ", ".join(f"{kinds[letter]} {name}" for letter, name in KINDS)


def crawled_by(workers, root):
    with server(programs.watchmand, "--workers", str(workers)) as s:
        return listed(s, root)


def crawled_by_nobody(made, root):
    """The crawl of a server that isn't root's."""
    os.chmod(made, 0o755)
    theirs = made + "/theirs"
    os.mkdir(theirs)
    os.chown(theirs, NOBODY, NOBODY)
    with Server(shutil.copy(programs.watchmand, made), theirs, before=AS_NOBODY) as s:
        return listed(s, root)


def finds(root, wanted, what):
    for workers in (1, 2, 4, 16):
        seen = crawled_by(workers, root)
        check(f"{what}, {workers} workers", seen == wanted, (seen, wanted))


def touch(path):
    open(path, "w").close()


def chain(root, count):
    """So many folders, one in the other; the descriptor of the last one."""
    os.mkdir(root)
    last = os.open(root, os.O_RDONLY)
    for _ in range(count):
        os.mkdir("d", dir_fd=last)
        last, above = os.open("d", os.O_RDONLY, dir_fd=last), last
        os.close(above)
    return last


def deep_and_wide_folders():
    with folder() as made:
        last = chain(made + "/deep", 200)
        os.close(os.open("f", os.O_CREAT, dir_fd=last))
        os.close(last)
        finds(made + "/deep", "1 files, 200 folders, 0 links, 0 others", "deep folders")
        # paths end at 1,024 bytes: of 600 folders 512 are listed, and the next one's name is left out
        os.close(chain(made + "/deeper", 600))
        finds(made + "/deeper", "0 files, 512 folders, 0 links, 0 others", "folders that are too deep")
        for name in ("files", "folders"):
            os.makedirs(f"{made}/wide/{name}")
        for number in range(20000):
            touch(f"{made}/wide/files/{number}")
        for number in range(3000):
            os.mkdir(f"{made}/wide/folders/{number}")
        finds(made + "/wide", "20000 files, 3002 folders, 0 links, 0 others", "wide folders")


def links_names_and_others():
    with folder() as made:
        os.makedirs(made + "/links/a/b")
        for target, name in (("..", "a/up"), ("/", "root"), ("nowhere", "lost"), ("self", "self"), ("two", "one"),
                             ("one", "two")):
            os.symlink(target, f"{made}/links/{name}")
        finds(made + "/links", "0 files, 2 folders, 6 links, 0 others", "links")
        os.symlink("links", made + "/to_links")
        finds(made + "/to_links", "0 files, 2 folders, 6 links, 0 others", "a root that a link leads to")
        os.mkdir(made + "/names")
        within = os.fsencode(made) + b"/names/"
        for name in ["new\nline", "tab\t", " ", "-", "\\", "*", "\u00e9\U0001F600", "\x7f", "n" * 255]:
            touch(within + name.encode())
        # names that aren't UTF-8, of which one is a folder's
        os.mkdir(within + b"\xc0\x80")
        for name in [b"\xff", b"a\x80b", b"\xed\xa0\x80", b"\xc0\x80/inside"]:
            touch(within + name)
        finds(made + "/names", "9 files, 0 folders, 0 links, 0 others", "names")
        os.mkdir(made + "/others")
        os.mkfifo(made + "/others/pipe")
        socket.socket(socket.AF_UNIX).bind(made + "/others/socket")
        others = 2
        with contextlib.suppress(OSError):
            for name, kind, device in (("device", stat.S_IFCHR, (1, 3)), ("disk", stat.S_IFBLK, (7, 0))):
                os.mknod(f"{made}/others/{name}", kind | 0o644, os.makedev(*device))
                others += 1
        finds(made + "/others", f"0 files, 0 folders, 0 links, {others} others", "pipes, sockets and devices")


def folders_without_rights():
    """A crawl is refused if a folder can't be read. A root that isn't there, or that is a file, has nothing below it."""
    with folder() as made:
        for name in "ab":
            os.makedirs(f"{made}/rights/{name}")
        touch(made + "/rights/b/f")
        os.chmod(made + "/rights/b", 0)
        if os.access(made + "/rights/b", os.R_OK):
            finds(made + "/rights", "1 files, 2 folders, 0 links, 0 others", "a folder without rights, read by root")
        else:
            finds(made + "/rights", "13 DeviceFailed", "a folder without rights")
        if shutil.which("setpriv") and os.getuid() == 0:
            seen = crawled_by_nobody(made, made + "/rights")
            check("a folder without rights, read by nobody", seen == "13 DeviceFailed", seen)
        os.chmod(made + "/rights/b", 0o755)
        finds(made + "/missing", "0 files, 0 folders, 0 links, 0 others", "a root that isn't there")
        touch(made + "/file")
        finds(made + "/file", "0 files, 0 folders, 0 links, 0 others", "a root that is a file")


def folders_that_come_and_go():
    """No crawl is refused, and none breaks off."""
    with folder() as made:
        seen, wrong, end = 0, [], time.monotonic() + 4

        def change():
            while time.monotonic() < end:
                for number in range(40):
                    os.makedirs(f"{made}/d{number}/e/f", exist_ok=True)
                    touch(f"{made}/d{number}/e/g")
                for number in range(40):
                    shutil.rmtree(f"{made}/d{number}")
        with at_once([change]) as (writer,):
            while writer.is_alive():
                told, seen = crawled_by(4, made), seen + 1
                wrong += [] if told.endswith(" others") else [told]
        check("folders that come and go", seen and not wrong, wrong[:3])


CASES = [observed_during_a_crawl, part_through_a_link, forgotten_after_the_age, overtaken_reading_is_7, deep_and_wide_folders,
         links_names_and_others, folders_without_rights, folders_that_come_and_go, reports_beside_recrawls]
