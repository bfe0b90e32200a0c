"""The memory of a server beside clients that ask for as much as they can, and after many commands.

Each kind of 31 greedy clients is tried at a new server over a root of 20,000 files, twice for three seconds. Printed are the
memory before, at most meanwhile, and once they are gone: the C library keeps some of it for later sessions. It fails if a client
takes more than LIMIT, the second time too, or if one more client, beside 30 of them, isn't answered meanwhile.

At a new server over an empty root 1 client, and at another one 4 clients, define one trigger of 15 KB again and again (20,000
times, or --rounds), each time in other words, so that each command is accepted. Printed is the memory before, after the first
1,000 commands, and at five points then. It fails if it is more than 2 MB greater at the end than after the first 1,000."""
import atexit, contextlib, functools, json, os, shutil, tempfile, time

from server import VERSION, Client, at_once, check, programs, server

CLIENTS, FILES, LINE, SECONDS = 31, 20000, 1048576, 3
# Megabytes for a client: more than any was seen to take (docs/PROMISES.md).
LIMIT = 120
FIRST, POINTS, GROWTH = 1000, 5, 2.0
WORDS, WORD = 15, 1000
ALL = {"fields": ["name", "exists", "new", "size", "mtime_ms", "type", "cclock", "oclock"]}
SETTINGS = dict(os.environ, MALLOC_TRIM_THRESHOLD_="131072", MALLOC_ARENA_MAX="8")  # as `make run` starts it


def line_of(request):
    return json.dumps(request, separators=(",", ":")).encode() + b"\n"


def filled(head, part, tail):
    """The longest line that has as many of these parts as a line may."""
    left = LINE - 1 - len(head) - len(tail)
    return (head + ",".join([part] * (left // (len(part) + 1))) + tail + "\n").encode()


def subscriptions(root):
    """32 subscriptions, each with an expression of 1,000 patterns of 1,002 bytes, of an empty root."""
    asked = {"expression": ["anyof", *[["match", "zz" + "*a" * 500]] * 1000], "fields": ["name"]}
    return [json.dumps(["subscribe", root + "/empty", f"s{number}", asked], separators=(",", ":")).encode()
            for number in range(32)]


# The lines that a client of each kind sends, and whether it reads the replies; None if it sends its lines once and waits.
KINDS = {
    "half a line, and waits": (lambda root: [b'["watch","' + b"a" * (LINE - 100)], None),
    "lists of lists": (lambda root: [filled('["version",', "[[]]", "]")], True),
    "numbers": (lambda root: [filled('["version",', "7", "]")], True),
    "objects": (lambda root: [filled('["version",', '{"a":7}', "]")], True),
    "names": (lambda root: [filled('["query","/nowhere",{"expression":["name",[', '"a"', "]]}]")], True),
    "all files, and reads": (lambda root: [line_of(["query", root, ALL])], True),
    "all files, and never reads": (lambda root: [line_of(["query", root, ALL])], False),
    "32 great subscriptions": (subscriptions, None),
}


def megabytes(s, field="VmRSS"):
    return s.memory(field) / 1024


def trouble(path, lines, reads, end):
    """One client: it sends its lines again and again, or once, and then waits until the end."""
    with contextlib.suppress(OSError), Client(path) as client:
        while time.time() < end:
            for line in lines:
                client.socket.sendall(line)
                if reads:
                    client.line()
            if reads is None:
                time.sleep(max(0, end - time.time()))


def answered(s):
    """How long one more client waits for its answer, in seconds; it comes again if those before it aren't gone yet."""
    began, reply = time.time(), b"17"
    while b"17" in reply and time.time() < began + 20:
        with s.client() as client:
            with contextlib.suppress(OSError):
                client.send(["version"])
            reply = client.line()
    return time.time() - began if reply == VERSION else None


def troubled(s, lines, reads):
    """All of them at once; how long one more client waited meanwhile."""
    end = time.time() + SECONDS
    with at_once([lambda: trouble(s.path, lines, reads, end)] * (CLIENTS - 1)):
        time.sleep(SECONDS / 2)
        wait = answered(s)
    return wait


@functools.lru_cache(maxsize=None)
def root_with_files():
    """The root of all kinds of clients, which is there until the end."""
    root = tempfile.mkdtemp(prefix="watchmand-")
    atexit.register(shutil.rmtree, root, ignore_errors=True)
    os.mkdir(f"{root}/empty")
    for number in range(FILES):
        place = f"{root}/folder{number // 200:03}"
        if number % 200 == 0:
            os.mkdir(place)
        open(f"{place}/a_file_with_a_name_{number:05}.c", "w").close()
    return root


def greedy(kind):
    lines_of, reads = KINDS[kind]

    def case():
        with server(programs.watchmand, env=SETTINGS) as s:
            root = root_with_files()
            for watched in (root, root + "/empty"):
                with s.client() as client:
                    client.ask(["watch", watched])
                    client.ask(["recrawl", watched])
            before, lines = megabytes(s), lines_of(root)
            waits = [troubled(s, lines, reads) for _ in range(2)]
            most, after = megabytes(s, "VmHWM"), megabytes(s)
            each = (most - before) / CLIENTS
            print(f"{kind}: {before:.0f} MB before, {most:.0f} at most, {each:.1f} a client, {after:.0f} after")
            check(f"{kind}: a client takes at most {LIMIT} MB", each < LIMIT, each)
            check(f"{kind}: one more client is answered meanwhile", None not in waits, waits)
    case.__name__ = kind.replace(",", "").replace(" ", "_")
    return case


class Definer:
    """A client that defines the trigger in two ways of its own, in turn. The trigger lists no file, so no program is started."""

    def __init__(self, s, root, number):
        self.client, self.count, self.refused = s.client(), 0, None
        self.requests = [["trigger", root, {"name": "t", "command": command(f"{number}{way}"), "expression": "false"}]
                         for way in "ab"]

    def define(self, times):
        """Defines it so many times; the first reply by which it wasn't accepted is kept."""
        for _ in range(times):
            reply = self.client.reply(self.requests[self.count % 2])
            self.count += 1
            if reply.get("disposition") not in ("created", "replaced"):
                self.refused = self.refused or reply


def command(mark):
    """Words that begin with this mark."""
    return ["true"] + [(mark + "x" * WORD)[:WORD] for _ in range(WORDS)]


def commands_by(count):
    commands = max(programs.rounds, 2 * FIRST)
    points = [FIRST] + [FIRST + (commands - FIRST) * point // POINTS for point in range(1, POINTS + 1)]
    with server(programs.watchmand, env=SETTINGS) as s:
        root = s.folder + "/root"
        os.mkdir(root)
        definers, done, seen = [Definer(s, root, number) for number in range(count)], 0, []
        definers[0].client.ask(["watch", root])
        before = megabytes(s)
        for point in points:
            with at_once([functools.partial(definer.define, (point - done) // count) for definer in definers]):
                done = point
            seen.append(megabytes(s))
    name, grown = "1 client" if count == 1 else f"{count} clients", seen[-1] - seen[0]
    at = ", ".join(f"{it:.1f} after {point:,}" for it, point in zip(seen, points))
    print(f"{name}: {before:.1f} MB before, {at}: {grown * 1048576 / (points[-1] - points[0]):.0f} bytes a command")
    refused = [definer.refused for definer in definers]
    check(f"{name}: each command is accepted", not any(refused), refused)
    check(f"{name}: at most {GROWTH:.0f} MB more after {points[-1]:,} commands than after {FIRST:,}", grown <= GROWTH, grown)


def commands_by_one():
    commands_by(1)


def commands_by_four():
    commands_by(4)


CASES = [*map(greedy, KINDS), commands_by_one, commands_by_four]
