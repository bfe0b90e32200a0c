"""For tools/try/messages.py: the further lines of files that can't be served, of sockets without a server and of refused
requests, and the folder with its servers in which they are tried."""
import fcntl, os, shutil, socket, subprocess, tempfile

from server import NOBODY, Server, new_state, programs

NO_REQUEST = ("a request is one word, JSON, as in wmctl SOCKET '[\"watch-list\"]'; "
              "'wm watch FOLDER' and 'wm --help' are for plain words\n")
NO_ROOT = "is no root's path: it begins with / and has no part that is empty, . or ..; realpath prints such a path"
SLASH = "'/' can't be watched: a root is a folder below it"
WATCH_STAYS = ": it is filled once a folder is made there, and 'wm unwatch ROOT' or [\"watch-del\",ROOT] ends the watch"
NO_FOLDER = "no folder is there, so the root has no files" + WATCH_STAYS
NO_TERM = ("is no term of an expression: the words of terms are true, false, exists, empty, name, "
           "suffix, type, size, match, not, allof and anyof")
WRITTEN = "is no term of an expression: such a term is written "
NO_FIELD = "is no field: these are name, exists, new, size, type, mtime_ms, cclock and oclock"
NO_KEY = "is no key of such a request: these are since, expression, fields, empty_on_fresh_instance and sync_timeout"
NO_TRIGGER_KEY = "is no key of a trigger: these are name, command, expression, append_files, stdin and max_files_stdin"
NO_COMMAND = ("is no command: these are version, watch, watch-del, watch-list, clock, since, query, subscribe, unsubscribe, "
              "trigger, trigger-list, trigger-del, recrawl, observe, listing and age-out")
NO_PATTERN = ("is no pattern of match: this has at most 1,024 bytes, and neither [ nor \\; "
              "* fits any bytes of a name, ? one byte, and ** any folders")
NO_TYPE = "is no type of a file: these are f (a file), d (a folder), l (a link) and o (all else)"
NO_WATCH = "the root isn't watched: 'wm watch ROOT' or [\"watch\",ROOT] watches it, and [\"watch-list\"] has those that are"
NO_LIST = "a request is a list that begins with the name of a command, as [\"watch-list\"]"
NO_SESSION = "all of the server's 31 sessions are taken: try later, or end what holds them, as 'wm run' and feeds do"
NO_CRAWL = "the root isn't crawled yet: try again, or send [\"recrawl\",ROOT], which waits"
NO_READING = ("a folder of the root can't be read, which 'wm status' and the server's log name: "
              "give the server's user the right to it, or watch a folder below")
LOG = "the log of a server that 'wm up' started is %s/watchmand/log"
OFF_PATH = "is no program on this PATH: the server looks on its own PATH, and its log says if a run couldn't be started"
NO_RUN = "no run of the trigger can be started until it is"
UNREAD = "the folder can't be read; what is in it isn't listed, or is known from before"
OF_ANOTHER = "this is another user's, and there is no right to it: name the socket of your own server, which 'wm up' starts"
WAITS = "wmctl waits for an answer: the server is busy, or it was stopped\n"
SOCKET_FIRST = "the socket comes first, as in wmctl SOCKET REQUEST"
OR_ROOTS = "or it watches 256 roots, which 'wm list' prints; 'wm unwatch' ends a watch"
BY_WATCH = "the server watches 256 roots, or all of its 31 sessions are taken: 'wm unwatch' what nobody needs, or try later"
BRACES = ("has braces, which stand for themselves in a pattern: for a choice write a pattern each, "
          "as [\"anyof\",[\"match\",\"*.c\"],[\"match\",\"*.md\"]]")
NO_FURTHER_LINES = "only a subscribe is followed by further lines: --follow waits until the server ends\n"
LONG = "d" * 60 + "/" + "e" * 63 + "/socket"


# Words of watchmand that it refuses, and the further line.
MAKE_IT = "no such file; 'watchmand format %s' makes it"
NO_STATE_FILE = "this is no state file of watchmand"
FILES = [
    (["lines", "nofile"], "nofile: " + MAKE_IT % "nofile"),
    (["serve", "nofile", "s2"], "nofile: " + MAKE_IT % "nofile"),
    (["lines", "taken"], f"taken: another program has it (pid {os.getpid()})"),
    (["lines", "folder"], "folder: this is a folder"),
    (["lines", "fifo"], "fifo: this is no regular file"),
    (["lines", "nofolder/state"], "nofolder/state: its folder isn't there"),
    (["lines", "plain/state"], "plain/state: its folder isn't there"),
    (["lines", "a\n\x1bb"], "a\\x0a\\x1bb: " + MAKE_IT % "a\\x0a\\x1bb"),
    (["format", "state"], "state: is there already"),
    (["format", "folder"], "folder: is there already"),
    (["format", "nofolder/state"], "nofolder/state: its folder isn't there"),
    (["serve", "free", LONG], f"socket: the path has {len(LONG)} bytes, at most 107"),
    (["serve", "free", "sock"], "sock: a server listens there: 'wm list --socket sock' asks it, or name another socket"),
    (["serve", "free", "plain"], "plain: this is no socket"),
    (["serve", "free", "folder"], "folder: this is no socket"),
    (["serve", "free", "nofolder/sock"], "nofolder/sock: its folder isn't there"),
    (["serve", "sock", "free"], "sock: this is no regular file"),
    (["migrate", "nofile", "new"], "nofile: no such file"),
]
DAMAGED = [
    (["serve", "plain", "free"], f"plain: {NO_STATE_FILE}"),
    (["lines", "passwd"], f"passwd: {NO_STATE_FILE}"),
    (["lines", "empty"], f"empty: {NO_STATE_FILE}"),
    (["lines", "cut"], "cut: this state file is damaged; put a copy back, or move it away and 'watchmand format cut' makes a new "
                       "one"),
    (["migrate", "plain", "new1"], f"plain: {NO_STATE_FILE}"),
    (["migrate", "free", "new2"], "free: this state file has version 2 already"),
]
NO_RIGHT = "there is no right to it%s: give it by chmod or chown, or name another %s"
OWNED = "" if os.getuid() else " (user 0 owns it)"
NO_RIGHTS = [
    (["lines", "secret"], "secret: " + NO_RIGHT % (OWNED, "file")),
    (["lines", "theirs/dark/state"], "theirs/dark/state: " + NO_RIGHT % ("", "file")),
    (["format", "shut/state"], "shut/state: can't be made: look at the rights of its folder and at the disk"),
    (["serve", "mine", "kept"], "kept: " + NO_RIGHT % (OWNED, "socket")),
]


def of_owners(place):
    """Words of watchmand at a file that another server has, and the further line."""
    listens = "another watchmand has it (pid %s) and listens at %s: 'kill %s' ends it"
    mine, theirs = (listens % (server.process.pid, os.path.realpath(place.path(at)), server.process.pid)
                    for server, at in ((place.server, "sock"), (place.theirs, "theirs/sock")))
    yield ["serve", "state", "s2"], f"state: {mine}"
    yield ["lines", "state"], f"state: {mine}"
    yield ["migrate", "state", "new3"], f"state: {mine}"
    yield ["lines", "theirs/state"], f"theirs/state: {theirs}"


def of_files(place):
    """Words of watchmand, the refusal, the further line, and whether it is run without root's rights."""
    for cases, refusal, no_rights in ((FILES, "13 DeviceFailed", False), (of_owners(place), "13 DeviceFailed", False),
                                      (NO_RIGHTS, "13 DeviceFailed", True), (DAMAGED, "14 Damaged", False)):
        for words, further in cases:
            yield words, refusal, further, no_rights


def of_sockets():
    """A socket at which no server answers, the further line, and whether the case is run without root's rights."""
    yield "nosock", "no server answers at nosock (no such file): 'wm up' starts one, or 'watchmand serve STATE nosock'", False
    no_folder = "no server answers at nofolder/sock (its folder isn't there): 'wm up' makes its own folder and starts one"
    yield "nofolder/sock", no_folder, False
    yield "plain", "plain: this is no socket", False
    yield "folder", "folder: this is no socket", False
    yield "dead", "no server answers at dead (nobody listens there): 'wm up' starts one, or 'watchmand serve STATE dead'", False
    yield "kept", "kept: " + (OF_ANOTHER if os.geteuid() == 0 else "there is no right to it"), True
    yield "own", "own: there is no right to it", True
    yield LONG, f"socket: the path has {len(LONG)} bytes, at most 107", False


# Expressions that are refused, with the further lines.
EXPRESSIONS = [
    ('["sufix","c"]', f'["sufix","c"] {NO_TERM}'),
    ('["allof",["suffix","c"],["imatch","x"]]', f'["imatch","x"] {NO_TERM}'),
    ('["not",["anyof","exists",["type","b"]]]', f"'b' {NO_TYPE}"),
    ('["match","[ab].c"]', f"'[ab].c' {NO_PATTERN}"),
    ('["allof","exists",["match","a\\\\b","wholename"]]', f"'a\\b' {NO_PATTERN}"),
    ('["match","*.c","path"]', f'["match","*.c","path"] {WRITTEN}["match","*.c"] or ["match","src/*.c","wholename"]'),
    ('["type",["f"]]', f'["type",["f"]] {WRITTEN}["type","f"]'),
    ('["not"]', f'["not"] {WRITTEN}["not",["suffix","c"]]'),
    ('["suffix"]', f'["suffix"] {WRITTEN}["suffix","c"] or ["suffix",["c","h"]]'),
    ('["size","gt","10"]', f'["size","gt","10"] {WRITTEN}["size","gt",10], with eq, ne, gt, ge, lt or le'),
]
# Objects of a query that are refused, with the refusals and the further lines.
NO_FIELDS = "[] can't be 'fields': this is a list of one or more fields, none of them twice, as [\"name\",\"size\"]"
NO_SINCE = "can't be 'since': this is a clock, a cursor or a time in seconds, as \"c:1:2:3\", \"n:build\" or 1700000000"
NO_TIMEOUT = "\"1s\" can't be 'sync_timeout': this is a whole number of milliseconds, as 1000"
OBJECTS = [
    ('{"fields":["name","mtime"]}', "9 BadField", f'"mtime" {NO_FIELD}'),
    ('{"fields":["name",7]}', "9 BadField", f"7 {NO_FIELD}"),
    ('{"fields":[]}', "9 BadField", NO_FIELDS),
    ('{"expresion":"exists"}', "3 BadArguments", f"'expresion' {NO_KEY}"),
    ('{"since":"yesterday"}', "7 BadClock", f'"yesterday" {NO_SINCE}'),
    ('{"since":true}', "3 BadArguments", f"true {NO_SINCE}"),
    ('{"sync_timeout":"1s"}', "3 BadArguments", NO_TIMEOUT),
]
# Lines that are refused whatever is watched.
NO_JSON = "the request is no JSON text, as '[\"watch-list\"]' is in a shell: look at column %d"
WRITTEN_SO = "such a request is written [%s]"
LINES = [
    ('["wach","/x"]', "2 BadCommand", f"'wach' {NO_COMMAND}"),
    ('["watch","/"]', "4 BadPath", SLASH),
    ('["watch","proj"]', "4 BadPath", f"'proj' {NO_ROOT}"),
    ('["watch","~/proj"]', "4 BadPath", f"'~/proj' {NO_ROOT}"),
    ('["watch","/proj/"]', "4 BadPath", f"'/proj/' {NO_ROOT}"),
    ("[watch", "1 BadLine", NO_JSON % 2),
    ("watch-list", "1 BadLine", NO_JSON % 1),
    ('["watch","/proj"', "1 BadLine", NO_JSON % 16),
    ('["watch"]', "3 BadArguments", WRITTEN_SO % '"watch","/proj"'),
    ('["watch-list","all"]', "3 BadArguments", WRITTEN_SO % '"watch-list"'),
    ('{"a":1}', "2 BadCommand", NO_LIST),
    ("[]", "2 BadCommand", NO_LIST),
    ('"watch-list"', "2 BadCommand", NO_LIST),
    *((request, "5 NotWatched", NO_WATCH) for request in (
        '["clock","/not/watched"]', '["query","/not/watched",{}]', '["recrawl","/not/watched"]',
                                                          '["trigger-list","/not/watched"]')),
]
# Lines of a watched root that are refused.
NO_LIST_OF_TEXTS = "\"make\" can't be 'command': this is a list of texts, as [\"make\",\"all\"]"
NO_PATH = "the path of a file or a folder in a root has no / at its ends, and no part that is empty, . or .."
OF_ROOT = [
    ('["subscribe","%s","n",{"defer":[]}]', "3 BadArguments", f"'defer' {NO_KEY}"),
    ('["trigger","%s",{"name":"n","command":["true"],"chdir":"/"}]', "10 BadTrigger", f"'chdir' {NO_TRIGGER_KEY}"),
    ('["trigger","%s",{"name":"n","command":"make"}]', "10 BadTrigger", NO_LIST_OF_TEXTS),
    ('["trigger","%s",{"name":"n"}]', "10 BadTrigger", WRITTEN_SO % '"trigger","/proj",{"name":"n","command":["make"]}'),
    ('["since","%s","yesterday"]', "7 BadClock", WRITTEN_SO % '"since","/proj","c:1:2:3"'),
    ('["query","%s"]', "3 BadArguments", WRITTEN_SO % '"query","/proj",{"fields":["name"]}'),
    ('["observe","%s"]', "3 BadArguments", WRITTEN_SO % '"observe","/proj",[["gone.c",null]]'),
    ('["recrawl","%s","/sub"]', "4 BadPath", NO_PATH),
]


def of_requests(root):
    """A request, the refusal that the server prints, and the further line."""
    for expression, further in EXPRESSIONS:
        yield '["query","%s",{"expression":%s}]' % (root, expression), "8 BadExpression", further
    for asked, refusal, further in OBJECTS:
        yield f'["query","{root}",{asked}]', refusal, further
    yield from LINES
    for line, refusal, further in OF_ROOT:
        yield line % root, refusal, further


WITHOUT_RIGHTS = dict(user=NOBODY, group=NOBODY, extra_groups=[]) if os.geteuid() == 0 else {}


def socket_at(path):
    with socket.socket(socket.AF_UNIX) as bound:
        bound.bind(path)


def ctl(request, *more, at="sock"):
    """The words of a call of wmctl."""
    return [programs.wmctl, at, request, *more]


def refusal(name):
    return '{"error":"%s","version":"w1"}\n' % name


def environment(explain):
    kept = {key: value for key, value in os.environ.items() if key not in ("WATCHMAND_EXPLAIN", "XDG_STATE_HOME")}
    return {**kept, "WATCHMAND_EXPLAIN": "1"} if explain else kept


class Place:
    """A folder with what the cases need, a server on `sock` over `state`, and one without root's rights on `theirs/sock`."""

    def __init__(self):
        self.dir, self.count, self.wrong = tempfile.mkdtemp(prefix="messages.", dir="/tmp"), 0, []
        os.chmod(self.dir, 0o755)
        for name in ("folder", "shut", "root", "theirs", "theirs/dark", os.path.dirname(LONG)):
            os.makedirs(self.path(name))
        os.symlink("root", self.path("link"))
        shutil.copy("/etc/passwd", self.path("passwd"))
        for name in ("plain", "empty", "secret"):
            with open(self.path(name), "wb") as file:
                file.write(b"" if name == "empty" else b"plain text\n" * 9)
        os.mkfifo(self.path("fifo"))
        self.make_states()
        socket_at(self.path("dead"))
        self.server = Server(programs.watchmand, "", "--quiet", socket_name="sock", cwd=self.dir)
        self.done(ctl('["watch","%s"]' % self.path("root")))
        self.take_rights()
        self.theirs = Server(programs.watchmand, "theirs", "--quiet", socket_name="sock", cwd=self.dir, **WITHOUT_RIGHTS)
        assert self.server.ready == self.theirs.ready == b"ready\n"

    def make_states(self):
        for name in ("state", "free", "taken", "cut", "mine"):
            new_state(programs.watchmand, self.path(name))
        os.chmod(self.path("mine"), 0o666)
        with open(self.path("cut"), "r+b") as cut:
            cut.seek(8)
            cut.write(b"\0\0\0\x09")
        self.lock = open(self.path("taken"), "r+b")
        fcntl.flock(self.lock, fcntl.LOCK_EX)

    def take_rights(self):
        """Sockets, a file and folders to which there is no right, as theirs/dark is for the server on `theirs/sock`."""
        for name in ("kept", "own"):
            socket_at(self.path(name))
        if WITHOUT_RIGHTS:
            for name in ("own", "theirs"):
                os.chown(self.path(name), NOBODY, NOBODY)
        for name, mode in (("kept", 0), ("own", 0), ("secret", 0), ("shut", 0o555), ("theirs/dark", 0)):
            os.chmod(self.path(name), mode)

    def path(self, name):
        return os.path.join(self.dir, name)

    def close(self):
        for server in (self.server, self.theirs):
            server.end()
        self.lock.close()
        shutil.rmtree(self.dir)

    def done(self, words, **how):
        """Runs a command that has to succeed."""
        subprocess.run(words, cwd=self.dir, check=True, stdout=subprocess.DEVNULL, **how)

    def run(self, words, explain, no_rights=False):
        """The status, the output and the errors of a program."""
        ended = subprocess.run(words, cwd=self.dir, env=environment(explain), stdin=subprocess.DEVNULL, capture_output=True,
                               timeout=60,
                               **(WITHOUT_RIGHTS if no_rights else {}))
        return ended.returncode, ended.stdout.decode(), ended.stderr.decode()

    def begin(self, words, explain, **how):
        how = {"stdin": subprocess.DEVNULL, "stdout": subprocess.PIPE, "stderr": subprocess.PIPE, **how}
        return subprocess.Popen(words, cwd=self.dir, env=environment(explain), **how)

    def same(self, what, seen, wanted):
        self.count += 1
        if seen != wanted:
            self.wrong.append(what)
            print(f"differs: {what}\n  wanted {wanted!r}\n  got    {seen!r}")

    def explains(self, words, status, output, errors, further, no_rights=False):
        """The plain text, and the same with the further line."""
        shown = " ".join(words)
        self.same(shown, self.run(words, False, no_rights), (status, output, errors))
        further = further + "\n" if further else ""
        self.same(f"{shown} (explained)", self.run(words, True, no_rights), (status, output, errors + further))

    def succeeds(self, words, further, what=None, no_rights=False):
        """A request that succeeds: the same reply twice, and then the further line."""
        what = what or " ".join(words)
        status, output, errors = self.run(words, False, no_rights)
        self.same(what, (status, errors), (0, ""))
        self.same(f"{what} (explained)", self.run(words, True, no_rights), (0, output, further))
