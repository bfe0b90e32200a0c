"""A person's use of `wm`, from a first folder to a killed server."""
import contextlib, json, os, re, signal, subprocess, threading, time

from home import AT, ENDED, NOT_ENDED, home, listening
from server import AS_NOBODY, NOBODY, Client, Server, check, programs


def watch(at, root):
    """A client's watch of a root, by whatever path."""
    with Client(at) as client:
        client.ask(["watch", root])


def folders_and_arguments():
    with home(up=True) as h:
        h.says("wm watch tpyo", "wm: FOLDER/work/tpyo: no such folder", 2)
        kept = "no such folder; the quotes kept the shell from replacing"
        for command, path, word in (("wm watch '~/a'", "~/a", "~"), ("wm files '~' '*.c'", "~", "~"),
                                    ("wm watch '$HOME/a'", "$HOME/a", "$HOME")):
            h.says(command, f"wm: {path}: {kept} {word}, so write it without them", 2)
        h.says("wm watch '~a'", "wm: FOLDER/work/~a: no such folder", 2)
        h.says("wm files /", "wm: /: no watched folder has it, and it can't be watched either: a watched folder needs a path of "
               "at most 1,024 bytes, and can't be /", 1)
        h.says("wm run --settle -1 -- true",
               "error: MS isn't a whole number from 0 to 4294967295\n\nFor more information, try '--help'.", 2)
        h.run("touch file")
        h.says("wm watch file", "wm: FOLDER/work/file: is a file, and no folder", 2)
        stands = "a PATTERN stands behind DIR, as in"
        h.says("wm files file", f"wm: FOLDER/work/file: is a file, and no folder; {stands} 'wm files . PATTERN'", 2)
        for command, name, example in (("wm changes --since @test '*.c'", "*.c", "wm changes . PATTERN --since CLOCK"),
                                       ("wm wait a.c", "a.c", "wm wait . PATTERN"),
                                       ("wm run a.c -- make", "a.c", "wm run . PATTERN -- COMMAND")):
            h.says(command, f"wm: FOLDER/work/{name}: no such folder; {stands} '{example}'", 2)
        h.says("wm files", "wm: FOLDER/work: no watched folder has it; 'wm watch FOLDER/work' watches it", 1)
        h.says("wm watch", "FOLDER/work")
        h.says("wm list", "FOLDER/work")
        # a root that a client watches by a symlink is unwatched as it is listed, and not the folder that it leads to
        os.symlink("work", h.folder + "/link")
        watch(h.text(AT), h.folder + "/link")
        h.says("wm list | sort", "FOLDER/link\nFOLDER/work")
        h.says("wm unwatch FOLDER/link", "FOLDER/link")
        h.says("wm list", "FOLDER/work")
        # a root that is a file is named as one
        watch(h.text(AT), h.folder + "/work/file")
        h.says("wm status | tail -1", "FOLDER/work/file: is a file, and no folder: 'wm unwatch' ends its watch")
        h.says("wm unwatch file", "FOLDER/work/file")


def sockets_that_are_gone():
    """A server whose socket was removed is replaced if 'wm up' started it."""
    with home(up=True) as h:
        h.says("wm watch", "FOLDER/work")
        os.remove(h.text(AT))
        h.says("wm list", "wm: SOCKET: no server answers (no such file); 'wm up' starts one", 3)
        gone = f"wm: SOCKET: the socket of the running server (pid {h.pid('watchmand')}) is gone, so that server is ended"
        h.says("wm up", f"{gone}\na server was started at SOCKET")
        h.says("wm list", "FOLDER/work")
        with Server(programs.watchmand, "", socket_name="lost", cwd=h.folder) as foreign:
            os.remove(h.folder + "/lost")
            pid = foreign.process.pid
            h.says("wm up --socket FOLDER/lost", f"wm: FOLDER/lost: a server runs (pid {pid}) without its socket; 'kill {pid}' "
                   "ends it, and 'wm up' starts another, if systemd doesn't", 3)


def patterns():
    with home(up=True) as h:
        h.says("wm watch", "FOLDER/work")
        h.run("touch file lib/a.c lib/a.h library/b.c")
        h.says("wm files | sort", "file\nlib\nlib/a.c\nlib/a.h\nlibrary\nlibrary/b.c")
        h.says("wm files . '*.c' | sort", "lib/a.c\nlibrary/b.c")
        h.says("wm files lib | sort", "a.c\na.h")
        h.says("wm files . 'lib/*.c'", "lib/a.c")
        h.says("wm files lib '*.c'", "a.c")
        h.says("wm files -0 lib '*.c' | tr '\\0' '\\n'", "a.c")
        h.says("""wm files . --expr '["allof",["type","d"],["name","lib"]]'""", "lib")
        fault = ("can't stand in a PATTERN, which has * ? and **; write ? for any byte, or a PATTERN for each name\n\n"
                 "For more information, try '--help'.")
        h.says("wm files . '*.h' '[ab].c'", f"error: '[ab].c': [ {fault}", 2)
        h.says("wm files . 'a\\.c'", f"error: 'a\\.c': \\ {fault}", 2)
        braces = "braces stand for themselves in a PATTERN; write"
        h.says("wm files . '*.{c,h}'", f"wm: '*.{{c,h}}': {braces} '*.c' '*.h' in its place")
        h.says("wm files . '{a,b}.{c,h}' '*.h'", f"wm: '{{a,b}}.{{c,h}}': {braces} one for each name in its place\nlib/a.h")
        h.run("touch 'lib/{a,b}'")
        h.says("wm files . '{a,b}'", f"wm: '{{a,b}}': {braces} 'a' 'b' in its place\nlib/{{a,b}}")
        h.says("""wm files . --expr '["sufix","c"]'""", "wm: FOLDER/work: the server refused: 8 BadExpression; --expr takes "
               "allof anyof not true false name suffix type exists empty size match, as QUERIES.md has them", 1)
        h.says("wm files '*.c'",
               "wm: FOLDER/work/*.c: no such folder; a PATTERN stands behind DIR, as in 'wm files . PATTERN'", 2)


def changes():
    with home(up=True) as h:
        h.says("wm watch", "FOLDER/work")
        h.run("touch lib/a.c lib/a.h")
        h.says("wm changes lib --since @test | sort",
               "wm: FOLDER/work/lib: a fresh answer: all that is there, and not what was deleted\na.c\na.h")
        h.says("wm changes lib --since @test")
        h.run("echo more > lib/a.c")
        h.says("wm changes lib --since @test '*.c'", "a.c")
        clock = h.run("wm changes lib --since @test --clock | tail -1")[0]
        h.run("rm lib/a.h")
        h.says(f"wm changes lib --since '{clock}' '*.h'", "a.h")
        for since in ("yesterday", "-1"):
            h.says(f"wm changes --since {since}", "wm: FOLDER/work: the server refused: 7 BadClock; a clock is what --clock "
                   "printed, @NAME a name of at most 64 bytes", 1)
        h.says("(sleep 1; touch lib/new.c) & wm wait lib '*.c'; wait", "new.c")


def runs():
    """Each run takes the names since the run before; a change during one is in the next. A killed server is waited for."""
    with home(up=True) as h:
        h.says("wm watch", "FOLDER/work")
        h.run("touch lib/a.c lib/new.c")
        h.write("bin/noted", """#!/bin/sh\n{ tr '\\0' ' '; echo; } >> "$1"\nsleep 1\n""")
        runner = h.begin("exec wm run lib '*.c' -- noted FOLDER/runs 2> FOLDER/said", stdout=subprocess.DEVNULL)
        h.has("a.c", "runs")
        h.run("touch lib/during.c")
        h.has("during.c", "runs")
        h.kill("watchmand")
        h.run("touch lib/meanwhile.c; wm up")
        h.has("meanwhile.c", "runs")
        h.run("touch lib/later.c")
        h.has("later.c", "runs")
        h.kill("wmfeed")
        h.has("no feed runs any longer", "said")
        h.run("touch lib/unfed.c")
        h.says("wm up", "a server answers at SOCKET\na feed was started")
        h.has("unfed.c", "runs")
        h.has("fed again", "said")
        runner.terminate()
        runner.wait()
        h.says("grep -v 'waited for' FOLDER/said",
               "wm: FOLDER/work: no feed runs any longer, so changes aren't seen; 'wm up' starts "
               "one\nwm: FOLDER/work: it is fed again, so changes are seen")
        h.says("wm sync")
        h.kill("wmfeed", signal.SIGTERM, is_awaited=True)
        h.says("wm files . 'new.c'",
               "wm: FOLDER/work: no feed runs, so it is crawled for this question; 'wm up' starts a feed\nlib/new.c")
        h.says("wm files . 'new.c' --no-sync", "lib/new.c")
        h.says("wm status", "server: SOCKET\nno feed runs: 'wm up' starts one\nFOLDER/work: ready, not fed")
        h.says("wm up", "a server answers at SOCKET\na feed was started")
        h.says("wm sync")
        h.says("wm status | tail -1", "FOLDER/work: ready, fed")


def processes_that_are_stopped():
    """A server that was stopped: wm says that it waits for the answer, which comes once the server goes on. A stopped feed."""
    with home(up=True) as h:
        h.says("wm watch", "FOLDER/work")
        h.run("touch lib/new.c; wm sync")
        silent = "wm: SOCKET: the server's answer is waited for: it is busy, or it was stopped"
        for command, answer in (("wm list", "FOLDER/work"), ("wm status", "server: SOCKET\nFOLDER/work: ready, fed"),
                                ("wm files . 'new.c'", "lib/new.c")):
            h.kill("watchmand", signal.SIGSTOP)
            threading.Timer(1.5, h.kill, ("watchmand", signal.SIGCONT)).start()
            h.says(command, f"{silent}\n{answer}")
        h.kill("wmfeed", signal.SIGSTOP)
        h.says("wm status | tail -1", "FOLDER/work: ready, fed by a stopped process")
        h.run("mkdir unready; touch unready/a")
        h.says("wm watch unready", "FOLDER/work/unready")
        h.says("wm files unready",
               "wm: FOLDER/work/unready: the feed isn't ready for it yet, so it is crawled for this question\na")
        h.kill("wmfeed", signal.SIGCONT)
        h.says("wm unwatch unready", "FOLDER/work/unready")
        h.run("mkdir gone")
        h.says("wm watch gone/", "FOLDER/work/gone")
        h.run("rmdir gone")
        h.says("wm status | tail -1", "FOLDER/work/gone: no such folder: 'wm unwatch' ends its watch")
        h.says("wm files gone", "wm: FOLDER/work/gone: no such folder; a PATTERN stands behind DIR, as in 'wm files . PATTERN'",
               2)
        h.says("wm unwatch ./gone/", "FOLDER/work/gone")
        h.says("wm list", "FOLDER/work")
        h.says("wm unwatch", "FOLDER/work")
        h.says("wm list")
        h.says("wm down", ENDED)
        h.says("wm down", "no wmfeed of 'wm up' runs\nno watchmand of 'wm up' runs")


UNREAD = "the folder can't be read (no permission)"
ADVICE = "give the server's user the right to read it ('chmod u+rx')"
WHOLE, PART = "FOLDER/user/whole", "FOLDER/user/part"
INNER = f"wm: {PART}/inner: {UNREAD}; what is in it isn't listed"


@contextlib.contextmanager
def home_without_rights():
    """One in which a user can't read the folder WHOLE, and a folder in PART; what a command of that user begins with."""
    with home() as h:
        user = " ".join(AS_NOBODY) if os.getuid() == 0 else ""
        h.run(f"mkdir -p {WHOLE} {PART}/inner {PART}/open; touch {PART}/open/a; chmod 0 {WHOLE} {PART}/inner")
        if user:
            h.run(f"chown -R {NOBODY}:{NOBODY} FOLDER/user")
        theirs = f"{user} env XDG_STATE_HOME=FOLDER/user/state WATCHMAND_SOCKET=FOLDER/user/socket timeout 8"
        h.says(f"{theirs} wm up", "a server was started at FOLDER/user/socket\na feed was started")
        yield h, theirs
        h.says(f"{theirs} wm down", NOT_ENDED)
        h.run("chmod -R 700 FOLDER/user")


def folders_without_rights():
    """A folder that can't be read, or in which there is one: wm says so at once, and not once a first crawl has failed."""
    with home_without_rights() as (h, theirs):
        whole = f"{WHOLE}: {UNREAD}; {ADVICE}"
        h.says(f"{theirs} wm watch {WHOLE}", f"{WHOLE}\nwm: {whole}; it is watched, and listed once it can be read")
        h.says(f"{theirs} wm status", f"server: FOLDER/user/socket\n{whole}")
        for command in (f"files {WHOLE}", f"changes --since @a {WHOLE}", f"wait {WHOLE}", f"run {WHOLE} -- true",
                        f"sync {WHOLE}"):
            h.says(f"{theirs} wm {command}", f"wm: {whole}", 1)
        h.says(f"{theirs} wm unwatch {WHOLE}", WHOLE)
        h.says(f"{theirs} wm watch {PART}", f"{PART}\n{INNER}")
        h.says(f"{theirs} wm files {PART} | sort", f"{INNER}\ninner\nopen\nopen/a")
        h.says(f"{theirs} wm files {PART} a", f"{INNER}\nopen/a")
        h.says(f"{theirs} wm files {PART}/open", "a")
        h.says(f"{theirs} wm changes {PART} a --since @a",
               f"{INNER}\nwm: {PART}: a fresh answer: all that is there, and not what was deleted\nopen/a")
        h.says(f"{theirs} wm changes {PART} a --since @a", INNER)
        h.says(f"{theirs} wm sync {PART}")
        for command in (f"files {PART}/inner", f"files {PART}/inner '*.c'", f"changes {PART}/inner --since @a",
                        f"sync {PART}/inner"):
            h.says(f"{theirs} wm {command}", f"wm: {PART}/inner: {UNREAD}; {ADVICE}", 1)
        h.says(f"{theirs} wm status", f"server: FOLDER/user/socket\n{PART}: ready, fed\n{INNER}")
        h.run(f"chmod 0 {PART}/open")
        h.says(f"{theirs} wm files {PART}/open --no-sync",
               f"wm: {PART}/open: {UNREAD}; {ADVICE}; what is known of it is from before\na")
        h.run(f"chmod 700 {PART}/open")
        h.kill("wmfeed", signal.SIGTERM, is_awaited=True, state="user/state")
        h.says(f"{theirs} wm unwatch {PART}", PART)


def folders_without_rights_and_without_a_feed():
    with home_without_rights() as (h, theirs):
        h.kill("wmfeed", signal.SIGTERM, is_awaited=True, state="user/state")
        h.run(f"cd {PART}/open; {theirs} mkdir -m 0 1 2 3 4")
        unlisted = "\n".join([INNER, *(f"wm: {PART}/open/{number}: {UNREAD}; what is in it isn't listed" for number in "12"),
                              f"wm: {PART}: and 2 more folders below it can't be read"])
        h.says(f"{theirs} wm watch {PART}", f"{PART}\n{unlisted}")
        h.says(f"{theirs} wm status", f"server: FOLDER/user/socket\nno feed runs: 'wm up' starts one\n{PART}: not crawled, "
               f"since a folder below it can't be read; a feed passes it over: 'wm up' starts one\n{unlisted}")
        h.says(f"{theirs} wm files {PART}", f"wm: {PART}: no feed runs, so it is crawled for this question; 'wm up' starts a "
               f"feed\nwm: {PART}/inner: {UNREAD}; a feed passes it over: 'wm up' starts one", 1)


def slow(end):
    """Serves a root whose first crawl and recrawl last until a moment; if this is 0 each answer about it takes a while."""
    def reply(line):
        if b"watch-list" in line:
            return {"roots": ["/tmp"]}
        if not end:
            time.sleep(1.5)
            return {"clock": "c:1:1:1", "files": [], "is_fresh_instance": True}
        if b"recrawl" in line:
            time.sleep(max(0, end - time.monotonic()))
            return {"clock": "c:1:1:1"}
        if time.monotonic() < end:
            return {"error": "6 NotReady"}
        return {"clock": "c:1:1:1", "files": ["a"], "is_fresh_instance": True}

    def serve(session):
        for line in session.makefile("rb"):
            session.sendall(json.dumps({**reply(line), "version": "w1"}, separators=(",", ":")).encode() + b"\n")
    return serve


def crawls_that_last():
    """wm prints that a crawl goes on, and that an answer is waited for, and about which root."""
    with home() as h:
        with listening(h.folder + "/slow", slow(time.monotonic() + 16)):
            ask = "wm files /tmp --no-sync --socket FOLDER/slow"
            plain, terminal = h.begin(ask), h.begin(f"script -qec '{ask}' /dev/null")
            said = [line for line in plain.communicate()[0].splitlines() if line != "a"]
            shown = terminal.communicate()[0].replace("\r", "").splitlines()
        check("a crawl that lasts", said == ["wm: /tmp: the first crawl goes on; the answer comes once the crawl has ended"],
              said)
        goes_on = [line for line in shown if line != "a"]
        seen = {re.sub(r"\d+ s", "N s", line) for line in goes_on}
        check("on a terminal", seen == {"wm: /tmp: the first crawl goes on, N s so far"} and shown[-1] == "a", shown)
        check("four to six times", 4 <= len(goes_on) <= 6, shown)
        with listening(h.folder + "/lasting", slow(0)):
            awaits = "wm: /tmp: the server's answer is waited for: a crawl may go on, or another question"
            h.says("wm status --socket FOLDER/lasting",
                   f"server: FOLDER/lasting\nno feed runs: 'wm up' starts one\n{awaits}\n/tmp: ready, not fed")
            h.says("wm watch /tmp --socket FOLDER/lasting", f"{awaits}\n/tmp")


CASES = [folders_and_arguments, sockets_that_are_gone, patterns, changes, runs, processes_that_are_stopped,
         folders_without_rights,
         folders_without_rights_and_without_a_feed, crawls_that_last]
