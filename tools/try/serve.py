"""Rough use of a server: sessions, lines, clients that don't read, roots, triggers, sockets, arguments and kills."""
import contextlib, os, random, shutil, signal, socket, stat, subprocess, threading, time

from server import (AS_NOBODY, NOBODY, TOO_MANY, VERSION, Server, at_once, check, folder, names, outcome, programs, server, tree,
                    until,
                    watched)

REFUSED = (1, b"watchmand: 13 DeviceFailed\n")


def sessions_and_rows():
    with server(programs.watchmand) as s:
        a, b = s.client(), s.client()
        top = tree(s.folder + "/T")
        check("it says that it is ready", s.ready == b"ready\n", s.ready)
        check("only this user may use the socket", stat.S_IMODE(os.stat(s.path).st_mode) == 0o600)
        check("two sessions in turn", [a.ask(["version"]), b.ask(["version"]), a.ask(["version"])] == [VERSION] * 3)
        told = a.reply(["watch", top])
        check("a root is watched", told == {"version": "w1", "watch": top}, told)
        told = names(a, top)
        seen = sorted(told["files"]), told["is_fresh_instance"], told["clock"].rsplit(":", 1)[1]
        check("it is crawled", seen == (["a", "d", "d/b"], True, "1"), told)
        check("the other session sees the root", b.reply(["watch-list"])["roots"] == [top])
        out = s.folder + "/OUT"
        a.ask(["trigger", top, {"name": "t", "command": ["sh", "-c", "cat > " + out], "stdin": "NAME_PER_LINE",
                                "expression": ["suffix", "c"]}])
        tree(top, **{"x.c": "x", "d/y.c": "y"})
        told = a.reply(["recrawl", top, "d"])
        found = names(b, top)["files"]
        check("a crawl of a part finds what is there", "d/y.c" in found and "x.c" not in found, told)
        check("a trigger runs", until(lambda: os.path.exists(out) and open(out).read() == "d/y.c\n"))
        a.ask(["recrawl", top])
        check("and runs again", until(lambda: open(out).read() == "x.c\n"), open(out).read())
        for words, refusal in (([], "3 BadArguments"), ([top, 1], "3 BadArguments"), (["r"], "4 BadPath"),
                               ([top, "/d"], "4 BadPath"),
                               (["/nowhere"], "5 NotWatched")):
            check(f"recrawl of {words} is refused", b.reply(["recrawl", *words])["error"] == refusal)


def subscribers():
    with watched(programs.watchmand) as (s, top, a, b):
        told = a.reply(["subscribe", top, "s", {"fields": ["name"]}])
        check("a subscription is answered", told["subscribe"] == "s", told)
        told = a.next()
        seen = told["unilateral"], told["is_fresh_instance"], sorted(told["files"])
        check("and sends the files", seen == (True, True, ["a", "d", "d/b"]), told)
        b.ask(["observe", top, [["zz", {"mtime_ms": 0, "size": 1, "type": "f"}]]])
        told = a.next()
        check("a change by another session is sent", (told["files"], told["subscription"]) == (["zz"], "s"), told)
        lost = s.client()
        lost.ask(["subscribe", top, "lost", {}])
        lost.close()
        b.ask(["watch-del", top])
        b.ask(["watch", top])
        names(b, top)
        check("a subscription ends with its root, without a line",
              a.ask(["version"]) == VERSION and a.reply(["unsubscribe", top, "s"])["deleted"] is False)


def many_sessions():
    with server(programs.watchmand) as s:
        clients = [s.client() for _ in range(31)]
        check("31 sessions", all(client.ask(["version"]) == VERSION for client in clients))
        late = s.client()
        check("the 32nd is sent away", (late.line(), late.line()) == (TOO_MANY, b""))
        clients.pop().close()

        def look():
            again = s.client()
            with contextlib.suppress(OSError):
                if again.ask(["version"]) == VERSION:
                    return True
            return False
        check("after one left another comes in", until(look))


def lines_that_are_wrong():
    with server(programs.watchmand) as s:
        a = s.client()
        a.send(b'["version"' + b" " * 1048564 + b"]")
        check("a line of 1,048,576 bytes", a.line() == VERSION)
        a.send(b'["version"' + b" " * 1048565 + b"]")
        check("one byte more", b'"1 BadLine"' in a.line() and a.ask(["version"]) == VERSION)
        half = s.client()
        half.socket.sendall(b'["clo')
        check("one who sends half a line holds nobody up", a.ask(["version"]) == VERSION)
        half.socket.shutdown(socket.SHUT_WR)
        check("and is answered at its end", b'"1 BadLine"' in half.line() and half.line() == b"")
        broken = s.client()
        broken.socket.sendall(b'["version"]\n["watch","/')
        broken.close()
        check("one whose socket breaks inside a line", a.ask(["version"]) == s.client().ask(["version"]) == VERSION)


def clients_that_do_not_read():
    with watched(programs.watchmand, **{f"file{n}": "" for n in range(2000)}) as (s, top, _, b):
        gone = s.client()
        gone.send(["query", top, {}])
        gone.socket.recv(10)
        gone.close()
        check("one who goes in the middle of a reply", b.ask(["version"]) == VERSION)
        slow, before = s.client(), s.memory()
        ended = []

        def flood():
            with contextlib.suppress(OSError):
                while True:
                    slow.send(["query", top, {}])
            ended.append(time.time())
        started = time.time()
        thread = threading.Thread(target=flood)
        thread.start()
        longest = 0
        while time.time() < started + 5:
            asked = time.time()
            b.ask(["clock", top])
            longest = max(longest, time.time() - asked)
        check("one who never reads holds nobody up", longest < 1, longest)
        thread.join(30)
        check("and is cut off", ended and ended[0] - started < 20, ended)
        check("and costs no memory", s.memory() - before < 20000, s.memory() - before)


def roots_that_are_odd():
    with folder() as made:
        os.chmod(made, 0o755)
        before = []
        if os.getuid() == 0 and shutil.which("setpriv"):
            os.chown(made, NOBODY, NOBODY)
            before = AS_NOBODY
        s = Server(programs.watchmand, made, before=before)
        try:
            a = s.client()
            top = tree(made + "/T")
            a.ask(["watch", top])
            names(a, top)
            os.rename(top, top + "2")
            a.ask(["recrawl", top])
            check("a folder that went has no files", names(a, top, expression=["exists"])["files"] == [])
            os.rename(top + "2", top)
            a.ask(["recrawl", top])
            check("and has them again once it is back",
                  sorted(names(a, top, expression=["exists"])["files"]) == ["a", "d", "d/b"])
            a.ask(["watch", top + "/a"])
            check("a file as a root has none", names(a, top + "/a")["files"] == [])
            shut = tree(made + "/shut")
            os.chmod(shut, 0)
            if before:
                a.ask(["watch", shut])
                check("a folder that can't be read is refused", a.reply(["recrawl", shut])["error"] == "13 DeviceFailed")
                check("and isn't ready", a.reply(["clock", shut])["error"] == "6 NotReady")
            os.chmod(shut, 0o755)
            check("others go on", a.ask(["version"]) == VERSION)
        finally:
            s.end()


def triggers_that_are_odd():
    with watched(programs.watchmand) as (s, top, a, b):
        a.ask(["trigger", top, {"name": "none", "command": ["/no/such/program"]}])
        a.ask(["trigger", top, {"name": "slow", "command": ["sleep", "2"]}])
        time.sleep(0.3)
        asked = time.time()
        b.ask(["clock", top])
        b.ask(["recrawl", top])
        check("a slow trigger holds nobody up", time.time() - asked < 1.5, time.time() - asked)
        out = s.folder + "/OUT"
        a.ask(["trigger", top, {"name": "good", "command": ["sh", "-c", "echo > " + out]}])
        check("one that can't start keeps no other from its run", until(lambda: os.path.exists(out)))
        told = a.reply(["trigger", top, {"name": "deaf", "command": ["true"], "stdin": "NAME_PER_LINE"}])
        check("one that doesn't read its input", told["disposition"] == "created" and b.ask(["version"]) == VERSION)


def descriptors_run_out():
    with server(programs.watchmand, limits=(24, 24)) as s:
        clients = []
        for _ in range(28):
            clients.append(s.client(seconds=10))
            clients[-1].send(["version"])
        answered = 0
        for client in clients:
            client.socket.settimeout(0.3)
            with contextlib.suppress(OSError):
                answered += client.line() == VERSION
        check("some are answered, and some wait", 0 < answered < 28, answered)
        for client in clients[:answered]:
            client.close()
        late = clients[-1]
        late.socket.settimeout(10)
        late.lines = late.socket.makefile("rb")
        check("who waits is answered once there are descriptors", late.line() == VERSION)


def sockets_that_are_there():
    with folder() as made:
        s = Server(programs.watchmand, made)
        os.mkdir(made + "/other")
        other = Server(programs.watchmand, made + "/other", socket_name="../socket")
        check("a live socket is refused", other.wait() == REFUSED and other.ready == b"")
        a = s.client()
        a.ask(["watch", "/r"])
        s.end()
        check("a killed server leaves its socket", os.path.exists(s.path))
        s = Server(programs.watchmand, made)
        check("which the next one takes over", s.ready == b"ready\n" and s.client().reply(["watch-list"])["roots"] == ["/r"])
        check("SIGTERM ends it as a crash does", s.end(signal.SIGTERM) == -signal.SIGTERM)
        os.remove(s.path)
        with open(s.path, "w") as file:
            file.write("mine")
        s = Server(programs.watchmand, made)
        check("a plain file at SOCKET stays", s.wait() == REFUSED and open(s.path).read() == "mine")
        os.remove(s.path)
        os.mkdir(s.path)
        check("so does a folder", Server(programs.watchmand, made).wait() == REFUSED and os.path.isdir(s.path))
        os.rmdir(s.path)
        check("a path too long for a socket", Server(programs.watchmand, made, socket_name="s" * 120).wait() == REFUSED)
        check("a socket in no folder", Server(programs.watchmand, made, socket_name="no/socket").wait() == REFUSED)
        away = made + "/away"
        os.mkdir(away)
        s = Server(programs.watchmand, made, "--sessions", "1", socket_name="away/socket")
        a = s.client()
        shutil.rmtree(away)
        check("a socket's folder may go", a.ask(["version"]) == VERSION)
        a.close()
        check("and the server ends well", s.wait() == (0, b""))


def run(*words):
    return outcome(subprocess.run([programs.watchmand, *words], capture_output=True, stdin=subprocess.DEVNULL))


def words_and_ends():
    with folder() as made:
        s = Server(programs.watchmand, made, "--sessions", "2")
        a, b = s.client(), s.client()
        a.ask(["version"]), b.ask(["version"])
        a.close()
        time.sleep(0.2)
        check("it goes on until the last session ends", s.process.poll() is None and b.ask(["version"]) == VERSION)
        b.close()
        check("and ends well", s.wait() == (0, b"") and not os.path.exists(s.path))
        check("no state file", run("serve", made + "/none", made + "/s") == (1, b"", b"watchmand: 13 DeviceFailed\n"))
        open(made + "/empty", "w").close()
        check("an empty one", run("serve", made + "/empty", made + "/s") == (1, b"", b"watchmand: 14 Damaged\n")
              and not os.path.exists(made + "/s"))
        for words in ("", "serve", "serve a", "serve a b c", "serve a b --workers 0", "serve a b --workers 17",
                      "serve a b --gc-age x",
                      "serve a b --sessions 4294967296", "serve a b --sessions", "server a b"):
            status, out, err = run(*words.split())
            check(f"wrong words: {words}", status == 2 and out == b"" and err.startswith(b"error: "), (status, out, err))
        helped = run("serve", "--help")
        wanted = (b"<FILE> <SOCKET>", b"--workers <N>", b"--gc-age <S>", b"--gc-interval <S>", b"--sessions <N>")
        check("help", helped[0] == 0 and helped[2] == b"" and all(word in helped[1] for word in wanted), helped)
        check("the help has serve", b"\n  serve " in run("--help")[1])


def kills():
    with folder() as made:
        held, rng = [], random.Random(7)
        for turn in range(12):
            s = Server(programs.watchmand, made)
            a = s.client()
            told = a.reply(["watch-list"])["roots"]
            if told[:len(held)] != held:
                check("what was answered is kept after a kill", False, (told, held))
            held = told
            timer = threading.Timer(rng.random() * 0.1, s.process.kill)
            timer.start()
            with contextlib.suppress(OSError, ValueError):
                for n in range(15):
                    root = f"/r{turn}-{n}"
                    if "watch" in a.reply(["watch", root]):
                        held.append(root)
            s.process.kill()
            s.process.wait()
        check("what was answered is kept after each kill", True)


def crawls_under_load():
    with watched(programs.watchmand, **{f"file{n}": "" for n in range(100)}) as (s, top, a, _):
        told = []

        def ask():
            with s.client() as client:
                for _ in range(125):
                    told.append(client.reply(["recrawl", top]).get("clock"))
        longest, asked = 0, 0
        with at_once([ask] * 8) as threads:
            while any(thread.is_alive() for thread in threads):
                began = time.time()
                a.ask(["query", top, {"since": "c:1:1:1"}])
                longest, asked = max(longest, time.time() - began), asked + 1
        check("1,000 crawls by 8 sessions", len(told) == 1000 and all(told), told[:3])
        check("and questions beside them", asked > 0 and longest < 2, (asked, longest))


CASES = [sessions_and_rows, subscribers, many_sessions, lines_that_are_wrong, clients_that_do_not_read, roots_that_are_odd,
         triggers_that_are_odd, descriptors_run_out, sockets_that_are_there, words_and_ends, kills, crawls_under_load]
