"""The messages of the built programs at common mistakes, byte for byte.

Each case runs without a terminal, with WATCHMAND_EXPLAIN=1, and (some) with a terminal as standard error. The first has to print
the plain text only, and the others that text and then the further line. Only messages that differ are printed."""
import contextlib, os, pty, select, signal, subprocess

import message_cases as text
from message_cases import WITHOUT_RIGHTS, Place, ctl, refusal
from server import AS_NOBODY, NOBODY, VERSION, Client, check, programs


@contextlib.contextmanager
def place():
    made = Place()
    try:
        yield made
    finally:
        made.close()
    check(f"{made.count} messages", not made.wrong, made.wrong)


def files_sockets_and_requests():
    with place() as made:
        for words, refused, further, no_rights in text.of_files(made):
            made.explains([programs.watchmand, *words], 1, "", f"watchmand: {refused}\n", further, no_rights)
        for path, further, no_rights in text.of_sockets():
            made.explains(ctl('["watch-list"]', at=path), 3, "", "wmctl: no reply\n", further, no_rights)
        for request, refused, further in text.of_requests(made.path("root")):
            made.explains(ctl(request), 1, refusal(refused), "", further)
        usage(made)
        swapped(made)
        on_terminals(made)


def usage(made):
    for words in (["watch", "/proj"], ["--follow", "1"]):
        status, output, errors = made.run(ctl(*words), False)
        made.same(f"sock {words} (usage)", (status, output), (2, ""))
        made.same(f"sock {words} (explained)", made.run(ctl(*words), True), (2, "", errors + text.NO_REQUEST))
    misspelt = ctl('["watch-list"]', "--folow", "1")
    made.same("--folow (explained)", made.run(misspelt, True), made.run(misspelt, False))
    numbers = ("error: N and S are whole numbers from 0 to 4294967295, and the workers are 1 to 16\n\n"
               "For more information, try '--help'.\n")
    for words in (["--workers", "-1"], ["--gc-age", "-3600"], ["--gc-interval", "-0"], ["--sessions", "-1"], ["--workers", "17"],
                  ["--sessions=-1"]):
        made.explains([programs.watchmand, "serve", "free", "s2", *words], 2, "", numbers, "")
    made.same("serv (explained)", made.run([programs.watchmand, "serv"], True), made.run([programs.watchmand, "serv"], False))


def swapped(made):
    """A request in place of the socket, and a negative number after an option."""
    for request in ('["watch-list"]', '{"a":1}'):
        made.explains(ctl("sock", at=request), 3, "", "wmctl: no reply\n", text.SOCKET_FIRST)
        alone = [programs.wmctl, request]
        said = made.run(alone, False)
        made.same(f"{request} alone", said[:2], (2, ""))
        made.same(f"{request} alone (explained)", made.run(alone, True), (2, "", f"{said[2]}{text.SOCKET_FIRST}\n"))
    for option, name in (("--follow", "N"), ("--sync-timeout", "MS")):
        words = ctl('["watch-list"]', option, "-1")
        said = made.run(words, False)
        made.same(f"{option} -1", (said[:2], "tip: to pass '-1'" in said[2]), ((2, ""), True))
        negative = f"error: {name} isn't a whole number from 0 to 4294967295\n\nFor more information, try '--help'.\n"
        made.same(f"{option} -1 (explained)", made.run(words, True), (2, "", negative))
    for words in (["--help", "--follow", "-1"], ["sock", '["version"]', "--", "--follow"]):
        words = [programs.wmctl, *words]
        made.same(f"{words[1:]} (explained)", made.run(words, True), made.run(words, False))


def run_on_terminal(made, words):
    """The errors of a program whose standard error is a terminal."""
    ours, theirs = pty.openpty()
    made.begin(words, False, stdout=subprocess.DEVNULL, stderr=theirs).wait(timeout=60)
    os.close(theirs)
    shown = b""
    with contextlib.suppress(OSError):
        while part := os.read(ours, 4096):
            shown += part
    os.close(ours)
    return shown.decode().replace("\r\n", "\n")


def on_terminals(made):
    nofile = "watchmand: 13 DeviceFailed\nnofile: no such file; 'watchmand format nofile' makes it\n"
    made.same("lines nofile (terminal)", run_on_terminal(made, [programs.watchmand, "lines", "nofile"]), nofile)
    nosock = "no server answers at nosock (no such file): 'wm up' starts one, or 'watchmand serve STATE nosock'\n"
    made.same("nosock (terminal)", run_on_terminal(made, ctl("[]", at="nosock")), f"wmctl: no reply\n{nosock}")
    made.same("wach (terminal)", run_on_terminal(made, ctl('["wach"]')), f"'wach' {text.NO_COMMAND}\n")


def roots_and_programs():
    """The further lines of requests that succeed: about a root's path, an expression, and a trigger's program."""
    with place() as made:
        roots(made)
        expressions(made)
        trigger_programs(made)


def roots(made):
    file = "this is a file and no folder, so the root has no files" + text.WATCH_STAYS
    link = "a symbolic link leads to %s; the two paths are two roots, and 'wm watch' takes the latter"
    os.mkdir(made.path("root/sub"))
    for name, further, is_lasting in (
        ("nothere", text.NO_FOLDER, True),
        ("plain", file, True),
        ("plain/sub", text.NO_FOLDER, True),
        ("fifo", file, True),
        ("root", "", True),
        ("link", link % made.path("root"), False),
        ("link/sub", link % made.path("root/sub"), False),
    ):
        root = made.path(name)
        further = f"{root}: {further}" if further else ""
        made.explains(ctl('["watch","%s"]' % root), 0, '{"version":"w1","watch":"%s"}\n' % root, "", further)
        made.done(ctl('["recrawl","%s"]' % root))
        for request in ('["query","%s",{"fields":["name"]}]', '["since","%s","c:1:1:1"]', '["recrawl","%s"]',
                        '["subscribe","%s","n",{}]',
                        '["clock","%s"]'):
            made.succeeds(ctl(request % root), f"{further}\n" if further and is_lasting else "")


def expressions(made):
    asked = '["query","%s",{"fields":["name"],"expression":%%s}]' % made.path("root")
    for expression, further in (
        ('["match","*.{c,md}"]', f"'*.{{c,md}}' {text.BRACES}\n"),
        ('["allof","exists",["not",["match","a{1}","wholename"]]]', f"'a{{1}}' {text.BRACES}\n"),
        ('["anyof",["match","*.c"],["match","*.md"]]', ""),
        ('["name","a{1}"]', ""),
    ):
        made.succeeds(ctl(asked % expression), further, expression)


def trigger_programs(made):
    root, no_program = made.path("root"), "is no file that is marked as a program (chmod +x)"
    for program, path, further in (
        ("true", None, ""),
        ("/bin/sh", None, ""),
        ("nosuch", None, f"'nosuch' {text.OFF_PATH}\n"),
        ("a\\u001bb", None, f"'a\\x1bb' {text.OFF_PATH}\n"),
        ("true", "/nowhere:/usr/nowhere", f"'true' {text.OFF_PATH}\n"),
        ("./nosuch", None, f"'{root}/./nosuch' isn't there: {text.NO_RUN}\n"),
        ("/nowhere/make", None, f"'/nowhere/make' isn't there: {text.NO_RUN}\n"),
        ("../plain", None, f"'{root}/../plain' {no_program}: {text.NO_RUN}\n"),
        ("./sub", None, f"'{root}/./sub' {no_program}: {text.NO_RUN}\n"),
    ):
        defined = ctl('["trigger","%s",{"name":"t","command":["%s","-"]}]' % (root, program))
        if path:
            defined = ["env", f"PATH={path}", *defined]
        for explain, errors in ((False, ""), (True, further)):
            status, output, said = made.run(defined, explain)
            made.same(f"a trigger of {program}, {explain}", (status, '"triggerid":"t"' in output, said), (0, True, errors))
            deleted = made.run(ctl('["trigger-del","%s","t"]' % root), True)
            made.same(f"trigger-del of {program}", (deleted[0], deleted[2]), (0, ""))


@contextlib.contextmanager
def full(made):
    """The server has no place for a session, since 31 are held."""
    held = [Client(made.path("sock")) for _ in range(31)]
    assert all(client.ask(["version"]) == VERSION for client in held)
    for request, further in (('["watch-list"]', text.NO_SESSION), ('["recrawl","/x"]', text.NO_SESSION),
                             ('["watch","/x"]', text.BY_WATCH)):
        made.explains(ctl(request), 1, refusal("17 TooMany"), "", further)
    yield
    for client in held:
        client.close()


def unread(made):
    """Folders that can't be read below a root that was crawled when they could be: three of them are named."""
    root = made.path("theirs/late")
    folders = [f"{root}/{name}" for name in "abcde"]
    for folder in (root, *folders):
        os.mkdir(folder)
        if WITHOUT_RIGHTS:
            os.chown(folder, NOBODY, NOBODY)
    for request in ('["watch","%s"]', '["recrawl","%s"]'):
        made.done(ctl(request % root, at="theirs/sock"), **WITHOUT_RIGHTS)
    asked = ctl('["query","%s",{"expression":["type","d"],"fields":["name"]}]' % root, at="theirs/sock")
    reply = made.run(asked, False, True)
    made.same("query of readable folders", (reply[0], reply[2], made.run(asked, True, True)), (0, "", reply))
    for count in (1, 5):
        for folder in folders[:count]:
            os.chmod(folder, 0o000)
        named = "".join(f"{folder}: {text.UNREAD}\n" for folder in folders[: min(count, 3)])
        further = named + (f"{root}: and 2 more folders below it can't be read\n" if count == 5 else "")
        for request in ('["query","%s",{"fields":["name"]}]', '["since","%s","c:1:1:1"]', '["watch","%s"]'):
            made.succeeds(ctl(request % root, at="theirs/sock"), further, f"{request} with {count} unreadable", True)
        if WITHOUT_RIGHTS:
            made.same("a query by another user", made.run(asked, True), made.run(asked, False))
    recrawl = ctl('["recrawl","%s"]' % root, at="theirs/sock")
    for before, state in (([], "~/.local/state"), (["env", "XDG_STATE_HOME="], "~/.local/state"),
                          (["env", "XDG_STATE_HOME=/x/state"], "/x/state")):
        lines = f"{text.NO_READING}\n{text.LOG % state}\n{further}"
        seen = made.run([*before, *recrawl], True, True)
        made.same(f"recrawl with 5 unreadable, log in {state}", seen, (1, refusal("13 DeviceFailed"), lines))
    for folder in folders:
        os.chmod(folder, 0o755)


def servers_that_refuse():
    """Refusals by the state of a server: a root that can't be read, or in which a folder can't be read; no session; no feed."""
    with place() as made:
        dark, over = made.path("theirs/dark"), made.path("theirs")
        unreadable = f"{dark}: this folder can't be read: give the server's user the right to it, or watch a folder below"
        for root, unready, reason in ((dark, unreadable, unreadable), (over, text.NO_CRAWL, text.NO_READING)):
            named = "" if root == dark else f"{dark}: {text.UNREAD}"
            made.explains(ctl('["watch","%s"]' % root, at="theirs/sock"), 0, '{"version":"w1","watch":"%s"}\n' % root, "",
                          named or unreadable, True)
            reason = f"{reason}\n{text.LOG % '~/.local/state'}\n{named}" if named else reason
            for request, refused, further in (("clock", "6 NotReady", unready), ("recrawl", "13 DeviceFailed", reason)):
                made.explains(ctl('["%s","%s"]' % (request, root), at="theirs/sock"), 1, refusal(refused), "", further, True)
        unread(made)
        with full(made):
            pass
        no_feed = ("no feed answered in time: 'wm up' or 'wmfeed sock' starts one, and --sync-timeout gives it more time; "
                   "without one send [\"recrawl\",ROOT], and then ask")
        synced = ctl('["watch-list"]', "--sync-timeout", "50", "--sync")
        made.explains([*synced, made.path("root")], 3, "", "wmctl: no feed\n", no_feed)
        made.explains([*synced, "/not/watched"], 1, refusal("5 NotWatched"), "", text.NO_WATCH)
        made.explains([*synced, "proj"], 1, refusal("4 BadPath"), "", f"'proj' {text.NO_ROOT}")


def run_while_waiting(made, words, explain, awaited):
    """Whether a program that goes on waiting has ended, its output and its errors, once so many bytes have come and then none for
    a second."""
    child = made.begin(words, explain)
    texts = {child.stdout: b"", child.stderr: b""}
    streams = list(texts)
    while streams:
        has_come = sum(len(it) for it in texts.values()) >= awaited
        ready, _, _ = select.select(streams, [], [], 1 if has_come else 20)
        if not ready:
            break
        for stream in ready:
            part = os.read(stream.fileno(), 4096)
            texts[stream] += part
            if not part:
                streams.remove(stream)
    has_ended = child.poll() is not None
    child.kill()
    child.wait()
    return has_ended, texts[child.stdout].decode(), texts[child.stderr].decode()


def waits():
    """Lines that are awaited and don't come: the further line comes after the reply, before the wait. A server that was stopped:
    after some seconds one line says that its answer is waited for, and the answer is printed when it comes."""
    with place() as made:
        root, nothere = made.path("root"), made.path("nothere")
        made.done(ctl('["watch","%s"]' % nothere))
        made.done(ctl('["recrawl","%s"]' % nothere))
        subscribed, no_folder = '["subscribe","%s","n",{"fields":["name"]}]', f"{nothere}: {text.NO_FOLDER}\n"
        for request, further in (('["version"]', text.NO_FURTHER_LINES), (subscribed % root, ""),
                                 (subscribed % nothere, no_folder),
                                 ('["clock","%s"]' % nothere, no_folder + text.NO_FURTHER_LINES)):
            words = ctl(request, "--follow", "2")
            plain = run_while_waiting(made, words, False, 1)
            made.same(f"{request} --follow", (plain[0], plain[2]), (False, ""))
            awaited = len(plain[1]) + len(further)
            made.same(f"{request} --follow (explained)", run_while_waiting(made, words, True, awaited),
                      (False, plain[1], further))
        made.explains(ctl('["wach"]', "--follow", "1"), 1, refusal("2 BadCommand"), "", f"'wach' {text.NO_COMMAND}")
        made.server.process.send_signal(signal.SIGSTOP)
        child = made.begin(ctl('["version"]'), True)
        ready, _, _ = select.select([child.stdout, child.stderr], [], [], 20)
        said = os.read(child.stderr.fileno(), 4096) if child.stderr in ready else b""
        made.server.process.send_signal(signal.SIGCONT)
        output, errors = child.communicate(timeout=60)
        made.same("a stopped server", (said.decode(), errors, output, child.returncode), (text.WAITS, b"", VERSION, 0))


def feeds():
    with place() as made:
        root = made.path("root")
        for path, further, no_rights in text.of_sockets():
            made.explains([programs.wmfeed, path, root], 3, "", "wmfeed: no server answers\n", further, no_rights)
        for path, further, _ in list(text.of_sockets())[:2]:
            waiting_feed(made, [programs.wmfeed, path], f"wmfeed: {path}: no server answers\n", f"{further}\n")
        with full(made):
            made.explains([programs.wmfeed, "sock", root], 1, "", "wmfeed: 17 TooMany\n", f"{text.NO_SESSION}\n{text.OR_ROOTS}")
            again = f"{text.NO_SESSION}\nwmfeed tries again five times a second\n"
            waiting_feed(made, [programs.wmfeed, "sock"], "wmfeed: sock: 17 TooMany\n", again)
        unfed_roots(made)
        for name in ("root", ".", "./root", made.path("root/")):
            no_root = "wmfeed: ROOT is no root's path (4 BadPath)\n"
            made.explains([programs.wmfeed, "sock", name], 2, "", no_root, f"'{name}' {text.NO_ROOT}")
        misspelt = [programs.wmfeed, "sock", "--folow"]
        made.explains(misspelt, 2, "", made.run(misspelt, False)[2], "")


def waiting_feed(made, words, said, further):
    """A feed that goes on: the further line comes after the plain one, and each is printed once."""
    for explain, wanted in ((False, said), (True, said + further)):
        made.same(" ".join(words) + f" {explain}", run_while_waiting(made, words, explain, len(wanted)), (False, "", wanted))


def unfed_roots(made):
    """A root that can't be fed, and a system without inotifywait."""
    for name, said in (("nothere", "nothing is there: make the folder, and start wmfeed again"),
                       ("plain", "this is no folder: wmfeed takes SOCKET first, and then the folder ROOT")):
        root = made.path(name)
        made.explains([programs.wmfeed, "sock", root], 1, "", "wmfeed: no folder is at ROOT\n", f"{root}: {said}")
    bare = ["env", "PATH=/nowhere", programs.wmfeed, "sock"]
    for words in (bare, [*bare, made.path("root")]):
        missing = "inotifywait couldn't be started: install inotify-tools, or put it on the PATH"
        made.explains(words, 1, "", "wmfeed: inotifywait couldn't be started\n", missing)
    dark = made.path("theirs/dark")
    words = [*(AS_NOBODY if WITHOUT_RIGHTS else []), programs.wmfeed, "theirs/sock", dark]
    waiting_feed(made, words, f"wmfeed: {dark}: 13 DeviceFailed\n", f"{dark}: the folder can't be read; it is tried again\n")


def expressions_of_wm():
    """A refused expression of `wm`: the further line is printed after its own, in place of the terms that there are."""
    with place() as made:
        words = [programs.wm, "files", "root", "--no-sync", "--expr", '["sufix","c"]', "--socket", made.path("sock")]
        status, output, errors = made.run(words, False)
        made.same("wm files --expr", (status, output, "8 BadExpression" in errors), (1, "", True))
        made.same("wm files --expr, terms", errors.count("allof anyof not"), 1)
        status, output, explained = made.run(words, True)
        first, _, further = explained.partition("\n")
        refused = f"wm: {made.path('root')}: the server refused: 8 BadExpression"
        made.same("wm files --expr (explained)", (status, output, first), (1, "", refused))
        made.same("wm files --expr, cause", further, f'["sufix","c"] {text.NO_TERM}\n')


CASES = [files_sockets_and_requests, roots_and_programs, servers_that_refuse, waits, feeds, expressions_of_wm]
