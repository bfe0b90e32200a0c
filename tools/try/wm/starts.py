"""What `wm up` and `wm down` do with servers, feeds, sockets and state folders of all kinds."""
import contextlib, os, subprocess, threading

from home import ENDED, NOT_ENDED, home, listening
from server import TOO_MANY, Server, check, new_state, programs


def programs_that_are_missing():
    """Programs that are neither beside wm nor on the PATH, and a system without inotifywait."""
    with home() as h:
        alone = "env PATH=/usr/bin:/bin XDG_STATE_HOME=FOLDER/alone/state WATCHMAND_SOCKET=FOLDER/alone/socket FOLDER/alone/wm"
        install = "can't be started: install it beside wm, or on the PATH"
        h.run("mkdir FOLDER/alone; cp FOLDER/bin/wm FOLDER/alone")
        h.says(f"{alone} up", f"wm: watchmand: {install}", 1)
        h.run("cp FOLDER/bin/watchmand FOLDER/alone")
        h.says(f"{alone} up", f"a server was started at FOLDER/alone/socket\nwm: wmfeed: {install}", 1)
        h.says(f"{alone} status", "server: FOLDER/alone/socket\nno feed runs: 'wm up' starts one")
        h.says(f"{alone} down", NOT_ENDED)
        h.run("mkdir -p FOLDER/tools FOLDER/bare/empty; for it in setsid kill true; do ln -s $(type -P $it) FOLDER/tools; done")
        where = "PATH=FOLDER/tools XDG_STATE_HOME=FOLDER/bare/state WATCHMAND_SOCKET=FOLDER/bare/socket"
        bare, empty = f"env {where} FOLDER/bin/wm", "FOLDER/bare/empty"
        printed, status = h.run(f"{bare} up")
        check("without inotifywait no feed is started", "install inotify-tools" in printed and status, (printed, status))
        starts = "install inotify-tools, and 'wm up' starts"
        h.says(f"{bare} status", f"server: FOLDER/bare/socket\nno feed runs: {starts} one")
        h.says(f"{bare} watch {empty}", empty)
        h.says(f"{bare} files {empty}", f"wm: {empty}: no feed runs, so it is crawled for this question; {starts} a feed")
        runner = h.begin(f"exec {bare} run {empty} -- true 2> FOLDER/said", stdout=subprocess.DEVNULL)
        h.has("changes aren't seen", "said")
        runner.terminate()
        runner.wait()
        h.says("tail -1 FOLDER/said", f"wm: {empty}: no feed runs, so changes aren't seen; {starts} one")
        h.says(f"{bare} down", NOT_ENDED)


def state_folders_and_sockets():
    with home() as h:
        # a file that is no state file stays
        h.run("mkdir -p FOLDER/none/state/watchmand; cp /etc/passwd FOLDER/none/state/watchmand/state")
        none = "FOLDER/none/state/watchmand"
        h.says("XDG_STATE_HOME=FOLDER/none/state wm up --socket FOLDER/none/socket",
               f"wm: {none}/state: this is no state file of "
               f"watchmand: move it away, and 'wm up' makes a new one; {none}/log has all that it said", 1)
        h.says(f"cmp /etc/passwd {none}/state")
        # a server that takes its time to start is awaited
        late = "env XDG_STATE_HOME=FOLDER/late/state WATCHMAND_SOCKET=FOLDER/late/socket FOLDER/late/wm"
        h.run("mkdir FOLDER/late; cp FOLDER/bin/wm FOLDER/bin/wmfeed FOLDER/late")
        h.write("late/watchmand", f'#!/bin/sh\nif [ "$1" = serve ]; then sleep 7; fi\nexec {h.folder}/bin/watchmand "$@"\n')
        h.says(f"{late} up", "a server was started at FOLDER/late/socket\na feed was started")
        h.says(f"{late} down", ENDED)
        h.says("wm list", "wm: SOCKET: no server answers (no such file); 'wm up' starts one", 3)
        h.up()
        h.says("wm up", "a server answers at SOCKET")
        long, another = f"FOLDER/other/{0:0100}", "--socket or WATCHMAND_SOCKET names another"
        h.says(f"wm list --socket {long}", f"wm: {long}: the path is too long: at most 107 bytes; {another} socket", 3)
        h.says("wm up --socket FOLDER/work", f"wm: FOLDER/work: is no socket; {another} path", 1)
        h.says("wm list")


def state_folder_of_another_server():
    """The files of a state folder are those of one server: at another socket they aren't written, and its processes go on."""
    with home(up=True) as h:
        def claimed(program):
            return (f"wm: FOLDER/home/state/watchmand: its files are those of the server at SOCKET ({program} has pid "
                    f"{h.pid(program)}); 'wm down --socket SOCKET' ends it, and another XDG_STATE_HOME has files of its own")

        def pids():
            return h.pid("watchmand"), h.pid("wmfeed")

        place = h.folder + "/second/state/watchmand"
        os.makedirs(place)
        new_state(programs.watchmand, place + "/state")
        with Server(programs.watchmand, place, socket_name="../../socket") as second:
            at, answers, first = "--socket FOLDER/second/socket", "a server answers at FOLDER/second/socket\n", pids()
            h.says("wm up --socket FOLDER/other/socket", claimed("watchmand"), 1)
            h.says(f"wm up {at}", answers + claimed("watchmand"), 1)
            h.says(f"wm down {at}", claimed("watchmand"), 1)
            check("the pids stay", pids() == first, (pids(), first))
            h.kill("watchmand", is_awaited=True)
            h.says(f"wm up {at}", answers + claimed("wmfeed"), 1)
            h.says("wm up", "a server was started at SOCKET")
            first, theirs = pids(), "XDG_STATE_HOME=FOLDER/second/state"
            has_it = f"another watchmand has it (pid {second.process.pid})"
            h.says(f"{theirs} wm up --socket FOLDER/second/other 2>&1 | grep -o 'another watchmand has it (pid [0-9]*)'", has_it)
        h.says(f"{theirs} wm up {at}", "a server was started at FOLDER/second/socket\na feed was started")
        check("the pids stay then", pids() == first, (pids(), first))
        h.says(f"{theirs} wm down {at}", ENDED)
        h.says("wm list")


def servers_that_end():
    """A server that ends still takes connections for a while: wm doesn't take it for one that is there."""
    with home(up=True) as h:
        for _ in range(3):
            h.kill("watchmand")
            h.says("wm up", "a server was started at SOCKET")
            h.says("wm list")
        for _ in range(3):
            h.says("wm down", ENDED)
            h.up()
            h.says("wm list")
        ended = "XDG_STATE_HOME=FOLDER/ended"
        with contextlib.ExitStack() as ending:
            ending.enter_context(listening(h.folder + "/ending", lambda session: session.close()))
            threading.Timer(3, ending.pop_all().close).start()
        h.says(f"{ended} wm up --socket FOLDER/ending", "a server was started at FOLDER/ending\na feed was started")
        h.says(f"{ended} wm down --socket FOLDER/ending", ENDED)


def server_without_a_place():
    """A server that answers its first session, and refuses each further one."""
    replies = [b'{"roots":["/tmp"],"version":"w1"}\n']

    def serve(session):
        if replies:
            session.makefile().readline()
        session.sendall(replies.pop() if replies else TOO_MANY)
        session.close()

    with home() as h, listening(h.folder + "/full", serve):
        taken = ("all of the server's 31 sessions are taken (17 TooMany); try later, or end what holds them, "
                 "as 'wm run' and feeds do")
        h.says("wm status --socket FOLDER/full",
               f"server: FOLDER/full\nno feed runs: 'wm up' starts one\n/tmp: not known: {taken}")
        h.says("wm list --socket FOLDER/full", f"wm: FOLDER/full: {taken}", 1)


CASES = [programs_that_are_missing, state_folders_and_sockets, state_folder_of_another_server, servers_that_end,
         server_without_a_place]
