"""Roots that move, folders and roots that nobody may read, a feed of one root, and one feed for many roots."""
import contextlib, os, shutil, signal, subprocess, threading, time

from feed_site import Changer, changed_much, crawled, is_running, site, tree, view, write
from server import AS_NOBODY, NOBODY, check, programs, until


def known(made, what):
    """The view is the content of the root's path: the goal is two seconds."""
    def wanted():
        try:
            return crawled(made.root)
        except FileNotFoundError:
            return {}

    began = time.perf_counter()
    until(lambda: made.view() == wanted(), 10)
    took = time.perf_counter() - began
    check(f"{what}: {took * 1000:.0f} ms", took < 10 and made.lives(), (made.feed.poll(), made.words_of_feed()))


def root_above_moves():
    """A folder above the root is renamed; the root is renamed, deleted and made anew."""
    with site(before=lambda root: tree(root, ["d", "e/f"], 3), root="above/root") as made:
        above = made.folder + "/above"
        os.rename(above, above + "2")
        known(made, "a folder above the root is renamed")
        os.rename(above + "2", above)
        known(made, "and renamed back")
        os.rename(above, above + "3")
        tree(made.root, ["new"], 2)
        known(made, "renamed, and the root made anew")
        busy = threading.Thread(target=lambda: [time.sleep(0.01) or open(above + f"3/root/d/{n}", "w").close()
                                                for n in range(200)])
        for one, other in (("", "4"), ("3", ""), ("", "3"), ("4", "")):
            os.rename(above + one, above + other)
        busy.start()
        known(made, "renamed there and back")
        os.rename(made.root, above + "/old")
        tree(made.root, ["newer"], 2)
        known(made, "the root is renamed and made anew")
        busy.join()
        shutil.rmtree(made.root)
        known(made, "the root is deleted")
        time.sleep(3)
        tree(made.root, ["late"], 2)
        known(made, "and made anew three seconds later")
        tree(made.root, ["late/later"], 2)
        made.equal("and what happens then")


def root_is_replaced():
    """The root is deleted while a program has it open, replaced by a link, and the link made to point elsewhere."""
    with site(before=lambda root: tree(root, ["d", "e/f"], 3)) as made:
        with contextlib.ExitStack() as kept:
            holder = kept.enter_context(subprocess.Popen(["sleep", "60"], cwd=made.root))
            kept.callback(holder.kill)
            shutil.rmtree(made.root)
            tree(made.root, ["new"], 2)
            known(made, "deleted while a program has it open, and made anew")
        shutil.rmtree(made.root)
        tree(made.folder + "/elsewhere", ["there"], 2)
        os.symlink(made.folder + "/elsewhere", made.root)
        known(made, "a link is in its place")
        tree(made.folder + "/third", ["third"], 2)
        os.unlink(made.root)
        os.symlink(made.folder + "/third", made.root)
        known(made, "the link points elsewhere")
        tree(made.root, ["third/more"], 2)
        made.equal("and what happens there")
        os.rename(made.folder + "/third", made.folder + "/fourth")
        tree(made.folder + "/third", ["of the same name"], 3)
        known(made, "where the link points to is made anew")


def as_nobody():
    """What runs a case as a user whom a folder's rights bind; None if there is no way."""
    if os.getuid() != 0:
        return {}
    if shutil.which("setpriv"):
        return {"user": AS_NOBODY, "owner": NOBODY}
    print("skip   setpriv isn't installed: root can read every folder", flush=True)
    return None


def closed_folders():
    """A folder that nobody may read stops neither the feed nor what lies beside it."""
    if (kept := as_nobody()) is None:
        return
    with site(before=lambda root: tree(root, ["a/secret/deep", "a/b", "c"], 3), **kept) as made:
        secret = made.root + "/a/secret"

        def beside(what):
            for folder in ("a", "a/b", "c"):
                write(f"{made.root}/{folder}/file {what}", what)
            os.unlink(f"{made.root}/c/file {what}")
            made.equal(f"beside one that {what}")
            made.goes_on(f"the feed goes on: {what}")

        os.chmod(secret, 0)
        beside("nobody may read")
        os.kill(made.watcher(), signal.SIGKILL)
        os.unlink(made.root + "/a/b/f0")
        beside("nobody may read, when inotifywait begins")
        time.sleep(1.5)
        beside("nobody may read, later")
        named = made.words_of_feed().count(f"wmfeed: {secret}: the folder can't be read\n")
        check("it is named once", named == 1, made.words_of_feed())
        os.chmod(secret, 0o755)
        write(secret + "/deep/new", "x")
        beside("may be read again")
        time.sleep(0.5)
        write(secret + "/deep/newer", "x")
        beside("may be read again, later")
        for number in range(12):
            os.chmod(secret, 0)
            time.sleep(0.02)
            os.chmod(secret, 0o755)
        beside("was closed twelve times")


def closed_from_the_start():
    """A folder that nobody may read when the server and the feed begin."""
    if (kept := as_nobody()) is None:
        return
    with site(fed=False, before=lambda root: tree(root, ["a/secret/deep", "a/b"], 3), **kept) as made:
        secret = made.root + "/a/secret"
        os.chmod(secret, 0)
        made.watch()
        made.start_feed()
        made.equal("what lies beside it", closed=["a/secret"])
        for folder in ("a", "a/b"):
            write(f"{made.root}/{folder}/new", "x")
        made.equal("and what happens there", closed=["a/secret"])
        check("it is named once", made.words_of_feed().count(f"{secret}: the folder can't be read\n") == 1, made.words_of_feed())
        os.chmod(secret, 0o755)
        made.equal("it may be read then")
        write(secret + "/deep/new", "x")
        made.equal("and what happens in it")
        made.goes_on()


def lines_of_server(made):
    """What the server has logged since the last look."""
    os.set_blocking(made.server.process.stderr.fileno(), False)
    return (made.server.process.stderr.read() or b"").decode().splitlines()


def closed_root():
    """A root that nobody may read is named once, and crawled ever more rarely, whether it was crawled before or never."""
    if (kept := as_nobody()) is None:
        return
    for what in ("never crawled", "crawled before"):
        with site(fed=False, before=lambda root: tree(root, ["a"], 3), **kept) as made:
            if what == "crawled before":
                made.watch()
                until(lambda: made.view() is not None)
            os.chmod(made.root, 0)
            made.watch()
            made.start_feed(of_root=False)
            line = f"wmfeed: {made.root}: 13 DeviceFailed\n"
            check(f"{what}: it is named", until(lambda: line in made.words_of_feed(), 10), made.words_of_feed())
            lines_of_server(made)
            time.sleep(12)
            lines = lines_of_server(made)
            check(f"{what}: it is crawled ever more rarely", len(lines) <= 6, lines)
            check(f"{what}: it is named once", made.words_of_feed().count(f"wmfeed: {made.root}: ") == 1, made.words_of_feed())
            os.chmod(made.root, 0o755)
            made.equal(f"{what}: it may be read then", 30)
            write(made.root + "/a/new", "x")
            made.equal(f"{what}: and what happens in it", 20)


def feed_of_a_root():
    """`wmfeed SOCKET ROOT` watches its root, and ends with the watch or the server."""
    with site(fed=False) as made:
        made.start_feed(of_root=True)
        made.await_feed()
        watchers = made.watchers()
        check("it watches the root", made.ask(["watch-list"])["roots"] == [made.root])
        made.ask(["watch-del", made.root])
        check("it ends with its watch, status 0", made.feed.wait(20) == 0)
        check("and says so", made.words_of_feed() == "wmfeed: the root isn't watched any longer\n", made.words_of_feed())
        check("and inotifywait with it", until(lambda: not any(map(is_running, watchers)), 5))
    with site(fed=False) as made:
        made.start_feed(of_root=True)
        made.await_feed()
        made.server.end()
        check("it ends with the server, status 3", made.feed.wait(20) == 3)
        check("and says that too", made.words_of_feed() == "wmfeed: the server ended\n", made.words_of_feed())
    with site(fed=False) as made:
        made.start_feed(of_root=True, env={"PATH": "/nowhere"})
        check("without inotifywait, status 1", made.feed.wait(20) == 1, made.words_of_feed())
    with site(fed=False) as made:
        os.rmdir(made.root)
        made.start_feed(of_root=True)
        check("a root that isn't there, status 1", made.feed.wait(20) == 1, made.words_of_feed())
        check("and the server isn't asked to watch it", made.client().reply(["watch-list"])["roots"] == [])
    ended = subprocess.run([programs.wmfeed, "/nowhere/socket", "/"], capture_output=True)
    check("a path of no root, status 2", ended.returncode == 2, ended)
    ended = subprocess.run([programs.wmfeed, "/nowhere/socket", "/tmp"], capture_output=True)
    check("a socket that nobody serves, status 3", ended.returncode == 3, ended)


def starts_again():
    """A feed that is killed and started again, and a server."""
    with site() as made:
        changer = Changer(made.root, programs.seed)
        for number in range(6):
            for _ in range(20):
                changer.change()
            made.end_feed()
            for _ in range(20):
                changer.change()
            made.start_feed()
            made.equal(f"a feed that was killed and started again {number}")
        made.server.end()
        if programs.of_root:
            made.feed.wait(20)
        for _ in range(20):
            changer.change()
        made.start_server()
        if programs.of_root:
            made.start_feed()
        made.equal("a server that was killed and started again")
        check("the root is listed once", made.ask(["watch-list"])["roots"] == [made.root])


def root_by_a_link():
    with site(fed=False) as made:
        os.symlink(made.root, made.folder + "/link")
        made.root = made.folder + "/link"
        made.watch()
        made.start_feed()
        made.await_feed()
        tree(made.root, ["d"], 2)
        made.equal("the root by a link")


@contextlib.contextmanager
def of_many(*names):
    """A server without a feed, and roots beside each other, watched and not yet fed."""
    with site(fed=False) as made:
        roots = [f"{made.folder}/{name}" for name in names]
        for root in roots:
            tree(root, ["d/e"], 2)
            made.watch(root)
        yield made, roots


def roots_of_one_feed():
    """One feed: roots that were watched before it, that are watched later, unwatched, and watched again."""
    with of_many("one", "two") as (made, roots):
        made.start_feed(of_root=False)
        for root in roots:
            made.await_feed(root)
            tree(root, ["new/folder"], 3)
            made.equal("one that was watched before", root=root)
        third = made.folder + "/three"
        tree(third, ["d/e"], 2)
        began = time.perf_counter()
        made.watch(third)
        write(third + "/d/e/at once")
        until(lambda: [write(third + "/mark", "x", "a"), time.sleep(0.05)] and made.view(third) == crawled(third), 10)
        check(f"a new one is taken up: {(time.perf_counter() - began) * 1000:.0f} ms", made.view(third) == crawled(third))
        tree(third, ["later/on"], 3)
        made.equal("and what happens there", root=third)
        made.ask(["watch-del", roots[0]])
        check("one is unwatched", until(lambda: not any(roots[0] in line for line in commands(made)), 10), commands(made))
        tree(roots[0], ["nobody/asks"], 2)
        made.equal("the others go on", root=roots[1])
        made.watch(roots[0])
        made.await_feed(roots[0])
        tree(roots[0], ["again"], 2)
        made.equal("and it is watched again", root=roots[0])
        check("nothing is said", made.lives() and made.words_of_feed() == "", made.words_of_feed())


def commands(made):
    """The words with which the inotifywaits of a feed were started."""
    found = []
    for process in made.watchers():
        with contextlib.suppress(OSError), open(f"/proc/{process}/cmdline") as text:
            found.append(text.read().replace("\0", " "))
    return found


def forty_roots():
    with of_many(*(f"root{n}" for n in range(40))) as (made, roots):
        made.start_feed(of_root=False)
        for root in roots:
            made.await_feed(root)
        clients = [made.client() for _ in range(30)]
        told = [client.reply(["clock", roots[0]]) for client in clients]
        check("it has one session: 30 other clients are served", all("clock" in it for it in told), told)
        for client in clients[1:]:
            client.close()
        for n, root in enumerate(roots):
            tree(root, [f"new/{n}"], 3)
            os.rename(root + "/d", root + "/moved")
        wrong = [root for root in roots if not until(lambda: view(clients[0], root) == crawled(root), 10)]
        check("a change in each", not wrong, wrong)
        check("the feed goes on", made.lives() and made.words_of_feed() == "", made.words_of_feed())


def server_killed_and_back():
    """One feed waits for a server that ended, and for one that isn't there yet."""
    with of_many("one", "two") as (made, roots):
        made.start_feed(of_root=False)
        for root in roots:
            made.await_feed(root)
        for number in range(3):
            made.server.end()
            for root in roots:
                changed_much(root, programs.seed + number)
            time.sleep(0.5 * number)
            made.start_server()
            for root in roots:
                made.equal(f"back {number}", root=root)
                tree(root, [f"after{number}/it"], 2)
                made.equal(f"and what happens then {number}", root=root)
        made.goes_on()


def feed_before_the_server():
    with of_many("one", "two") as (made, roots):
        made.server.end()
        os.unlink(made.path)
        made.start_feed(of_root=False)
        time.sleep(1.5)
        check("it waits", made.lives(), made.words_of_feed())
        made.start_server()
        for root in roots:
            made.await_feed(root)
            tree(root, ["new"], 2)
            made.equal("and feeds then", root=root)


def no_place_for_a_session():
    """One feed waits for a place, if 31 sessions are there."""
    with of_many("one") as (made, roots):
        time.sleep(0.2)
        held = [made.client() for _ in range(31)]
        check("31 are there", all("version" in client.reply(["version"]) for client in held))
        made.start_feed(of_root=False)
        time.sleep(2.5)
        check("the feed waits", made.lives(), made.words_of_feed())
        check("it says so no more than once", made.words_of_feed().count("17 TooMany") <= 1, made.words_of_feed())
        for client in held:
            client.close()
        made.await_feed(roots[0])
        tree(roots[0], ["new"], 2)
        made.equal("and feeds then", root=roots[0])


def one_root_of_many_moves():
    """A root that is deleted, or was never there, holds nobody up."""
    with of_many("one", "two") as (made, roots):
        shutil.rmtree(roots[0])
        made.start_feed(of_root=False)
        made.await_feed(roots[1])
        tree(roots[1], ["new"], 2)
        made.equal("beside a root that isn't there", root=roots[1])
        tree(roots[0], ["there"], 2)
        made.equal("which is made then", root=roots[0])
        os.rename(roots[0], roots[0] + "2")
        tree(roots[1], ["newer"], 2)
        made.equal("beside one that is renamed", root=roots[1])
        check("whose view is empty then", until(lambda: made.view(roots[0]) == {}, 10), made.view(roots[0]))
        made.goes_on()


CASES = [root_above_moves, root_is_replaced, closed_folders, closed_from_the_start, closed_root, feed_of_a_root, starts_again,
         root_by_a_link, roots_of_one_feed, forty_roots, server_killed_and_back, feed_before_the_server, no_place_for_a_session,
         one_root_of_many_moves]
