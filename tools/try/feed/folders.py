"""What programs do to many files and folders at once: tar, cp, rsync, git, installers, renamed folders, and random changes."""
import contextlib, functools, os, random, shutil, signal, subprocess, time

from feed_site import Changer, later, site, tree, write
from server import at_once, check, programs, until


def made_again(made, make):
    """A tree is removed and made again with the times it had, round by round; what then happens in each folder is reported."""
    for number in range(4):
        for _ in range(6):
            shutil.rmtree(made.root + "/t")
            make(made.folder + "/kept", made.root)
        made.equal("removed and made again six times")
        later(made.root)
        made.equal("and what happens in each folder later")
    made.goes_on()


def case_of(name, program, make):
    """A case of a program that makes a copy of KEPT/t in the root."""
    def case():
        if not shutil.which(program):
            return print(f"skip   {program} isn't installed")
        with site(before=lambda root: tree(root + "/t", [f"{n}/a/b" for n in range(40)], 2)) as made:
            subprocess.run(["cp", "-a", made.root, made.folder + "/kept"], check=True)
            subprocess.run(["tar", "-C", made.root, "-cf", made.folder + "/kept.tar", "t"], check=True)
            make(made.folder + "/kept", made.root)
            made_again(made, make)
    case.__name__ = name
    return case


def run(*command):
    subprocess.run(command, check=True)


tar_again = case_of("tar_again", "tar", lambda kept, root: run("tar", "-C", root, "-xf", kept + ".tar"))
cp_again = case_of("cp_again", "cp", lambda kept, root: run("cp", "-a", kept + "/t", root))
rsync_again = case_of("rsync_again", "rsync", lambda kept, root: run("rsync", "-a", kept + "/t", root))


def made_anew():
    """A folder that is removed and made again with the times it had, while inotifywait reads it: it has to be watched."""
    if not shutil.which("strace"):
        return print("skip   strace isn't installed: no folder is made anew while inotifywait reads it", flush=True)

    def folders(root):
        os.makedirs(root + "/t")
        time.sleep(0.02)
        os.makedirs(root + "/t/1/2")
        for path in ("/t/1/2", "/t/1", "/t"):
            os.utime(root + path, (10**9, 10**9))

    with site(before=folders) as made:
        watcher = made.watcher()
        slow = subprocess.Popen(["strace", "-q", "-o", "/dev/null", "-e", "inject=inotify_add_watch:delay_enter=30ms", "-p",
                                 str(watcher)])
        until(lambda: f"TracerPid:\t{slow.pid}" in open(f"/proc/{watcher}/status").read())
        os.kill(made.feed.pid, signal.SIGSTOP)
        shutil.rmtree(made.root + "/t")
        folders(made.root)
        time.sleep(0.5)
        os.kill(made.feed.pid, signal.SIGCONT)
        slow.terminate()
        slow.wait()
        made.equal("a folder that is made anew with the times it had")
        time.sleep(1)
        write(made.root + "/t/1/2/later", "x")
        made.equal("and what happens in it later")


def git(root, *command):
    done = subprocess.run(["git", "-c", "user.name=a", "-c", "user.email=a@b", "-c", "gc.auto=0", "-c", "core.fsync=none", "-c",
                           "init.defaultBranch=one", *command], cwd=root, capture_output=True)
    assert done.returncode == 0, done


def files_of_branch(branch, count):
    """The files of a branch: their paths and texts."""
    shuffled = random.Random(branch)
    return {f"src/{shuffled.choice(branch)}{n % 100}/{n % 7}/file{n}": f"{branch} {n}\n" * (n % 5) for n in range(count)}


def commit(branch, files, before=""):
    """A commit as `git fast-import` reads it."""
    told = f"commit refs/heads/{branch}\ncommitter a <a@b> 0 +0000\ndata 1\nc\n{before}"
    return told + "".join(f"M 100644 inline {path}\ndata {len(text)}\n{text}\n" for path, text in files.items()) + "\n"


def repository(count):
    """Two branches that have nothing in common, and one that has one commit more than where the first was."""
    side = {f"side/{folder}/f{n}": f"{n}" for folder in ("a", "b/c") for n in range(20)}
    stream = (commit("one", files_of_branch("one", count)) + commit("two", files_of_branch("two", count))
              + "reset refs/heads/side\nfrom refs/heads/one\n\n" + commit("side", side) + commit("one", {"more": "more"}))

    def make(root):
        git(root, "init", "-q")
        subprocess.run(["git", "fast-import", "--quiet"], cwd=root, input=stream.encode(), check=True, capture_output=True)
        git(root, "checkout", "-q", "one")
    return make


def git_checkout():
    with site(before=repository(10_000)) as made:
        for branch in ("two", "one", "two", "one"):
            git(made.root, "checkout", "-q", branch)
            made.equal(f"of {branch}, 10,000 files", 30)
        later(made.root + "/src")
        made.equal("and what happens in each folder later", 30)


def git_stash():
    with site(before=repository(1_000)) as made:
        for n in range(3):
            for top, _, files in os.walk(made.root + "/src"):
                for file in files[:2]:
                    write(f"{top}/{file}", f"edited {n}\n", "a")
            tree(made.root, [f"src/new{n}/deep"], 5)
            git(made.root, "stash", "-q", "-u")
            made.equal(f"stash {n}")
            git(made.root, "stash", "pop", "-q")
            made.equal(f"pop {n}")
            git(made.root, "add", "-A")
            git(made.root, "commit", "-q", "-m", f"{n}")


def git_rebase():
    with site(before=repository(1_000)) as made:
        git(made.root, "checkout", "-q", "side")
        git(made.root, "rebase", "-q", "one")
        made.equal("rebased")
        git(made.root, "reset", "-q", "--hard", "HEAD~1")
        git(made.root, "clean", "-q", "-fd")
        made.equal("and what was committed taken back")


def git_gc():
    with site(before=repository(1_000)) as made:
        git(made.root, "gc", "-q", "--prune=now")
        made.equal("collected")
        write(made.root + "/after", "x")
        git(made.root, "add", "-A")
        git(made.root, "commit", "-q", "-m", "after")
        git(made.root, "repack", "-q", "-a", "-d")
        made.equal("and a repack after a commit")


def unpacked():
    """20,000 files of an archive."""
    with site() as made:
        tree(made.folder + "/archive", [f"d{n % 10}/e{n}" for n in range(200)], 100)
        subprocess.run(["tar", "-C", made.folder, "-cf", made.folder + "/archive.tar", "archive"], check=True)
        run("tar", "-C", made.root, "-xf", made.folder + "/archive.tar")
        made.equal("20,000 files", 30)
        for n in range(200):
            write(f"{made.root}/archive/d{n % 10}/e{n}/later", "x")
        made.equal("and what happens in each folder later")
        shutil.rmtree(made.root + "/archive")
        made.equal("and all removed", 30)
        run("cp", "-r", made.folder + "/archive", made.root)
        made.equal("and copied", 30)
        made.goes_on()


def new_folders():
    """Folders in folders as fast as they can be made: what inotifywait misses is found."""
    with site() as made:
        for number in range(20):
            for n in range(40):
                os.makedirs(f"{made.root}/t{number}/a{n}/b/c/d")
            for n in range(40):
                write(f"{made.root}/t{number}/a{n}/b/c/d/file")
        made.equal("20 times 40 deep folders")
        time.sleep(1)
        for number in range(20):
            for n in range(40):
                write(f"{made.root}/t{number}/a{n}/b/c/d/later", "y")
        made.equal("and what is made in them later")


def cost_of_folders():
    """A new folder costs what lies in it, however many folders are watched."""
    costs = []
    for count in (100, 10_000):
        with site(before=lambda root: [os.makedirs(f"{root}/{n % 100}/{n}") for n in range(count)]) as made:
            time.sleep(1)
            begun = made.processor()
            for n in range(40):
                os.makedirs(f"{made.root}/0/new{n}")
                time.sleep(0.05)
            until(lambda: len(made.ask(["query", made.root,
                                            {"fields": ["name"],
                                             "expression": ["match", "0/new*", "wholename"]}])["files"]) == 40)
            time.sleep(0.2)
            costs.append((made.processor() - begun) / 40)
            print(f"       a new folder beside {count}: {costs[-1]:.2f} ms of processor")
    check("a new folder beside 10,000 costs no more than one beside 100, and 2 ms", costs[1] < costs[0] + 2, costs)


def random_changes():
    rounds = random.Random(programs.seed)
    for number in range(min(programs.rounds, 30)):
        seed = rounds.randrange(10**9)
        with site(before=lambda root: [Changer(root, seed).change() for _ in range(20)]) as made:
            changer = Changer(made.root, seed + 1)
            took = []
            for _ in range(4):
                for _ in range(changer.random.choice([1, 10, 60])):
                    changer.change()
                    if changer.random.random() < 0.1:
                        time.sleep(changer.random.random() / 20)
                slow, differs = made.settle()
                took.append(slow)
                if differs:
                    break
            check(f"{number}, seed {seed}: {max(took):.0f} ms", not differs, differs)
            time.sleep(0.3)
            before = made.view()
            made.ask(["recrawl", made.root])
            check(f"{number}: a crawl changes nothing", made.view() == before)


def changes_by_many():
    """Four that change the same folder at once."""
    for number in range(max(1, min(programs.rounds, 30) // 5)):
        with site() as made:

            def change(n):
                changer = Changer(made.root, programs.seed + 10 * number + n, up=".")
                for _ in range(80):
                    with contextlib.suppress(OSError):
                        changer.change()

            with at_once([functools.partial(change, n) for n in range(4)]):
                pass
            made.equal(f"four at once {number}")


def many_folders(root):
    tree(root, [f"d{n}/e" for n in range(100)], 5)


@contextlib.contextmanager
def renaming():
    """A site where folders are renamed: the feed and inotifywait go on."""
    with site(before=many_folders) as made:
        watcher = made.watcher()
        yield made
        made.goes_on()
        check("inotifywait went on", made.watcher() == watcher, made.watcher())


def packages():
    """Packages that are made under a name of their own and renamed to their place, fifty a second, as installers do it."""
    with renaming() as made:
        for n in range(250):
            tree(f"{made.root}/.p{n}-x", ["lib/a", "lib/b", "doc"], 3)
            os.rename(f"{made.root}/.p{n}-x", f"{made.root}/p{n}")
            time.sleep(0.02)
        made.equal("250 renamed to their place, fifty a second")
        for n in range(250):
            tree(f"{made.root}/p{n}", ["lib/a", "lib/b", "doc"], 4)
        made.equal("and files made in them later")


def there_and_back():
    with renaming() as made:
        tree(made.root + "/here", [f"d{n}" for n in range(20)], 10)
        made.equal("a folder of 200 files")
        for pause in (0.01, 0.03, 0.1):
            for _ in range(15):
                for one, other in (("here", "there"), ("there", "here")):
                    os.rename(f"{made.root}/{one}", f"{made.root}/{other}")
                    time.sleep(pause)
            write(f"{made.root}/here/d7/f3", f"{pause}")
            made.equal(f"each {pause * 1000:.0f} ms")


def moves_of_many():
    """Folders in folders are moved in and out of each other; then something happens in each."""
    with renaming() as made:
        rounds = random.Random(programs.seed)
        tree(made.root + "/many", ["/".join(f"{rounds.choice('abc')}{rounds.randrange(9)}" for _ in range(rounds.randrange(1, 7)))
                                   for _ in range(80)], 1)
        made.equal("folders in folders")
        for _ in range(20):
            folders = [f"{top}/{name}" for top, names, _ in os.walk(made.root + "/many") for name in names]
            moved, into = rounds.choice(folders), rounds.choice(folders)
            if not (into + "/").startswith(moved + "/"):
                os.rename(moved, f"{into}/m{rounds.randrange(10**6)}")
        made.equal("20 of them moved in one another")
        for top, _, _ in os.walk(made.root + "/many"):
            write(top + "/later", "x")
        made.equal("and a file made in each later")


def moved_folder():
    """A folder of 100 files in a root of 10,000 is renamed, and one leaves and comes again twelve times."""
    with site(before=lambda root: tree(root, [f"d{n}/e" for n in range(1_000)], 10)) as made:
        tree(made.root + "/d0", ["package"], 100)
        made.settle()
        for n in range(5):
            began = time.perf_counter()
            os.rename(f"{made.root}/d{n}/package", f"{made.root}/d{n + 1}/package")
            wanted = {"fields": ["name"], "expression": ["allof", "exists", ["name", f"d{n + 1}/package/f99", "wholename"]]}
            known = until(lambda: made.ask(["query", made.root, wanted]).get("files"), 10)
            check(f"100 files in a root of 10,000: {(time.perf_counter() - began) * 1000:.0f} ms", known)
        for number in range(12):
            os.rename(made.root + "/d7", made.folder + "/out")
            os.rename(made.folder + "/out", made.root + "/d7")
            time.sleep(0.1)
        made.equal("one that left and came again twelve times")
        made.goes_on()


CASES = [random_changes, changes_by_many, new_folders, cost_of_folders, tar_again, cp_again, rsync_again, made_anew, git_checkout,
         git_stash, git_rebase, git_gc, unpacked, packages, there_and_back, moves_of_many, moved_folder]
