"""State files: owners, files that an earlier program made, versions, migrations, and the calls that a session makes of its file.

A program built from commit e707780 (28 November 2026) made the files of tools/try/kept_files: `python3 tools/try/files.py PROGRAM
FOLDER`. They are served and migrated: the triggers that they keep are listed, and new commands are kept with these."""
import gzip, json, os, re, resource, shutil, signal, subprocess, sys

sys.path.insert(0, os.path.join(os.path.dirname(os.path.abspath(__file__)), "../lib"))
from registry import MIGRATED, RETIRED, migrate
from server import Client, check, folder, new_state, outcome, programs, replies, run_lines, serving, unpack


def trigger(name, words, **parts):
    return {"append_files": False, "command": words, "expression": "true", "name": name, "stdin": "/dev/null", **parts}


MAKE = trigger("make", ["make", "-j4"], expression=["allof", ["suffix", "c"], ["not", ["match", "test_*"]]])
NAMES = trigger("names", ["xargs", "lint"], stdin="NAME_PER_LINE")
APPENDED = trigger("t", ["touch"], append_files=True)
# Of 16,471 bytes each in the file: with its root 63 of them leave 10,852 bytes of a version 1 state.
LONG = [trigger(f"{number:02}", ["x" * 1024] * 16) for number in range(64)]
# More than two journals of 262,144 bytes hold, so that the commands after the last checkpoint are few.
AGAIN = [["trigger", "/src", trigger("again", ["x" * 1000, str(number)])] for number in range(600)]

# For each file: the lines of each start that made it, the roots that it keeps with their triggers, and its last incarnation.
FILES = {
    "new": ([], {}, 0),
    "commands": ([[["watch", "/src"], ["watch", "/srv/\u00e4 b"], ["watch", "/gone"], ["trigger", "/src", MAKE],
                   ["trigger", "/src", trigger("gone", ["false"])]],
                  [["watch-del", "/gone"], ["trigger", "/src", NAMES], ["trigger-del", "/src", "gone"],
                   ["trigger", "/srv/\u00e4 b", APPENDED]]],
                 {"/src": [MAKE, NAMES], "/srv/\u00e4 b": [APPENDED]}, 2),
    "switched": ([[["watch", "/src"], *AGAIN], [["trigger", "/src", MAKE]]],
                 {"/src": [trigger("again", ["x" * 1000, "599"]), MAKE]}, 2),
    "long": ([[["watch", "/a"], *(["trigger", "/a", one] for one in LONG[:63])]], {"/a": LONG[:63]}, 1),
}


def make(program, where):
    """Makes each file. Each start is killed right after its last reply."""
    os.makedirs(where, exist_ok=True)
    for name, (starts, _, _) in FILES.items():
        with folder() as made:
            state = f"{made}/state"
            new_state(program, state)
            for requests in starts:
                with subprocess.Popen([program, "lines", state], stdin=subprocess.PIPE, stdout=subprocess.PIPE) as process:
                    for request in requests:
                        process.stdin.write(json.dumps(request).encode() + b"\n")
                        process.stdin.flush()
                        assert "error" not in json.loads(process.stdout.readline()), request
                    process.kill()
            with open(state, "rb") as read, open(f"{where}/{name}.gz", "wb") as written:
                written.write(gzip.compress(read.read(), 9, mtime=0))


def listing_of(roots):
    """The requests that list the roots with their triggers, and the replies."""
    asked = [["watch-list"], *(["trigger-list", root] for root in roots)]
    listed = [{"roots": list(roots), "version": "w1"}, *({"triggers": triggers, "version": "w1"} for triggers in roots.values())]
    return asked, listed


def kept_files_are_served():
    for name, (_, roots, incarnation) in FILES.items():
        with folder() as made:
            state = f"{made}/state"
            unpack(name, state)
            asked, wanted = listing_of(roots)
            seen = replies(programs.watchmand, state, [*asked, ["watch", "/later"]])
            check(f"what {name} keeps is listed", seen[:-1] == wanted, seen)
            listing = ["listing", "/later", 0, "", []]
            wanted[0]["roots"].append("/later")
            *listed, told = replies(programs.watchmand, state, [*asked, listing])
            check(f"what is commanded is kept in {name}", listed == wanted, listed)
            with serving(programs.watchmand, made) as path:
                check(f"a server serves {name}", Client(path).reply(["watch-list"]) == wanted[0])
            clock = f"c:{incarnation + 2}:{told['clock'].split(':')[2]}:1"
            check(f"{name}'s incarnations go on", told["clock"] == clock, told)
            if name == "long":
                refused = replies(programs.watchmand, state, [["trigger", "/a", LONG[63]]])
                check("a version 1 file keeps its limit", refused == [{"error": "11 Full", "version": "w1"}], refused)


def versions_keep_what_they_can():
    """A trigger's number of files has a place only in a file of version 2."""
    counted = trigger("counted", ["xargs", "lint"], stdin="NAME_PER_LINE", max_files_stdin=2**32 - 1)
    asked = [["watch", "/src"], ["trigger", "/src", counted], ["trigger", "/other", counted]]
    met = {1: {"error": "21 OldVersion", "version": "w1"}, 2: {"disposition": "created", "triggerid": "counted", "version": "w1"}}
    for version, size in ((1, 2625536), (2, 8916992)):
        with folder() as made:
            state = f"{made}/state"
            new_state(programs.watchmand, state, version)
            with open(state, "rb") as file:
                content = file.read()
            check(f"a new file of version {version} says so",
                  (len(content), content[:13]) == (size, b"\xa5WMSTATE" + version.to_bytes(4, "big") + b"\0"), content[:13])
            _, told, unwatched = replies(programs.watchmand, state, asked)
            check(f"a number of files in version {version}", told == met[version], told)
            check("one of a root that isn't watched", unwatched == {"error": "5 NotWatched", "version": "w1"}, unwatched)
            kept = replies(programs.watchmand, state, [["trigger-list", "/src"]])
            check(f"what version {version} keeps of it",
                  kept == [{"triggers": [counted] if version == 2 else [], "version": "w1"}], kept)


def kept_files_are_migrated():
    """The new file has all that the old one kept, and room for what that had no place for. The old one is served no more."""
    counted = trigger("counted", ["true"], max_files_stdin=1)
    for name, (_, roots, incarnation) in FILES.items():
        with folder() as made:
            old, new = f"{made}/old", f"{made}/new"
            unpack(name, old)
            for turn in ("", " again"):
                ended = migrate(programs.watchmand, old, new)
                check(f"{name} is migrated{turn}", outcome(ended) == MIGRATED, ended)
            ended = run_lines(programs.watchmand, old, [])
            check(f"{name} is retired then", outcome(ended) == RETIRED, ended)
            with open(new, "rb") as file:
                content = file.read()
            check(f"{name} becomes a file of version 2", (len(content), content[:13]) == (8916992, b"\xa5WMSTATE\0\0\0\2\0"),
                  content[:13])
            asked, wanted = listing_of(roots)
            seen = replies(programs.watchmand, new,
                           [*asked, ["watch", "/later"], ["listing", "/later", 0, "", []], ["trigger", "/later", counted]])
            check(f"what {name} kept is in the new file", seen[:len(wanted)] == wanted, seen)
            check(f"{name}'s incarnations go on in the new file", seen[-2]["clock"].startswith(f"c:{incarnation + 1}:"), seen[-2])
            check("a number of files has a place there",
                  seen[-1] == {"disposition": "created", "triggerid": "counted", "version": "w1"}, seen[-1])


# A file size that ends a `format` in its middle.
LIMIT = 51200
FAILED, DAMAGED = ("watchmand: 13 DeviceFailed\n", "watchmand: 14 Damaged\n")


def limited(ignoring):
    """In a process that is about to start: files end at the limit, which ends the process too unless it ignores the signal."""
    signal.signal(signal.SIGXFSZ, signal.SIG_IGN if ignoring else signal.SIG_DFL)
    resource.setrlimit(resource.RLIMIT_CORE, (0, 0))
    resource.setrlimit(resource.RLIMIT_FSIZE, (LIMIT, LIMIT))


def content(path):
    with open(path, "rb") as file:
        return file.read()


def is_refused(what, words, wanted, **how):
    how = {"stdin": subprocess.DEVNULL, "stdout": subprocess.PIPE, "stderr": subprocess.PIPE, **how}
    ended = subprocess.run([programs.watchmand, *words], text=True, **how)
    check(what, (ended.returncode, ended.stdout or "", ended.stderr) == (1, "", wanted), ended)


def file_has_one_owner():
    """A session keeps the file until it ends, also by SIGKILL."""
    with folder() as made:
        state = f"{made}/state"
        new_state(programs.watchmand, state)
        before = content(state)
        with subprocess.Popen([programs.watchmand, "lines", state], stdin=subprocess.PIPE, stdout=subprocess.PIPE,
                              bufsize=0) as owner:
            owner.stdin.write(b'["watch","/r"]\n')
            owner.stdout.readline()
            owned = content(state)
            is_refused("a second owner is refused", ["lines", state], FAILED)
            is_refused("a format of an owned file too", ["format", state], FAILED)
            check("and the file stays", content(state) == owned)
            owner.kill()
        ended = run_lines(programs.watchmand, state, [])
        check("a killed owner leaves the file to the next one", outcome(ended) == (0, "", ""), ended)
        check("which writes to it", content(state) != before)


def format_leaves_no_part():
    """A `format` that fails removes its file, and leaves one that was there. A killed one leaves a part, which isn't served."""
    with folder() as made:
        state, half, untold = f"{made}/state", f"{made}/half", f"{made}/untold"
        new_state(programs.watchmand, state)
        before = content(state)
        is_refused("a format for which the disk has no room", ["format", half], FAILED, preexec_fn=lambda: limited(True))
        check("leaves no file", not os.path.exists(half))
        is_refused("one of a file that is there", ["format", state], FAILED, preexec_fn=lambda: limited(True))
        check("leaves that file", content(state) == before)
        if os.path.exists("/dev/full"):
            with open("/dev/full", "w") as full:
                is_refused("a format whose reply can't be written", ["format", untold], FAILED, stdout=full)
            check("leaves no file then", not os.path.exists(untold))
        subprocess.run([programs.watchmand, "format", half], capture_output=True, preexec_fn=lambda: limited(False))
        check("a killed format leaves a part", os.path.exists(half))
        is_refused("over which nothing starts", ["lines", half], DAMAGED)
        is_refused("and which isn't formatted", ["format", half], FAILED)


# The calls of a session with one command, from the one that opens the file on. J is the place of the journal.
CALLS = """openat O_RDWR|O_NOCTTY|O_CLOEXEC, statx, flock, fsync, statx, fdatasync, pread64,
pwrite64 2 J+1, fdatasync, pwrite64 1 J+0, fdatasync, read, pwrite64 8 J+3, fdatasync, pwrite64 1 J+2, fdatasync, write, read,
fdatasync, close"""
OTHER_CALLS = ("exit_group", "+++", "mmap", "munmap", "mremap", "madvise", "brk")


def calls_of_session(made, state, journal):
    """The names of the calls; of the call that opens the file its flags, and of a write the count of bytes and the place."""
    ended = run_lines(programs.watchmand, state, [["watch", "/r"]], "strace", "-o", f"{made}/calls")
    assert ended.returncode == 0, ended
    with open(f"{made}/calls") as text:
        lines = text.read().splitlines()
    begin = next(number for number, line in enumerate(lines) if line.startswith(f'openat(AT_FDCWD, "{state}",'))
    seen = []
    for line in lines[begin:]:
        call = line.split("(")[0]
        if line.startswith("openat"):
            seen.append("openat " + re.search(r", ([A-Z_|]+)\) += ", line)[1])
        elif line.startswith("pwrite64"):
            count, place = map(int, re.search(r", (\d+), (\d+)\) += ", line).groups())
            seen.append(f"pwrite64 {count} J+{place - journal}")
        elif not line.startswith(OTHER_CALLS):
            seen.append(call)
    return seen


def calls_of_the_file():
    """The open file is neither made nor cut, it is locked and synced before it is read, and each write is synced before the next
    one and before the reply."""
    if not shutil.which("strace"):
        return print("skip   strace isn't installed: the calls aren't looked at")
    wanted = re.split(r",\s", CALLS)
    for version, journal in ((2, 4198400), (1, 1052672)):
        with folder() as made:
            new_state(programs.watchmand, f"{made}/state", version)
            seen = calls_of_session(made, f"{made}/state", journal)
            check(f"the calls of a file of version {version}", seen == wanted, seen)


CASES = [kept_files_are_served, kept_files_are_migrated, versions_keep_what_they_can, file_has_one_owner, format_leaves_no_part,
         calls_of_the_file]

if __name__ == "__main__":
    make(*sys.argv[1:])
