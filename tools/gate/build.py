#!/usr/bin/env python3
"""Proves and builds the four programs: tools/gate/build.py

The crate `programs` needs all the crates that the programs need. `rt all check` in its folder proves several
of them at a time, as processors and memory allow, each as soon as those below it are proved. For each proved
crate a line is printed, with the number of crates that are left. `rt run` proves and links each program once all
that it needs is proved, several at a time as memory allows: while crates are proved too, if there is room. rt locks
the folder of each crate that it reads, so each program is linked in a copy of what it needs."""
import concurrent.futures, os, pathlib, re, shutil, subprocess, sys, time

TOP = pathlib.Path(__file__).resolve().parents[2]
PROGRAMS = ("watchmand", "wm", "wmfeed", "wmctl")
# The memory that most checks take, and that of a program's link, in bytes.
OF_A_CHECK = 3 << 30
OF_A_LINK = 7 << 30
# Where the copies are: on the disk of the crates, and where no tool looks for sources.
COPIES = TOP / (".git/links" if (TOP / ".git").is_dir() else "dist/links")
HOW = {"stdin": subprocess.DEVNULL, "stdout": subprocess.PIPE, "stderr": subprocess.STDOUT, "text": True, "errors": "replace"}
# rt, a Python program, then prints each line at once.
HOW["env"] = {**os.environ, "PYTHONUNBUFFERED": "1"}


def lines_of(name):
    """The lines of crates.txt of a crate and of all the crates of the repository that it needs, by their names."""
    lines = {line.split(":")[0].split()[0]: line for line in (TOP / "crates.txt").read_text().splitlines() if line.split("#")[0].strip()}
    found, todo = {}, [name]
    while todo:
        more = todo.pop()
        if more in lines and more not in found:
            found[more] = lines[more]
            todo += lines[more].partition(":")[2].split()
    return found


def memory():
    """The memory that is free, in bytes."""
    return int(re.search(r"MemAvailable: *(\d+) kB", pathlib.Path("/proc/meminfo").read_text())[1]) * 1024


def say(text):
    print(f"build: {text}", flush=True)


def kept(one, other):
    """Copies a file of a crate: by a second name if rt replaces such a file and never writes into it."""
    if one.endswith(".oantt") or "/out/rlib/" in one:
        try:
            return os.link(one, other)
        except OSError:
            pass
    return shutil.copy2(one, other)


def copy_for(name, top):
    """Copies what a program needs into a folder: its crates, their libraries as they were built, and its own out/."""
    shutil.rmtree(top, ignore_errors=True)
    lines = lines_of(name)
    for crate in lines:
        of, to = TOP / "crates" / crate, top / "crates" / crate
        shutil.copytree(of, to, ignore=lambda folder, names: ["out"] if folder == str(TOP / "crates" / crate) else [])
        of, to = (of / "out", to / "out") if crate == name else (of / "out/rlib", to / "out/rlib")
        if of.is_dir():
            shutil.copytree(of, to, copy_function=kept)
    (top / "crates.txt").write_text("\n".join(lines.values()) + "\n")
    shutil.copy2(TOP / "HANDLES", top)


def bring_back(made, to):
    """Moves what was made in a copy of an out/ to where it belongs."""
    to.mkdir(exist_ok=True)
    for path in made.iterdir():
        shutil.rmtree(to / path.name) if (to / path.name).is_dir() else (to / path.name).unlink(missing_ok=True)
        path.rename(to / path.name)


def link(name):
    """Whether a program is proved and linked. If it isn't, the output of rt is printed."""
    top, out = COPIES / name, TOP / "crates" / name / "out"
    try:
        copy_for(name, top)
        ran = subprocess.run(["rt", "run", "--", "--help"], cwd=top / "crates" / name, **HOW)
        if ran.returncode:
            print(ran.stdout.replace(str(top), str(TOP)), end="", flush=True)
        else:
            bring_back(top / "crates" / name / "out", out)
            (out / name).touch()
            say(f"{name} is built")
        return not ran.returncode
    finally:
        shutil.rmtree(top, ignore_errors=True)


class Build:
    """What is proved and linked so far."""

    def __init__(self, pool):
        self.pool, self.start, self.memory = pool, time.monotonic(), memory()
        self.left = set(lines_of("programs"))
        self.programs, self.links = list(PROGRAMS), []
        self.checks = max(1, min(len(os.sched_getaffinity(0)), self.memory // OF_A_CHECK))

    def is_ready(self, program):
        """Whether all that a program needs is proved."""
        below = [crate for crate in lines_of(program) if crate != program]
        return not self.left.intersection(below) and all((TOP / "crates" / crate / "out/rlib/stamp").is_file() for crate in below)

    def begin_links(self, checks):
        """Begins to link programs, beside so many checks. One link has its place if nothing else runs."""
        places = max((self.memory - checks * OF_A_CHECK) // OF_A_LINK, not checks)
        for program in [one for one in self.programs if not checks or self.is_ready(one)]:
            if sum(not one.done() for one in self.links) < places:
                self.programs.remove(program)
                self.links.append(self.pool.submit(link, program))

    def proved(self, crate):
        self.left.remove(crate)
        minutes, seconds = divmod(int(time.monotonic() - self.start), 60)
        which = ": " + " ".join(sorted(self.left)) if len(self.left) in range(1, 7) else ""
        say(f"{crate}, {minutes}:{seconds:02}, {len(self.left)} left{which}")

    def prove(self):
        """Whether all crates below the programs are proved. A line is printed for each; if one isn't proved, all that rt printed too."""
        said = []
        say(f"{len(self.left)} crates, {self.checks} at a time")
        ran = subprocess.Popen(["rt", "all", "check", "--jobs", str(self.checks)], cwd=TOP / "crates/programs", **HOW)
        for line in ran.stdout:
            said.append(line)
            name = line.removeprefix("== ").strip()
            if line.startswith("== ") and name in self.left:
                self.proved(name)
                self.begin_links(self.checks)
        if ran.wait():
            print("".join(said), end="", flush=True)
        return not ran.returncode

    def link_all(self):
        """Whether all programs are linked, those that aren't yet too."""
        while self.programs and all(one.result() for one in self.links if one.done()):
            self.begin_links(0)
            concurrent.futures.wait([one for one in self.links if not one.done()], return_when="FIRST_COMPLETED")
        return all([one.result() for one in self.links]) and not self.programs


if __name__ == "__main__":
    with concurrent.futures.ThreadPoolExecutor(len(PROGRAMS)) as pool:
        build = Build(pool)
        is_built = build.prove() and build.link_all()
    shutil.rmtree(COPIES, ignore_errors=True)
    sys.exit(0 if is_built else 1)
