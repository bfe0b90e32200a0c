#!/usr/bin/env python3
"""Runs every example of the documents and of examples/: tools/pages.py [--programs FOLDER] [PART ..]

A part prints what differs from its page; the status is 1 if something does. The parts, all of them without a name:
shell     the lines that begin with `$` in a block of README, GUIDE or QUERIES, typed into a shell; then a page's Python
lines     the requests of README, QUERIES and examples/sessions.md, answered by `watchmand lines`
socket    the requests of QUERIES, answered by a server
limits    the limits of docs/FORMATS.md, asked of a server (tools/limits.py)
examples  the programs of examples/ (examples/run.sh)
The programs are those of FOLDER, or those of crates/*/out."""
import argparse, os, pathlib, re, select, shutil, subprocess, sys, textwrap, time

sys.dont_write_bytecode = True
TOOLS = pathlib.Path(__file__).resolve().parent
TOP = TOOLS.parent
sys.path.insert(0, str(TOOLS / "lib"))
from server import Client, built, folder, new_state, serving

README, GUIDE, QUERIES, SESSIONS = TOP / "README.md", TOP / "docs/GUIDE.md", TOP / "docs/QUERIES.md", TOP / "examples/sessions.md"
# How long a typed line may take, and how long nothing more may come after it, in seconds.
PATIENCE, QUIET = 20.0, 0.3
MARK = "the shell has done this line"


def blocks(text):
    """The blocks of a page between lines of three backticks, each as its lines."""
    return [block.splitlines() for block in re.findall(r"(?ms)^```\w*\n(.*?)^```$", text)]


def steps(text):
    """The lines that are typed, each with the lines that are printed after it. A comment after two spaces is for the reader."""
    found = []
    for block in blocks(text):
        for line in block if block and block[0].startswith("$ ") else []:
            line = re.sub(r"  +#.*$", "", line)
            if line.startswith("$ "):
                found.append((line[2:], []))
            else:
                found[-1][1].append(line)
    return found


def python_programs(text):
    """The programs of a page: indented blocks that begin with an import."""
    return [textwrap.dedent(block) for block in re.findall(r"(?m)^    import .*\n(?:(?:    .*)?\n)*", text)]


def requests(text):
    """The requests of a text, each with the lines that are sent after it."""
    found = []
    for block in blocks(text):
        for line in block:
            if line.startswith("["):
                found.append((line, []))
            elif line.startswith("{") and found:
                found[-1][1].append(line)
    return found


def sessions():
    """The sessions over a new state file, each with its name: a page is one, and each part of examples/sessions.md is one."""
    parts = re.split(r"(?m)^## ", SESSIONS.read_text())[1:]
    named = [(page.name, page.read_text()) for page in (README, QUERIES)] + [(part.split("\n")[0], part) for part in parts]
    return [(name, found) for name, text in named if (found := requests(text))]


class Shell:
    """A shell into which lines are typed one by one; its output is read as it comes."""

    def __init__(self, environment, place):
        how = {"stdin": subprocess.PIPE, "stdout": subprocess.PIPE, "stderr": subprocess.STDOUT, "start_new_session": True}
        self.process = subprocess.Popen(["bash", "--norc"], env=environment, cwd=place, **how)
        self.printed = b""

    def type(self, line):
        self.process.stdin.write(f"{line}\necho '{MARK}'\n".encode())
        self.process.stdin.flush()

    def read(self, seconds):
        """Reads the output that comes within these seconds; whether some came."""
        out = self.process.stdout
        if not select.select([out], [], [], seconds)[0]:
            return False
        came = os.read(out.fileno(), 65536)
        self.printed += came
        return bool(came)

    def lines(self):
        return self.printed.decode().split("\n")[:-1]

    def answer(self, wanted):
        """The lines that are printed after a typed one, once there are as many as are wanted, or time is over."""
        end = time.monotonic() + PATIENCE
        while time.monotonic() < end:
            lines = self.lines()
            if MARK in lines and len(lines) > len(wanted) and not self.read(QUIET):
                break
            self.read(0.1)
        lines = [line for line in self.lines() if line != MARK]
        self.printed = b""
        return lines


def environment_of(place, programs):
    """An environment with a home, a state folder and a runtime folder of its own, whose path has the programs first."""
    os.makedirs(f"{place}/bin")
    os.makedirs(f"{place}/run")
    for name, program in programs.items():
        shutil.copy(program, f"{place}/bin/{name}")
    own = {"HOME": f"{place}/home", "XDG_STATE_HOME": f"{place}/home/.local/state", "XDG_RUNTIME_DIR": f"{place}/run"}
    environment = {**os.environ, **own, "PATH": f"{place}/bin:{os.environ['PATH']}", "LC_ALL": "C"}
    environment.pop("WATCHMAND_SOCKET", None)
    return environment


def type_lines(name, text, shell):
    """How many of a page's lines are typed, and how many of these print something else."""
    typed, wrong, below = steps(text), 0, "\n          "
    for line, wanted in typed:
        shell.type(line)
        printed = shell.answer(wanted)
        if printed != wanted:
            wrong += 1
            print(f"{name}: {line}\n  printed {below.join(printed)}\n  not     {below.join(wanted)}")
    print(f"{name}: {len(typed) - wrong} of {len(typed)} typed lines print the lines of the page")
    return len(typed), wrong


def python_fails(name, program, environment):
    """Whether a program of a page ends badly, or prints a refusal or nothing."""
    ended = subprocess.run([sys.executable, "-c", program], env=environment, capture_output=True, text=True, timeout=60)
    fails = ended.returncode != 0 or not ended.stdout or "error" in ended.stdout
    print(f"{name}: its Python program {'fails: ' + ended.stdout + ended.stderr if fails else 'prints ' + ended.stdout.strip()}")
    return fails


def try_page(page, programs):
    """How many of a page's lines are typed, and how many faults there are. A new folder has its folders of /tmp, and the home."""
    with folder() as place:
        text = re.sub(r"/tmp/(?=[a-z])", f"{place}/", page.read_text()).replace("/run/user/1000", f"{place}/run")
        environment = environment_of(place, programs)
        shell = Shell(environment, place)
        typed, wrong = type_lines(page.name, text, shell)
        wrong += sum(python_fails(page.name, program, environment) for program in python_programs(text))
        subprocess.run(["wm", "down"], env=environment, capture_output=True)
        os.killpg(shell.process.pid, 9)
        shell.process.wait()
    return typed, wrong


def in_a_shell(programs):
    counts = [try_page(page, programs) for page in (README, GUIDE, QUERIES) if steps(page.read_text())]
    return sum(typed for typed, _ in counts) > 0 and not any(wrong for _, wrong in counts)


def differ(name, wanted, seen):
    """Prints the first line that differs; whether one does."""
    for at in range(max(len(wanted), len(seen))):
        if wanted[at:at + 1] != seen[at:at + 1]:
            print(f"{name}: a reply is\n  {''.join(seen[at:at + 1])}\nnot\n  {''.join(wanted[at:at + 1])}")
            return True
    return False


def in_lines(programs):
    wrong, found = 0, sessions()
    for name, session in found:
        with folder() as place:
            new_state(programs["watchmand"], f"{place}/state")
            text = "".join(request + "\n" for request, _ in session)
            ran = subprocess.run([programs["watchmand"], "lines", f"{place}/state"], input=text, capture_output=True, text=True)
        wrong += differ(name, [line for _, lines in session for line in lines], (ran.stdout + ran.stderr).splitlines())
        print(f"{name}: `watchmand lines` answers {len(session)} requests")
    # a page, and both sessions of examples/sessions.md
    return len(found) > 2 and not wrong


def one_later(line):
    """A line with each tick greater by one: those of clocks, of the beginning of a listing and of a floor."""
    line = re.sub(r'"(c:1:1:)(\d+)"', lambda found: f'"{found[1]}{int(found[2]) + 1}"', line)
    line = re.sub(r'^(\["listing","/src",)([1-9]\d*)', lambda found: f"{found[1]}{int(found[2]) + 1}", line)
    return re.sub(r'("floor":)(\d+)', lambda found: f"{found[1]}{int(found[2]) + 1}", line)


def over_a_socket(programs):
    """A server crawls the root of QUERIES, which must not be there, before its first listing: so each tick is greater by one."""
    assert not os.path.exists("/src"), "there is a /src, the root of docs/QUERIES.md"
    wrong, found = 0, requests(QUERIES.read_text())
    with folder() as place, serving(programs["watchmand"], place, "--quiet") as path, Client(path, seconds=20) as client:
        for request, wanted in found:
            client.send(one_later(request).encode())
            seen = [client.line().decode().rstrip("\n") for _ in wanted]
            wrong += differ(request, [one_later(line) for line in wanted], seen)
            if request.startswith('["watch",'):
                crawled = client.ask(["recrawl", "/src"])
                assert crawled == b'{"clock":"c:1:1:1","version":"w1"}\n', crawled
    print(f"{QUERIES.name}: a server answers {len(found)} requests, {wrong} of them differently")
    return bool(found) and not wrong


def ran(*words):
    return subprocess.run(list(map(str, words))).returncode == 0


PARTS = {
    "shell": in_a_shell,
    "lines": in_lines,
    "socket": over_a_socket,
    "limits": lambda programs: ran(sys.executable, TOOLS / "limits.py", programs["watchmand"]),
    "examples": lambda programs: ran(TOP / "examples/run.sh", programs["watchmand"], programs["wmctl"]),
}


def main():
    words = argparse.ArgumentParser(description=__doc__, formatter_class=argparse.RawDescriptionHelpFormatter)
    words.add_argument("--programs", metavar="FOLDER")
    words.add_argument("parts", nargs="*", metavar="PART")
    asked = words.parse_args()
    for part in asked.parts:
        if part not in PARTS:
            words.error(f"{part}: no such part; the parts are {' '.join(PARTS)}")
    programs = built([asked.programs] if asked.programs else None)
    failed = [part for part in asked.parts or PARTS if not PARTS[part](programs)]
    print(f"pages: {', '.join(failed)} failed" if failed else "pages: all well")
    return 1 if failed else 0


if __name__ == "__main__":
    sys.exit(main())
