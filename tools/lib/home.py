"""A person's folders, in which commands of `wm` run: each with its output and its status. In commands and outputs FOLDER stands
for the folder of a case, and SOCKET for the socket of its server."""
import contextlib, os, re, shutil, signal, socket, subprocess, threading

from server import check, folder, programs, until

AT = "FOLDER/home/run/watchmand/socket"
STARTED = "a server was started at SOCKET\na feed was started"
ENDED = "wmfeed ended\nwatchmand ended"
NOT_ENDED = "no wmfeed of 'wm up' runs\nwatchmand ended"
# A busy machine may have wm print that it waits.
WAITS = re.compile(r".*(server's answer is waited for: .*|the answer comes once the crawl has ended$)")


def named(text):
    """A text with the path of the socket, but for names of variables that end with SOCKET."""
    return re.sub("(?<!_)SOCKET", AT, text)


def has_ended(pid):
    try:
        with open(f"/proc/{pid}/stat") as text:
            return text.read().rsplit(") ", 1)[1][0] in "ZX"
    except OSError:
        return True


class Home:
    """A folder with the programs, and the folders of a person who works in its folder `work`."""

    def __init__(self, place):
        self.folder = place
        os.chmod(place, 0o755)
        for name in ("bin", "work/lib", "work/library"):
            os.makedirs(f"{place}/{name}")
        for name in ("wm", "watchmand", "wmfeed"):
            shutil.copy(vars(programs)[name], f"{place}/bin/{name}")
        self.env = {**os.environ, "LC_ALL": "C", "XDG_STATE_HOME": f"{place}/home/state", "XDG_RUNTIME_DIR": f"{place}/home/run",
                    "PATH": f"{place}/bin:{os.environ['PATH']}"}
        self.env.pop("WATCHMAND_SOCKET", None)

    def text(self, text):
        return named(text).replace("FOLDER", self.folder)

    def begin(self, command, **how):
        """Starts a command of the shell, which ends with it."""
        how = {"stdin": subprocess.DEVNULL, "stdout": subprocess.PIPE, "stderr": subprocess.STDOUT, **how}
        return subprocess.Popen(["bash", "-c", self.text(command)], cwd=f"{self.folder}/work", env=self.env, text=True, **how)

    def run(self, command):
        """The output of a command of the shell, with FOLDER, and its status."""
        process = self.begin(command)
        printed = process.communicate()[0].rstrip("\n")
        return printed.replace(self.folder, "FOLDER"), process.returncode

    def says(self, command, wanted="", status=0):
        wanted, (printed, ended) = named(wanted), self.run(command)
        if "waited for: " not in wanted:
            printed = "\n".join(line for line in printed.split("\n") if not WAITS.fullmatch(line))
        check(command, (printed, ended) == (wanted, status), (printed, ended, wanted, status))

    def up(self):
        self.says("wm up", STARTED)

    def pid(self, program, state="home/state"):
        with open(f"{self.folder}/{state}/watchmand/{program}.pid") as file:
            return int(file.read())

    def kill(self, program, how=signal.SIGKILL, is_awaited=False, state="home/state"):
        """Sends a signal, and waits for the end of the program if that is awaited."""
        pid = self.pid(program, state)
        os.kill(pid, how)
        if is_awaited:
            until(lambda: has_ended(pid))

    def write(self, name, text):
        """A program of the folder."""
        with open(f"{self.folder}/{name}", "w") as file:
            file.write(text)
        os.chmod(file.name, 0o755)

    def has(self, text, name):
        """Waits until a file has this text."""
        def look():
            with contextlib.suppress(OSError), open(f"{self.folder}/{name}") as file:
                return text in file.read()
        check(f"{name} has {text!r}", until(look))


@contextlib.contextmanager
def home(up=False):
    with folder() as place:
        made = Home(place)
        try:
            if up:
                made.up()
            yield made
        finally:
            made.run("wm down")


@contextlib.contextmanager
def listening(path, serve):
    """A socket at which `serve` is called with each connection, in a thread of its own, in place of a server."""
    listener = socket.socket(socket.AF_UNIX)
    listener.bind(path)
    listener.listen(5)

    def take():
        with contextlib.suppress(OSError):
            while True:
                threading.Thread(target=serve, args=(listener.accept()[0],), daemon=True).start()
    threading.Thread(target=take, daemon=True).start()
    try:
        yield
    finally:
        listener.shutdown(socket.SHUT_RDWR)
        listener.close()
