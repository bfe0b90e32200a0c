"""Shared by the benches: a client of a socket, a process of `watchmand lines`, and the end of a bench that got a
wrong answer. It also puts tools/lib on the path."""
import contextlib, json, os, pathlib, subprocess, sys, tempfile, time

sys.dont_write_bytecode = True
sys.path.insert(0, str(pathlib.Path(__file__).resolve().parent.parent / "tools/lib"))
from server import Client


def ensure(holds, what):
    """Ends the bench with status 1 if it doesn't hold."""
    if not holds:
        sys.exit(f"no figure: {what}"[:500])


class Asker(Client):
    """A client that reads long replies in large parts."""

    def __init__(self, path):
        super().__init__(path, 600)
        self.lines.close()
        self.lines = self.socket.makefile("rb", 1 << 20)

    def asked(self, *request):
        return self.reply(request)


class Lines:
    """A process of `watchmand lines` over a new state file in the folder. The moment of a line is its number."""

    def __init__(self, program, folder):
        subprocess.run([program, "format", f"{folder}/state"], check=True, stdout=subprocess.DEVNULL)
        pipes = {"stdin": subprocess.PIPE, "stdout": subprocess.PIPE}
        self.process = subprocess.Popen([program, "lines", f"{folder}/state"], bufsize=0, **pipes)
        self.moment = 0

    def send(self, text):
        while text:
            text = text[os.write(self.process.stdin.fileno(), text):]

    def timed(self, *request):
        """The seconds from the write of a request to the end of its reply, which must be no refusal, and the reply."""
        line, parts = json.dumps(request).encode() + b"\n", []
        self.moment += 1
        reads, begun = self.process.stdout.fileno(), time.perf_counter()
        self.send(line)
        while not parts or parts[-1][-1:] != b"\n":
            parts.append(os.read(reads, 1 << 20))
            ensure(parts[-1], f"{request[0]} ended the program")
        took, reply = time.perf_counter() - begun, json.loads(b"".join(parts))
        ensure("error" not in reply, f"{request[0]} was answered {reply}")
        return took, reply

    def ask(self, *request):
        return self.timed(*request)[1]

    def memory(self, field):
        """The process's memory by /proc/PID/status (VmRSS, VmHWM), in bytes."""
        with open(f"/proc/{self.process.pid}/status") as told:
            return next(1024 * int(line.split()[1]) for line in told if line.startswith(field))

    def waited(self):
        """The seconds for which the process was ready to run and had no processor: on a quiet machine almost none."""
        with open(f"/proc/{self.process.pid}/schedstat") as told:
            return int(told.read().split()[1]) / 1e9


@contextlib.contextmanager
def lines(program):
    """Such a process over a folder of its own."""
    with tempfile.TemporaryDirectory(prefix="watchmand-") as folder:
        it = Lines(program, folder)
        try:
            yield it
        finally:
            it.process.kill()
            it.process.communicate()
