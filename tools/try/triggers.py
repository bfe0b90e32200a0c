"""Triggers that are deleted, replaced and created anew while another one runs."""
import contextlib, os, time

from server import FILE, check, programs, until, watched


class Triggers:
    """The triggers of a root: each writes a line when it starts, and `slow` then goes on until `release`."""

    def __init__(self, folder, top, client):
        self.folder, self.top, self.client = folder, top, client

    def path(self, name):
        return f"{self.folder}/{name}.runs"

    def define(self, name, writes=None):
        does = f"echo >> {self.path(writes or name)}"
        if name == "slow":
            does += f"; while [ ! -e {self.folder}/go ]; do sleep 0.02; done; echo >> {self.path('slow')}"
        return self.client.reply(["trigger", self.top,
                                  {"name": name, "command": ["sh", "-c", does], "expression": ["suffix", "go"]}])

    def delete(self, name):
        return self.client.reply(["trigger-del", self.top, name])

    def change(self, name):
        self.client.ask(["observe", self.top, [[name, FILE]]])

    def release(self):
        open(self.folder + "/go", "w").close()
        return self.ran("slow", 2)

    def runs(self, *names):
        """How many runs of each there were."""
        return [os.path.getsize(self.path(name)) if os.path.exists(self.path(name)) else 0 for name in names]

    def ran(self, name, count=1):
        return until(lambda: self.runs(name)[0] >= count, 10)


@contextlib.contextmanager
def triggers():
    with watched(programs.watchmand) as (s, top, a, _):
        yield Triggers(s.folder, top, a)


@contextlib.contextmanager
def due(*names):
    """These triggers, each of which is due, while `slow`, which comes before them, runs."""
    with triggers() as made:
        for name in ("slow", *names):
            made.define(name)
        made.change("x.go")
        made.ran("slow")
        yield made


def deleted_trigger_isnt_started():
    with due("b", "last") as made:
        told = made.delete("b")
        ran = made.release() and made.ran("last")
        check("one that was deleted while another ran isn't started",
              ran and told["deleted"] and made.runs("b", "last") == [0, 1], (told, made.runs("slow", "b", "last")))
    with due("b", "last") as made:
        told = made.define("b", "other")
        ran = made.release() and made.ran("last") and made.ran("other")
        check("nor the old definition of one that was replaced; the new one is",
              ran and told["disposition"] == "replaced" and made.runs("b", "other", "last") == [0, 1, 1],
              (told, made.runs("slow", "b", "other", "last")))
    with due("b", "last") as made:
        told = made.client.reply(["watch-del", made.top])
        ran = made.release()
        time.sleep(0.5)
        check("nor any of a root that isn't watched any longer", ran and told["watch-del"] and made.runs("b", "last") == [0, 0],
              (told, made.runs("slow", "b", "last")))


@contextlib.contextmanager
def run_once():
    """A trigger `b` that had its first run, while `slow` runs."""
    with triggers() as made:
        made.change("x.go")
        made.define("b")
        made.ran("b")
        made.define("slow")
        made.ran("slow")
        yield made


def recreated_trigger_has_its_first_run():
    with run_once() as made:
        told = made.delete("b"), made.define("b")
        ran = made.release() and made.ran("b", 2)
        check("one that was deleted, and created by the same words while another ran",
              ran and told[1]["disposition"] == "created", (told, made.runs("slow", "b")))
        before, told = made.runs("b")[0], (made.delete("b"), made.define("b"))
        check("and while no other did", made.ran("b", before + 1) and told[1]["disposition"] == "created",
              (told, before, made.runs("b")))
        before, told = made.runs("b")[0], made.define("b")
        made.change("y.go")
        made.ran("b", before + 1)
        time.sleep(0.2)
        check("one that is already defined goes on", told["disposition"] == "already_defined" and made.runs("b") == [before + 1],
              (told, before, made.runs("b")))


def replaced_and_back():
    with run_once() as made:
        told = [made.define("b", "other")["disposition"], made.define("b")["disposition"]]
        ran = made.release() and made.ran("b", 2)
        check("one that was replaced, and replaced by its first words while another ran, runs anew",
              ran and told == ["replaced"] * 2, (told, made.runs("slow", "b", "other")))
        check("and what stood there between doesn't run", made.runs("other") == [0], made.runs("other"))
    with run_once() as made:
        made.release()
        told = made.define("b", "other")["disposition"]
        ran = made.ran("other") and made.define("b") and made.ran("b", 2)
        check("while no other ran, each runs", ran and told == "replaced", (told, made.runs("b", "other")))


def first_names_are_read():
    with triggers() as made:
        for name, more in (("first", {"max_files_stdin": 1}), ("all", {})):
            out = made.path(name)
            words = ["sh", "-c", f"cat > {out}.part && mv {out}.part {out}"]
            made.client.reply(["trigger", made.top,
                               {"name": name, "command": words, "expression": ["suffix", "c"], "stdin": "NAME_PER_LINE", **more}])
        made.client.ask(["observe", made.top, [["y.c", FILE], ["x.c", FILE]]])
        read = [open(made.path(name)).read() for name in ("first", "all") if made.ran(name)]
        check("a program reads as many names as its trigger says, the first of the answer, or all",
              read == ["x.c\n", "x.c\ny.c\n"], read)


CASES = [deleted_trigger_isnt_started, recreated_trigger_has_its_first_run, replaced_and_back, first_names_are_read]
