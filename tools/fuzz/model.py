"""The replies of a session of `watchmand lines`, for the fuzzer: docs/FORMATS.md, Lines; wm_lines, specs/Lines.antt
(tools/fuzz/fuzz.py).

A Session is a registry, the history and the cursors of each root, and the subscriptions; `met` gives the bytes of
a line's replies."""
from history import History, Refused
from requests import COMMANDS, request_of
from values import read, written
from watches import EMPTY, begun, with_trigger, with_watch, without_trigger, without_watch, watched

NAMES = {1: "BadLine", 2: "BadCommand", 3: "BadArguments", 4: "BadPath", 5: "NotWatched", 6: "NotReady", 7: "BadClock",
         8: "BadExpression", 9: "BadField", 10: "BadTrigger", 11: "Full", 15: "Exhausted", 17: "TooMany", 21: "OldVersion"}


def line_of(reply):
    return (written({**reply, "version": "w1"}) + "\n").encode()


def refusal(number):
    return line_of({"error": f"{number} {NAMES[number]}"})


def rendered(answer, fields):
    """Each file as an object of its fields, or as its bare value if there is one field."""
    clock, fresh, files = answer
    of_file = lambda file: file[fields[0]] if len(fields) == 1 else {field: file[field] for field in fields}
    told = list(map(of_file, files))
    return {"clock": clock, "files": told, "is_fresh_instance": fresh}


def trigger_shown(name, definition):
    words, expression, append, stdin, most = definition
    shown = {"append_files": append, "command": words, "name": name, "stdin": stdin}
    shown |= {} if expression is None else {"expression": read(expression)}
    return shown if most is None else {**shown, "max_files_stdin": most}


class Subscription:
    def __init__(self, root, name, since, inquiry):
        self.root, self.name, self.since, self.is_first = root, name, since, True
        _, self.expression, self.fields, self.empty = inquiry

    def is_due(self, answer):
        """Whether an answer is sent: the first one, a fresh one, or one that lists a file."""
        return self.is_first or answer[1] or bool(answer[2])

    def told(self, answer):
        return line_of({**rendered(answer, self.fields), "root": self.root, "subscription": self.name, "unilateral": True})

    def line(self, history):
        """The line that is due, or none. The next one is asked since its clock."""
        answer = history.answer(self.since, self.expression, self.empty)
        if not self.is_due(answer):
            return b""
        self.since, self.is_first = (history.incarnation, history.number, history.tick()), False
        return self.told(answer)


class Session:
    def __init__(self, state=EMPTY):
        """A start is one more incarnation; no root is ready, and no cursor is left."""
        self.state = begun(state)
        self.histories = {path: History(self.state[0], number) for path, (number, _) in self.state[2].items()}
        self.cursors = {path: {} for path in self.histories}
        self.subscriptions, self.moment, self.commands = [], 0, COMMANDS

    def history(self, root):
        watched(self.state, root)
        return self.histories[root]

    def met(self, line):
        """The reply to a line, and after it the lines of subscriptions that are due, in the order of subscribing."""
        self.moment += 1
        try:
            command, arguments = request_of(line, self.commands)
            reply = line_of(getattr(self, command.replace("-", "_"))(*arguments))
        except Refused as refused:
            reply = refusal(refused.args[0])
        return reply + self.due()

    def due(self):
        return b"".join(told.line(self.histories[told.root]) for told in self.subscriptions)

    def version(self):
        return {}

    def watch_list(self):
        return {"roots": list(self.state[2])}

    def watch(self, root):
        number = self.state[1]
        self.state = with_watch(self.state, root)
        if self.state[1] > number:
            self.histories[root], self.cursors[root] = History(self.state[0], number), {}
        return {"watch": root}

    def watch_del(self, root):
        self.state = without_watch(self.state, root)
        del self.histories[root], self.cursors[root]
        self.subscriptions = [told for told in self.subscriptions if told.root != root]
        return {"root": root, "watch-del": True}

    def trigger(self, root, name, definition):
        old = watched(self.state, root)[1].get(name)
        self.state = with_trigger(self.state, root, name, definition)
        disposition = "created" if old is None else "already_defined" if old == definition else "replaced"
        return {"disposition": disposition, "triggerid": name}

    def trigger_list(self, root):
        return {"triggers": [trigger_shown(*trigger) for trigger in watched(self.state, root)[1].items()]}

    def trigger_del(self, root, name):
        deleted = name in watched(self.state, root)[1]
        self.state = without_trigger(self.state, root, name)
        return {"deleted": deleted, "trigger": name}

    def listing(self, root, begun_at, top, pairs):
        self.history(root).listing(self.moment, begun_at, top, pairs)
        return self.clock(root)

    def observe(self, root, pairs):
        self.history(root).observe(self.moment, pairs)
        return self.clock(root)

    def age_out(self, root, age):
        self.history(root).age_out(self.moment, age)
        return {"floor": self.histories[root].floor}

    def clock(self, root):
        history = self.history(root)
        history.needs_ready()
        return {"clock": history.clock()}

    def since(self, root, inquiry):
        return self.query(root, inquiry)

    def named(self, root, since):
        """The clock or the moment that a question begins at: for a cursor its clock, for an unknown one none."""
        if since is None or since[0] != "cursor":
            return since and since[1]
        return self.cursors[root].get(since[1])

    def query(self, root, inquiry):
        """A cursor moves to the answer's clock; a refused question moves none."""
        since, expression, fields, empty = inquiry
        history = self.history(root)
        history.needs_ready()
        cursors = self.cursors[root]
        if since and since[0] == "cursor" and since[1] not in cursors and len(cursors) >= 256:
            raise Refused(17)
        answer = history.answer(self.named(root, since), expression, empty)
        if since and since[0] == "cursor":
            cursors[since[1]] = (history.incarnation, history.number, history.tick())
        return rendered(answer, fields)

    def subscribe(self, root, name, inquiry):
        """A subscription of the same root and name is replaced, and is then the last."""
        history = self.history(root)
        history.needs_ready()
        others = [told for told in self.subscriptions if (told.root, told.name) != (root, name)]
        if len(others) >= 32:
            raise Refused(17)
        self.subscriptions = others + [Subscription(root, name, self.named(root, inquiry[0]), inquiry)]
        return {"clock": history.clock(), "subscribe": name}

    def unsubscribe(self, root, name):
        watched(self.state, root)
        others = [told for told in self.subscriptions if (told.root, told.name) != (root, name)]
        deleted = len(others) < len(self.subscriptions)
        self.subscriptions = others
        return {"deleted": deleted, "unsubscribe": name}


def lines_of(content):
    """The lines of an input, each with its newline; the last may lack it, and an empty rest is none."""
    parts = content.split(b"\n")
    return [part + b"\n" for part in parts[:-1]] + [part for part in parts[-1:] if part]
