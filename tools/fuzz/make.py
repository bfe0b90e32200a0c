"""Request lines by grammar, for tools/fuzz/fuzz.py: with few roots, paths and names, so that lines have some in common, and
with values at the limits.

A Maker takes roots, clocks and names from the model's session, only to make lines: it judges nothing."""
ROOTS = ["/r", "/s", "/r/a", "/\u00e9", "/q\"\\", "/\U0001f600/x", "/" + "x" * 1023]
BAD_ROOTS = ["/", "r", "/r/", "/a//b", "/..", "/./a", "/a\0", "", "/" + "x" * 1024, "//r", "/a/.."]
PATHS = ["a", "b", "a/b", "a/b/c", "a/b.c", "a.c", "a-x", "a0", "ab", "b/c.PHP", ".hid", "end.", "a/..c", "...", "a.\u00c9",
         "b/a.\u00e9", "A", "q\"\\\n\x01", "d\x7f", "\u00e9",
         "\uffff", "\U0001f600", "a/b/c/d.tar.gz", "x" * 1024, "c/" + "y" * 300]
BAD_PATHS = ["", "/a", "a/", "a//b", ".", "a/..", "..", "a\0b", "x" * 1025, "./a"]
NAMES = ["t", "u", "build", "\u00e9", "\0", "n" * 64, "t\n"]
BAD_NAMES = ["", "n" * 65, "\u00e9" * 33]
KINDS = ["f", "f", "f", "d", "l", "o"]
FIELDS = ["name", "exists", "new", "size", "type", "mtime_ms", "cclock", "oclock"]
PATTERNS = ["*", "**", "a*", "*.c", "a/*", "a/**", "**/c", "?", "a?c", "*b*c", "**/*.c", "a/**/c", "***", "a**", "", "/a",
            "]", "\u00e9", "?" * 2, "x*", "*" * 40 + "c",
            "x" * 1024, "*/" * 20 + "*"]
SUFFIXES = ["c", "C", "php", "gz", "tar.gz", "", "/c", "\u00e9", "PHP"]
NUMBERS = [0, 1, 2, 3, 4, 7, 2**31 - 1, 2**31, 2**53, 2**53 + 1, 2**63 - 1]
COMMANDS = ["watch", "watch-del", "watch-list", "trigger", "trigger-del", "trigger-list", "listing", "observe", "since",
            "query", "subscribe", "unsubscribe",
            "clock", "age-out", "version", "recrawl"]
WEIGHTS = [5, 1.5, 2, 4, 1.5, 1.5, 9, 20, 10, 16, 5, 1.5, 2, 2.5, 0.5, 0.5]


class Raw(str):
    """JSON text that is written as it is."""


BAD_NUMBERS = [Raw(text) for text in ("-1", "-0", "1.0", "0.0", "1e0", "1E2", "9223372036854775808", "18446744073709551615",
                                      "18446744073709551616",
                                      "-9223372036854775808", "-9223372036854775809", "1e308", "1e309", "1e-400", "01",
                                      "+1", ".5", "5.", "0x1", "NaN",
                                      "Infinity", "1" * 400, "1.7976931348623158e308", "1.7976931348623159e308",
                                      str(2**1024 - 2**970), str(2**1024 - 2**970 - 1), "5e-324",
                                      "1" * 308, "-1e309", "1E+2", "1e", "1e+", "1.e1", "- 1", "1_0", "00", "-01",
                                      "0." + "0" * 400 + "1", "1e99999999999999999999", "0e99999999999999999999", "-")]
BAD_VALUES = [None, True, False, "", "x", [], {}, [[]], {"a": 1}, -1, 0, Raw("1.5"), Raw("-0")]
# In place of a moment: numbers and texts of digits that are none.
BAD_MOMENTS = [-1, 2**63, Raw("1.5"), Raw("8.0"), "8", True] + BAD_NUMBERS


class Maker:
    """Makes the requests of one session, which keeps to a few of the roots, paths and names, mostly."""

    def __init__(self, rng, session):
        self.rng, self.session = rng, session
        self.roots, self.paths, self.names = (self.few(all_of) for all_of in (ROOTS, PATHS, NAMES))
        self.bad = rng.choice([0, 0, 0.01, 0.04, 0.04, 0.3])
        # The numbers of `since`, if they aren't to be those of lines.
        self.seconds = None

    def few(self, all_of):
        return self.rng.sample(all_of, min(len(all_of), self.rng.choice([1, 2, 3, 6, 30])))

    def some(self, good, bad, times=1):
        return self.rng.choice(bad if self.rng.random() < self.bad * times else good)

    def root(self):
        there = list(self.session.state[2])
        return self.rng.choice(there) if there and self.rng.random() < 0.93 else self.some(self.roots, BAD_ROOTS, 4)

    def path(self):
        return self.some(self.paths, BAD_PATHS, 0.3)

    def number(self):
        return self.some(NUMBERS, BAD_NUMBERS)

    def history(self, root):
        return self.session.histories.get(root)

    def metadata(self):
        made = {"mtime_ms": self.rng.choice([0, 1, 2, self.number()]), "size": self.rng.choice([0, 0, 1, 2, self.number()]),
                "type": self.rng.choice(KINDS)}
        if self.rng.random() < self.bad / 3:
            made[self.rng.choice(["type", "size", "mtime_ms", "mode"])] = self.rng.choice(BAD_VALUES)
        if self.rng.random() < self.bad / 5:
            made.pop(self.rng.choice(list(made)))
        return made

    def pairs(self, may_lack, top=""):
        count = self.rng.choice([0, 1, 1, 1, 2, 2, 3, 5, 8])
        paths = [self.path() for _ in range(count)]
        if top and self.rng.random() < 0.9:
            paths = [path if path.startswith(top + "/") else top + "/" + path for path in paths]
        if not may_lack and self.rng.random() > self.bad:
            paths = list(dict.fromkeys(paths))
        pairs = [[path, None if may_lack and self.rng.random() < 0.35 else self.metadata()] for path in paths]
        if self.rng.random() < self.bad / 2:
            pairs.append(self.rng.choice([[], ["a"], ["a", None, 1], ["a", self.rng.choice(BAD_VALUES)], [1, None], None, "a"]))
        return pairs

    def tick(self, root):
        """A tick of the root, or one near its floor or beyond."""
        history = self.history(root)
        now, floor = (history.tick(), history.floor) if history else (0, 0)
        near = [now, now, now - 1, now - 2, now - 3, floor, floor - 1, floor + 1, now + 1]
        return max(0, self.rng.choice(near + [self.rng.randint(0, now) for _ in range(9)]))

    def clock(self, root):
        history = self.history(root)
        incarnation, number = (history.incarnation, history.number) if history else (1, 1)
        if self.rng.random() < 0.05:
            incarnation, number = self.rng.choice([(incarnation + 1, number), (incarnation, number + 1), (1, number),
                                                   (2**63, number), (0, 1)])
        text = f"c:{incarnation}:{number}:{self.tick(root)}"
        return self.some([text], ["c:", "c", "c:1:1", text + "\n", text + ":", "c:0" + text[2:], "c:+" + text[2:],
                                  "c: 1:1:1", "C:1:1:1", "c:1:1:" + "9" * 30,
                                  "c:1:1:9223372036854775807", "c:1:1:9223372036854775808", "c:\u0661:1:1", ""])

    def moment(self, root):
        """The moment of a tick, the moment floor, or one next to them; sometimes one far from all."""
        history = self.history(root)
        floor, moments = (history.moment_floor, history.moments[1:]) if history else (None, [])
        near = floor if floor is not None and self.rng.random() < 0.4 else self.rng.choice(moments + [self.session.moment])
        near = max(0, near + self.rng.choice([-1, 0, 0, 1]))
        return self.some(self.seconds or [near] * 12 + [0, 2**63 - 1], BAD_MOMENTS)

    def since(self, root):
        chance = self.rng.random()
        if chance < 0.25:
            return "n:" + self.some(self.names, BAD_NAMES)
        if chance < 0.5:
            return self.moment(root)
        bad = BAD_VALUES + BAD_NUMBERS + ["n:", "x:1", "12", 5]
        return self.clock(root) if self.rng.random() > self.bad else self.rng.choice(bad)

    def name_term(self, word, texts):
        named = [self.rng.choice(texts) for _ in range(self.rng.randint(0, 3))]
        term = [word, self.rng.choice([self.rng.choice(texts), named])]
        return term + self.rng.choice([[], ["basename"], ["wholename"], ["wholename"]]) if word == "name" else term

    def leaf(self):
        kind = self.rng.randrange(9)
        if kind < 2:
            return self.rng.choice(["true", "false", "exists", "empty", ["true"], ["false"], ["exists"], ["empty"]])
        if kind == 2:
            return ["type", self.rng.choice(KINDS)]
        if kind == 3:
            return ["size", self.rng.choice(["eq", "ne", "gt", "ge", "lt", "le"]), self.number()]
        if kind < 6:
            return ["match", self.rng.choice(PATTERNS)] + self.rng.choice([[], ["basename"], ["wholename"], ["wholename"]])
        return self.name_term(*self.rng.choice([("name", PATHS + ["c", "b.c"]), ("suffix", SUFFIXES)]))

    def bad_term(self):
        return self.rng.choice([[], "x", "allof", ["true", 1], ["not"], ["not", "true", "true"], ["name"], ["name", 1],
                                ["name", [1]], ["name", "a", "x"], ["name", "a", "basename", 1],
                                ["suffix", "a", "basename"], ["suffix"], ["type", "x"], ["type", "fd"], ["type"],
                                ["size", "eq"], ["size", "is", 1], ["size", "eq", Raw("1.0")],
                                ["size", "eq", -1], ["match", "[a]"], ["match", "a\\b"], ["match", "x" * 1025],
                                ["match", ["a"]], ["pcre", "."], ["since", "c:1:1:1"], [["true"]], {}, 1, None,
                                ["match", "a", "wholename", {}], ["exists", "exists"], "True", ["allof", "x"], [1]])

    def expression(self, depth=3):
        if self.rng.random() < self.bad / 2:
            return self.bad_term()
        if depth == 0 or self.rng.random() < 0.4:
            return self.leaf()
        word = self.rng.choice(["not", "allof", "anyof"])
        count = 1 if word == "not" else self.rng.choice([0, 1, 2, 2, 3])
        return [word] + [self.expression(depth - 1) for _ in range(count)]

    def limit_expression(self):
        """31 to 33 levels, or 1,023 to 1,025 terms."""
        if self.rng.random() < 0.5:
            made = self.rng.choice(["true", "x", ["exists"]])
            for _ in range(self.rng.choice([30, 31, 32])):
                made = [self.rng.choice(["not", "allof", "anyof"]), made]
            return made
        return [self.rng.choice(["allof", "anyof"])] + [self.rng.choice(["true", "false"])] * self.rng.choice([1022, 1023, 1024])

    def object(self, root):
        made = {}
        if self.rng.random() < 0.6:
            made["since"] = self.since(root)
        if self.rng.random() < 0.6:
            made["expression"] = self.limit_expression() if self.rng.random() < 0.03 else self.expression()
        if self.rng.random() < 0.5:
            made["fields"] = self.rng.sample(FIELDS, self.rng.choice([1, 1, 2, 3, 8]))
        if self.rng.random() < 0.2:
            made["empty_on_fresh_instance"] = self.rng.random() < 0.7
        if self.rng.random() < 0.1:
            made["sync_timeout"] = self.number()
        if self.rng.random() < self.bad * 2:
            made[self.rng.choice(["since", "expression", "fields", "empty_on_fresh_instance", "sync_timeout",
                                  "glob"])] = self.rng.choice(BAD_VALUES)
        if self.rng.random() < self.bad:
            made["fields"] = self.rng.choice([[], ["name", "name"], ["mode"], [1], ["name", None], "name"])
        return made

    def definition(self):
        word = lambda: self.rng.choice(["true", "a b", "\u00e9", "w" * 1024])
        name, count = self.some(self.names, BAD_NAMES), self.rng.choice([1, 1, 2, 16])
        made = {"name": name, "command": [word() for _ in range(count)]}
        if self.rng.random() < 0.5:
            made["expression"] = self.limit_expression() if self.rng.random() < 0.05 else self.expression()
        if self.rng.random() < 0.4:
            made["append_files"] = self.rng.random() < 0.5
        if self.rng.random() < 0.4:
            made["stdin"] = self.rng.choice(["/dev/null", "NAME_PER_LINE", "/dev/null", self.some(["/dev/null"], ["x"], 5)])
        if self.rng.random() < 0.2:
            made["max_files_stdin"] = self.some([1, 1, 2, 3, 2**31, 2**32 - 1],
                                                [0, -1, 2**32, 2**63, None, "1", True] + BAD_NUMBERS, 5)
        if self.rng.random() < self.bad * 3:
            made[self.rng.choice(["name", "command", "append_files", "stdin", "chdir", "expression",
                                  "max_files_stdin"])] = self.rng.choice(
                BAD_VALUES + [[""], ["w" * 1025], ["a"] * 17, ["a", ""], ["a", 1], ["match", "m" * 1024],
                              ["anyof"] + [["match", "m" * 1000]] * 4,
                              ["anyof"] + [["match", "m" * 1000]] * 5, ["name", "n" * 4080], ["name", "n" * 4085],
                              ["name", "n" * 4086], ["name", "n" * 4087]])
        if self.rng.random() < 0.02:
            made.pop(self.rng.choice(list(made)))
        return made

    def arguments(self, command, root):
        if command in ("version", "watch-list"):
            return []
        if command == "trigger":
            return [root, self.definition()]
        if command in ("trigger-del", "unsubscribe"):
            return [root, self.some(self.names, BAD_NAMES)]
        if command == "observe":
            return [root, self.pairs(True)]
        if command == "listing":
            return self.listing(root)
        if command == "age-out":
            return [root, self.rng.choice([0, 0, 1, 2, 5, self.number()])]
        if command == "since":
            return [root, self.since(root)]
        if command in ("query", "subscribe"):
            return [root] + ([self.some(self.names, BAD_NAMES)] if command == "subscribe" else []) + [self.object(root)]
        return [root, self.path()] if command == "recrawl" and self.rng.random() < 0.5 else [root]

    def listing(self, root):
        history = self.history(root)
        if not (history and history.is_ready()) and self.rng.random() < 0.9:
            return [root, 0, "", self.pairs(False)]
        top = self.some(["", "", "a", "a/b", "b", "c", "\u00e9"], BAD_PATHS[1:])
        return [root, self.tick(root) if self.rng.random() > self.bad else self.number(), top, self.pairs(False, top)]

    def request(self):
        """A request as a JSON value; a root that isn't ready is soon listed."""
        waiting = [root for root, history in self.session.histories.items() if not history.is_ready()]
        if waiting and self.rng.random() < 0.3:
            return ["listing"] + self.listing(self.rng.choice(waiting))
        command = self.rng.choices(COMMANDS, WEIGHTS)[0]
        root = self.some(self.roots, BAD_ROOTS) if command == "watch" else self.root()
        made = [command] + self.arguments(command, root)
        if self.rng.random() < self.bad / 2:
            made[self.rng.randrange(len(made))] = self.rng.choice(BAD_VALUES)
        if self.rng.random() < self.bad / 2:
            made = made + [self.rng.choice(BAD_VALUES)] if self.rng.random() < 0.5 else made[:-1]
        return made
