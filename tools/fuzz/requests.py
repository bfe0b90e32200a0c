"""The meaning of a request line, for the fuzzer's model: docs/FORMATS.md, Lines, and the order of its table of
refusals (tools/fuzz/fuzz.py).

`request_of` returns the command and its arguments, or raises the first refusal from 1 to 10 that applies."""
import re
from history import Refused, is_below
from terms import LARGEST, is_expression, is_text, is_whole
from values import Float, NoJson, read_bytes, written
from watches import STDIN, is_command, is_name, is_path, is_root_path

# A line with its newline (docs/FORMATS.md, Lines).
LONGEST = 1048576
FIELDS = ("name", "exists", "new", "size", "type", "mtime_ms", "cclock", "oclock")
FIRST_FIELDS = ("name", "exists", "new", "size")
CLOCK = re.compile("c:([1-9][0-9]*):([1-9][0-9]*):([1-9][0-9]*)")
# The keys of a query's object, and of the metadata of a path.
KEYS = {"since", "expression", "fields", "empty_on_fresh_instance", "sync_timeout"}
METADATA = {"mtime_ms", "size", "type"}
TRIGGER_KEYS = {"name", "command", "expression", "append_files", "stdin", "max_files_stdin"}


class Faults:
    """The refusals that apply to a line of the right shape; of several the first in the table counts."""

    def __init__(self):
        self.found = set()

    def needs(self, holds, number):
        if not holds:
            self.found.add(number)

    def tell(self):
        for number in (3, 4, 7, 8, 9, 10):
            if number in self.found:
                raise Refused(number)


def needs(holds, number=3):
    if not holds:
        raise Refused(number)


def clock_of(text):
    """(incarnation, root number, tick) of a clock's text. Every other text with `c:` in front is a clock of
    another instance, of no root."""
    found = CLOCK.fullmatch(text)
    numbers = tuple(int(number) if len(number) <= 19 else LARGEST + 1 for number in found.groups()) if found else ()
    return numbers if numbers and max(numbers) <= LARGEST else (0, 0, 0)


def since_of(value, faults):
    """The start of a question: ("clock", numbers), ("cursor", name), or of a whole number from 0 to 2^63 - 1
    ("moment", number). Another number is refused 7, another kind of value 3."""
    is_number = isinstance(value, (int, Float)) and not isinstance(value, bool)
    faults.needs(is_text(value) or is_number, 3)
    if is_whole(value):
        return ("moment", value)
    if not is_text(value) or not value.startswith(("c:", "n:")):
        faults.needs(False, 7)
        return None
    if value.startswith("c:"):
        return ("clock", clock_of(value))
    faults.needs(is_name(value[2:]), 7)
    return ("cursor", value[2:])


def fields_of(value, faults):
    faults.needs(isinstance(value, list), 3)
    if isinstance(value, list):
        known = [field for field in value if is_text(field) and field in FIELDS]
        faults.needs(value and len(known) == len(value) == len(set(known)), 9)
    return tuple(value) if isinstance(value, list) and not faults.found else None


def inquiry_of(value, faults):
    """The object of a query: (since, expression, fields, whether fresh answers are empty)."""
    needs(isinstance(value, dict))
    faults.needs(set(value) <= KEYS, 3)
    faults.needs(isinstance(value.get("empty_on_fresh_instance", False), bool), 3)
    faults.needs(is_whole(value.get("sync_timeout", 0)), 3)
    faults.needs("expression" not in value or is_expression(value["expression"]), 8)
    since = since_of(value["since"], faults) if "since" in value else None
    fields = fields_of(value["fields"], faults) if "fields" in value else FIRST_FIELDS
    return (since, value.get("expression"), fields, value.get("empty_on_fresh_instance", False))


def is_metadata(value):
    return (isinstance(value, dict) and set(value) == METADATA and is_whole(value["mtime_ms"]) and is_whole(value["size"])
            and is_text(value["type"]) and value["type"] in ("f", "d", "l", "o"))


def is_pair(value, may_lack):
    is_two = isinstance(value, list) and len(value) == 2 and is_text(value[0])
    return is_two and (is_metadata(value[1]) or may_lack and value[1] is None)


def pairs_of(value, may_lack):
    needs(isinstance(value, list) and all(is_pair(pair, may_lack) for pair in value))
    return [(path, found and (found["type"], found["size"], found["mtime_ms"])) for path, found in value]


def observe_of(arguments, faults):
    pairs = pairs_of(arguments[0], True)
    faults.needs(all(is_path(path) for path, _ in pairs), 4)
    return (pairs,)


def listing_of(arguments, faults):
    """A path that is listed twice is 3, even if it is no path; one that isn't below the subtree is 4."""
    begun_at, top, pairs = arguments
    needs(is_whole(begun_at) and is_text(top))
    pairs = pairs_of(pairs, False)
    faults.needs(len({path for path, _ in pairs}) == len(pairs), 3)
    faults.needs(top == "" or is_path(top), 4)
    faults.needs(all(is_path(path) and is_below(path, top) for path, _ in pairs), 4)
    return (begun_at, top, pairs)


def age_out_of(arguments, faults):
    needs(is_whole(arguments[0]))
    return (arguments[0],)


def since_command_of(arguments, faults):
    return ((since_of(arguments[0], faults), None, FIRST_FIELDS, False),)


def query_of(arguments, faults):
    return (inquiry_of(arguments[0], faults),)


def subscribe_of(arguments, faults):
    needs(is_text(arguments[0]) and is_name(arguments[0]))
    return (arguments[0], inquiry_of(arguments[1], faults))


def unsubscribe_of(arguments, faults):
    needs(is_text(arguments[0]) and is_name(arguments[0]))
    return (arguments[0],)


def trigger_of(arguments, faults):
    """A bad expression is 8 before a fault in another key is 10. The expression is kept as compact text."""
    value = arguments[0]
    needs(isinstance(value, dict))
    name, words, stdin = value.get("name"), value.get("command"), value.get("stdin", STDIN[0])
    is_good = "expression" not in value or is_expression(value["expression"])
    faults.needs(is_good, 8)
    expression = written(value["expression"]) if "expression" in value and is_good else None
    faults.needs(set(value) <= TRIGGER_KEYS, 10)
    faults.needs(is_text(name) and is_name(name), 10)
    faults.needs(isinstance(words, list) and all(map(is_text, words)) and is_command(words), 10)
    faults.needs(isinstance(value.get("append_files", False), bool), 10)
    faults.needs(is_text(stdin) and stdin in STDIN, 10)
    most = value.get("max_files_stdin", 1)
    faults.needs(is_whole(most) and 1 <= most < 2**32, 10)
    faults.needs(expression is None or len(expression.encode()) <= 4096, 10)
    return (name, (words, expression, value.get("append_files", False), stdin, value.get("max_files_stdin")))


def trigger_del_of(arguments, faults):
    needs(is_text(arguments[0]))
    faults.needs(is_name(arguments[0]), 10)
    return (arguments[0],)


def nothing_of(arguments, faults):
    return ()


def recrawl_of(arguments, faults):
    needs(all(map(is_text, arguments)))
    faults.needs(all(top == "" or is_path(top) for top in arguments), 4)
    return (arguments[0] if arguments else "",)


# For each command the numbers of arguments that it takes, and the function that reads those after the root's path.
COMMANDS = {"version": ((0,), None), "watch-list": ((0,), None), "watch": ((1,), nothing_of), "watch-del": ((1,), nothing_of),
            "trigger": ((2,), trigger_of), "trigger-list": ((1,), nothing_of), "trigger-del": ((2,), trigger_del_of),
            "listing": ((4,), listing_of), "observe": ((2,), observe_of), "age-out": ((2,), age_out_of),
            "clock": ((1,), nothing_of),
            "since": ((2,), since_command_of), "query": ((2,), query_of), "subscribe": ((3,), subscribe_of),
            "unsubscribe": ((2,), unsubscribe_of)}
# Only a server knows `recrawl`.
SERVED = {**COMMANDS, "recrawl": ((1, 2), recrawl_of)}


def request_of(line, commands=COMMANDS):
    """The request of a line with its newline."""
    try:
        needs(len(line) <= LONGEST and line.endswith(b"\n"), 1)
        value = read_bytes(line)
    except NoJson:
        raise Refused(1)
    needs(isinstance(value, list) and value and is_text(value[0]) and value[0] in commands, 2)
    counts, reader = commands[value[0]]
    needs(len(value) - 1 in counts)
    if reader is None:
        return value[0], ()
    needs(is_text(value[1]))
    faults = Faults()
    faults.needs(is_root_path(value[1]), 4)
    arguments = reader(value[2:], faults)
    faults.tell()
    return value[0], (value[1], *arguments)
