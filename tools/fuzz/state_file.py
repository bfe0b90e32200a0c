"""The meaning of a state file by docs/FORMATS.md, The state file, for the fuzzer's model (tools/fuzz/fuzz.py)."""
from history import Refused
from terms import LARGEST, is_expression
from values import NoJson, read
from watches import (MOST_BYTES, STDIN, begun, is_command, is_name, is_root_path, state_spelling, text_spelling,
                     trigger_spelling, with_trigger, with_watch, without_trigger, without_watch)

OPEN = 0xA5
HEADER_BYTES = 4096
JOURNAL_BYTES = 262144
RETIRED_GATE = 12


class Layout:
    """The places of the parts of a file of a version, one after the other."""

    def __init__(self, version):
        self.version, self.most_bytes = version, MOST_BYTES[version]
        self.header = b"WMSTATE" + version.to_bytes(4, "big")
        self.slot_bytes = 13 + self.most_bytes
        self.half_bytes = self.slot_bytes + JOURNAL_BYTES
        self.slots = (HEADER_BYTES, HEADER_BYTES + self.half_bytes)
        self.size = HEADER_BYTES + 2 * self.half_bytes


LAYOUTS = {version: Layout(version) for version in MOST_BYTES}


class Damaged(Exception):
    """The content means nothing (14)."""


class Spelled:
    """Bytes that are read from the front, each value by its encoding."""

    def __init__(self, content):
        self.content, self.at = content, 0

    def take(self, count):
        if self.at + count > len(self.content):
            raise Damaged
        self.at += count
        return self.content[self.at - count:self.at]

    def number(self, count):
        return int.from_bytes(self.take(count), "big")

    def one_of(self, count):
        number = self.number(1)
        if number >= count:
            raise Damaged
        return number

    def text(self, keeps):
        """A text within its rules."""
        try:
            text = self.take(self.number(4)).decode("utf-8", "strict")
        except UnicodeDecodeError:
            raise Damaged
        if not keeps(text):
            raise Damaged
        return text

    def items(self, take, most):
        count = self.number(4)
        if count > most:
            raise Damaged
        return [take() for _ in range(count)]

    def named(self, take, most):
        """A list of pairs, no two of one name, as a dict."""
        items = self.items(take, most)
        if len(dict(items)) < len(items):
            raise Damaged
        return dict(items)


def is_short(most):
    return lambda text: len(text.encode()) <= most


def take_most(spelled, version):
    """The number at a trigger's end, which isn't 0; version 1 has none."""
    if version == 1 or not spelled.one_of(2):
        return None
    most = spelled.number(4)
    if not most:
        raise Damaged
    return most


def take_trigger(spelled, version):
    name = spelled.text(is_name)
    words = spelled.items(lambda: spelled.text(is_short(1024)), 16)
    if not is_command(words):
        raise Damaged
    expression = spelled.text(is_short(4096)) if spelled.one_of(2) else None
    return name, (words, expression, bool(spelled.one_of(2)), STDIN[spelled.one_of(2)], take_most(spelled, version))


def take_root(spelled, version):
    path = spelled.text(is_root_path)
    number = spelled.number(8)
    return path, (number, spelled.named(lambda: take_trigger(spelled, version), 64))


def take_state(content, version):
    """The state that these bytes encode in a file of this version."""
    spelled = Spelled(content)
    incarnation, following = spelled.number(8), spelled.number(8)
    roots = spelled.named(lambda: take_root(spelled, version), 256)
    numbers = [number for number, _ in roots.values()]
    if not (1 <= following <= LARGEST and incarnation <= LARGEST and spelled.at == len(content) <= MOST_BYTES[version]):
        raise Damaged
    if len(set(numbers)) < len(numbers) or any(not 0 < number < following for number in numbers):
        raise Damaged
    return (incarnation, following, roots, version)


def after_record(spelled, state):
    """The state after the next record."""
    command = (begun, with_watch, without_watch, with_trigger, without_trigger)[spelled.one_of(5)]
    arguments = [] if command is begun else [spelled.text(is_root_path)]
    if command is with_trigger:
        arguments += take_trigger(spelled, state[3])
    if command is without_trigger:
        arguments.append(spelled.text(is_name))
    try:
        after = command(state, *arguments)
    except Refused:
        raise Damaged
    return after


def replayed(journal, state):
    """The state after the records before the first closed gate, and where that gate is. Each record changes something."""
    spelled = Spelled(journal)
    while spelled.take(1)[0] == OPEN:
        after = after_record(spelled, state)
        if after == state:
            raise Damaged
        state = after
    return state, spelled.at - 1


def order(state):
    """Roots and triggers in their order, which two dicts don't compare."""
    return [(path, list(triggers)) for path, (_, triggers) in state[2].items()]


def is_same(state, other):
    return state == other and order(state) == order(other)


def slot_of(content, place):
    """(number, place) of an open slot, or nothing."""
    return [(int.from_bytes(content[place + 1:place + 9], "big"), place)] if content[place] == OPEN else []


def layout_of(content):
    """The layout of the header's version, if the file is long enough for it."""
    for layout in LAYOUTS.values():
        if content[:1] == bytes([OPEN]) and content[1:12] == layout.header and len(content) >= layout.size:
            return layout
    raise Damaged


def meaning(content):
    """(state, place of the closed gate in its journal, number of its slot); Damaged, or Refused(20)."""
    layout = layout_of(content)
    if content[RETIRED_GATE] == OPEN:
        raise Refused(20)
    slots = sorted(slot_of(content, layout.slots[0]) + slot_of(content, layout.slots[1]))
    if not slots or len(slots) == 2 and slots[0][0] == slots[1][0]:
        raise Damaged
    number, place = slots[-1]
    length = int.from_bytes(content[place + 9:place + 13], "big")
    if length > layout.most_bytes:
        raise Damaged
    state = take_state(content[place + 13:place + 13 + length], layout.version)
    journal = content[place + layout.slot_bytes:place + layout.half_bytes]
    return (*replayed(journal, state), number)


def has_expressions(state):
    """Whether each text that a trigger keeps is an expression."""
    return all(kept[1] is None or is_text_of_one(kept[1]) for _, triggers in state[2].values() for kept in triggers.values())


def is_text_of_one(text):
    try:
        return is_expression(read(text))
    except NoJson:
        return False


def started(content):
    """(the refusal of a start or 0, the state of the file after it or None if the file isn't written)."""
    try:
        state, end, number = meaning(content)
        after = begun(state)
    except Damaged:
        return 14, None
    except Refused as refused:
        return refused.args[0], None
    if end + 2 > JOURNAL_BYTES - 1 and number >= LARGEST:
        return 15, None
    return (0 if has_expressions(state) else 14), after


def has_room(content, command):
    """Whether there is space for a command after a start: in the journal, or by a checkpoint, which raises the slot's number."""
    state, end, number = meaning(content)
    begun_at = end + 2
    return number < LARGEST or begun_at + 1 + len(record_bytes(command, state[3])) <= JOURNAL_BYTES - 1


def slot_bytes(number, state):
    """An open slot with a state."""
    body = state_spelling(state)
    return bytes([OPEN]) + number.to_bytes(8, "big") + len(body).to_bytes(4, "big") + body


def record_bytes(command, version):
    """The encoding of a command, which is a list: its tag and its parts. Version 1 leaves out a trigger's number of files."""
    if command[0] == 3:
        return b"\3" + text_spelling(command[1]) + trigger_spelling(version, *command[2:])
    return bytes([command[0]]) + b"".join(text_spelling(part) for part in command[1:3] if isinstance(part, str))
