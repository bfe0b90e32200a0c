"""State files that `watchmand lines` opens, for tools/fuzz/fuzz.py: sessions leave them, or they are made here; then they are
damaged. Half of those of version 1 are migrated instead.

The meaning of a file is computed here by docs/FORMATS.md: the refusal of a start, or the registry, which the file also has
afterwards; for a migration the meaning of the new file."""
import os, random, subprocess
import lines as line_runs, state_file
from registry import migrate
from state_file import JOURNAL_BYTES, LAYOUTS, OPEN, RETIRED_GATE
from terms import LARGEST
from values import written
from watches import EMPTY, begun, empty, with_trigger, with_watch, without_trigger, without_watch

# The replies to the last two lines of `asked`: to an accepted watch, and if the file is full.
WATCHED = b'{"version":"w1","watch":"/new"}\n'
NO_ROOM = b'{"error":"15 Exhausted","version":"w1"}\n{"error":"5 NotWatched","version":"w1"}\n'
REFUSALS = {14: "14 Damaged", 15: "15 Exhausted", 20: "20 Retired"}
MIGRATIONS = {13: "13 DeviceFailed", 14: "14 Damaged"}
CHANGES = {0: begun, 1: with_watch, 2: without_watch, 3: with_trigger, 4: without_trigger}
# Texts of triggers in a file: expressions that are encoded otherwise than by a line, and texts that are no expressions.
TEXTS = ["true", '"true"', '["true"]', ' [ "suffix" , "c" ] ', '["name","\\u0061"]', "[", "", '["match","["]', '"\\ud800"',
         '["size","eq",1.0]', '["not",' * 31 + '"true"' + "]" * 31,
         '["not",' * 32 + '"true"' + "]" * 32, '{"a":1}', '["name","' + "n" * 4085 + '"]', '["name","' + "n" * 4086 + '"]',
         '["size","eq",9223372036854775808]', "[" * 128 + "]" * 128]


def some_path(rng):
    return rng.choice(["/r", "/s", "/t", "/\u00e9", "/" + "p" * 1023, "/r%d" % rng.randrange(300)]
                      + ["/", "r", "/a//b", "/a\0", "/" + "p" * 1024, ""] * (rng.random() < 0.02))


def some_name(rng):
    return rng.choice(["t", "u", "n" * 64, "\0"] + ["", "n" * 65] * (rng.random() < 0.02))


def some_trigger(rng):
    words = [rng.choice(["a", "", "w" * 1024]) for _ in range(rng.choice([1, 2, 16]))]
    words[0] = words[0] or "a"
    if rng.random() < 0.02:
        words = rng.choice([[], [""], ["a"] * 17, ["w" * 1025]])
    text = rng.choice(TEXTS[1:5]) if rng.random() < 0.8 else rng.choice(TEXTS)
    most = rng.choice([1, 2, 7, 2**31, 2**32 - 1] + [0] * (rng.random() < 0.05)) if rng.random() < 0.3 else None
    return words, text if rng.random() < 0.4 else None, rng.random() < 0.5, rng.choice(state_file.STDIN), most


def command_by(rng):
    """A command as a list: its tag and its parts."""
    tag = rng.choice([0, 1, 1, 1, 2, 3, 3, 4])
    of_root, of_trigger = [some_path(rng)] if tag else [], [some_name(rng)] if tag > 2 else []
    return [tag] + of_root + of_trigger + ([some_trigger(rng)] if tag == 3 else [])


def after(state, command):
    """The state after a command, or None if it isn't accepted."""
    try:
        changed = CHANGES[command[0]](state, *command[1:])
    except state_file.Refused:
        return None
    return None if changed == state else changed


def commands_by(rng, state, count, keeps=0.97):
    """Commands, mostly such that change something, and the state after them."""
    made = []
    for _ in range(count):
        command = command_by(rng)
        changed = after(state, command)
        if changed or rng.random() > keeps:
            made.append(command)
        state = changed or state
    return made, state


def journal_of(commands, version, rng):
    """Records after open gates, a closed gate of any other value, and bytes that aren't read."""
    records = b"".join(bytes([OPEN]) + state_file.record_bytes(command, version) for command in commands)
    return records + bytes([rng.choice([0, 0, 0, 1, 0xA4, 0xFF])]) + rng.choice([b"", b"\xa5\x00\xa5", rng.randbytes(30)])


def full_journal(missing):
    """Records that end so many bytes before the journal does: watch and watch-del again and again, and one longer path."""
    pair = [[1, "/" + "p" * 499], [2, "/" + "p" * 499]]
    size = sum(1 + len(state_file.record_bytes(command, 2)) for command in pair)
    left = JOURNAL_BYTES - 1 - missing
    commands = pair * (left // size - 1)
    left -= (left // size - 1) * size
    while left > 0:
        taken = left if left < 1000 else 500
        commands = commands + ([[1, "/" + "q" * (taken - 7)]] if taken > 7 else [[0]] * (taken // 2))
        left = left - taken if taken > 7 else 0
    return commands


def number_by(rng):
    return rng.choice([1, 2, 3, 7, 2**31, LARGEST - 1, LARGEST, 2**63, 2**64 - 1]) if rng.random() < 0.3 else rng.randint(1, 4)


def first_state(rng, version):
    """A state that commands lead to; sometimes its counters are near their ends."""
    _, (incarnation, following, roots, _) = commands_by(rng, empty(version), rng.choice([0, 1, 5, 20]))
    if rng.random() < 0.15:
        incarnation = rng.choice([LARGEST - 2, LARGEST - 1, LARGEST])
    if rng.random() < 0.1:
        following = rng.choice([LARGEST - 1, LARGEST])
    return (incarnation, following, roots, version)


def slot_and_journal(rng, layout):
    """An open slot with a state, and its journal, which is sometimes full to the last bytes. A few states are encoded in the
    other version."""
    state = first_state(rng, layout.version if rng.random() < 0.97 else 3 - layout.version)
    full = rng.random() < 0.08
    commands = full_journal(rng.choice([0, 1, 2, 3, 4])) if full else commands_by(rng, state, rng.choice([0, 1, 3, 10]))[0]
    slot = state_file.slot_bytes(number_by(rng), state)
    return slot.ljust(layout.slot_bytes, b"\0") + journal_of(commands, state[3], rng)[:JOURNAL_BYTES].ljust(JOURNAL_BYTES, b"\0")


def built(rng):
    """A file made by hand, mostly of version 2: one slot in use, or two, with journals."""
    layout = LAYOUTS[line_runs.version_by(rng)]
    content = bytearray(layout.size)
    content[0:12] = bytes([OPEN]) + layout.header
    content[RETIRED_GATE] = rng.choice([0, 0, 0, 0, 0, 0, 1, 0xFF, 0xA4, OPEN])
    places = rng.choice([layout.slots[:1], layout.slots[1:], layout.slots, layout.slots])
    for place in places:
        content[place:place + layout.half_bytes] = slot_and_journal(rng, layout)
    return bytes(content)


def layout_near(content):
    """The layout of a file that may be damaged already."""
    return LAYOUTS[1 if content[11:12] == b"\1" or len(content) <= LAYOUTS[1].size else 2]


def used_places(content):
    """Places that matter: the header, and the beginnings of used slots and journals."""
    places, layout = list(range(16)), layout_near(content)
    for place in layout.slots:
        length = min(int.from_bytes(content[place + 9:place + 13], "big"), layout.slot_bytes)
        places += [place + at for at in range(min(13 + length, 400))]
        journal = place + layout.slot_bytes
        end = len(content[journal:journal + JOURNAL_BYTES].rstrip(b"\0"))
        places += [journal + at for at in range(min(end + 3, 400))] + [journal + end, journal + JOURNAL_BYTES - 1]
    return [place for place in places if place < len(content)]


def spoilt_once(content, rng):
    """A flipped bit, another byte, a cut, a tail, a gate, swapped parts, a number at its end, or bytes put in or taken out."""
    kind, made, layout = rng.randrange(11), bytearray(content), layout_near(content)
    at = rng.choice(used_places(content) or [0])
    if not made:
        return content
    if kind < 3:
        made[at] ^= 1 << rng.randrange(8)
    elif kind == 3:
        made[at] = rng.choice([0, OPEN, 0xFF, 1, rng.randrange(256)])
    elif kind == 4:
        made = made[:rng.choice([layout.size - 1, layout.size, LAYOUTS[1].size, at, rng.randrange(layout.size), 0])]
    elif kind == 5:
        made += rng.randbytes(rng.choice([1, 1000]))
    elif kind == 6:
        gate = rng.choice([*layout.slots, *(place + layout.slot_bytes for place in layout.slots), 0, RETIRED_GATE])
        made[gate:gate + 1] = bytes([rng.choice([OPEN, 0, 0xA4])])
    elif kind == 7:
        made = spliced(made, layout, rng)
    elif kind == 8:
        made[at:at + 8] = rng.choice([b"\0" * 8, b"\xff" * 8, b"\x7f" + b"\xff" * 7, b"\0" * 7 + b"\1", rng.randbytes(8)])
    elif kind == 9:
        made = moved(made, at, rng)
    else:
        made[11:12] = bytes([rng.choice([0, 1, 2, 3])])
    return bytes(made)


def spliced(made, layout, rng):
    """Slots swapped, journals swapped, or one of two copied over the other."""
    size, offset = rng.choice([(layout.slot_bytes, 0), (JOURNAL_BYTES, layout.slot_bytes), (layout.half_bytes, 0)])
    a, b = (slice(place + offset, place + offset + size) for place in layout.slots)
    first, second = bytes(made[a]), bytes(made[b])
    if len(first) == len(second) == size:
        made[b] = first
        made[a] = second if rng.random() < 0.5 else first
    return made


def moved(made, at, rng):
    """Bytes put in, or taken out; the bytes after the next 1,000 stay."""
    count, end = rng.choice([1, 1, 2, 5, 9]), min(len(made), at + 1000)
    if rng.random() < 0.5:
        made[at:end] = (rng.randbytes(count) + made[at:end])[:end - at]
    else:
        made[at:end] = (made[at + count:end] + b"\0" * count)[:end - at]
    return made


def run_by(rng):
    """One case: the sessions that leave the file, none if it is made here, and the seed of its damage."""
    sessions = [] if rng.random() < 0.5 else line_runs.run_by(rng)[:2]
    return [(sessions, rng.randrange(2**62))]


def left_by(program, path, sessions):
    """The content of a new file after some sessions."""
    line_runs.make(program, path, line_runs.version_of(sessions))
    for lines, _ in sessions:
        subprocess.run([program, "lines", path], input=b"".join(lines), stdout=subprocess.DEVNULL, timeout=line_runs.SECONDS)
    with open(path, "rb") as file:
        return file.read()


def content_of(program, folder, case):
    """The content of a case's file. The program leaves the file of sessions: so the damage has a seed of its own."""
    sessions, seed = case
    rng = random.Random(seed)
    content = left_by(program, os.path.join(folder, "made"), sessions) if sessions else built(rng)
    for _ in range(rng.choice([0, 1, 1, 1, 2, 3])):
        content = spoilt_once(content, rng)
    return content


def asked(state):
    """Lines whose replies show all of a registry: roots, triggers, and in the first clocks the numbers of roots."""
    requests = [["watch-list"]] + [request for root in state[2]
                                   for request in (["trigger-list", root], ["listing", root, 0, "", []])]
    return [(written(request) + "\n").encode() for request in requests + [["watch", "/new"], ["listing", "/new", 0, "", []]]]


def served(program, path):
    """The end of a server over a file that it refuses."""
    return subprocess.run([program, "serve", path, path + ".socket"], capture_output=True, timeout=line_runs.SECONDS)


def in_lines(program, path, lines):
    words = [program, "lines", path]
    return subprocess.run(words, input=b"".join(lines), capture_output=True, timeout=line_runs.SECONDS)


def refused(number, content, after_start, seen, left):
    told = f"watchmand: {REFUSALS[number]}\n".encode()
    if (seen.returncode, seen.stdout, seen.stderr) != (1, b"", told):
        ended = f"{seen.returncode} {seen.stdout[:300]!r} {seen.stderr[:300]!r}"
        raise line_runs.Difference(f"expected {told!r} and status 1, seen {ended}")
    if after_start is None and left != content:
        raise line_runs.Difference("a refused start wrote to the file")
    if after_start is not None and not state_file.is_same(state_file.meaning(left)[0], after_start):
        raise line_runs.Difference("a start that was refused for an expression left another registry than with its Begin")


def opened(program, path, content):
    """Opens a file, and compares the output and the file afterwards."""
    number, state = state_file.started(content)
    with open(path, "wb") as file:
        file.write(content)
    before = None if state is None else (state[0] - 1, *state[1:])
    lines = asked(state) if state is not None else asked(EMPTY)
    is_served = number and len(content) % 3 == 0
    seen = served(program, path) if is_served else in_lines(program, path, lines)
    with open(path, "rb") as file:
        left = file.read()
    if number:
        return refused(number, content, state, seen, left)
    wanted, _, states = line_runs.expected(b"".join(lines), before)
    if wanted.count(WATCHED) == 1 and not state_file.has_room(content, [1, "/new"]):
        wanted, _, states = line_runs.expected(b"".join(lines[:-2]), before)
        wanted += NO_ROOM
    if (seen.returncode, seen.stdout, seen.stderr) != (0, wanted, b""):
        raise line_runs.Difference(line_runs.place(seen.stdout, wanted) + f"; status {seen.returncode} {seen.stderr[:300]!r}")
    size = LAYOUTS[state[3]].size
    if not state_file.is_same(state_file.meaning(left)[0], states[-1]) or left[size:] != content[size:]:
        raise line_runs.Difference("the file doesn't mean the registry afterwards")


def to_move(content):
    """The refusal of a migration of this file, or 0, and the state that it moves."""
    try:
        layout = state_file.layout_of(content)
        state = state_file.meaning(content)[0] if layout.version == 1 else None
    except state_file.Damaged:
        return 14, None
    except state_file.Refused:
        # with a retired file there must be a new one
        return (13 if layout.version == 1 else 14), None
    return (0 if state else 14), state


def is_for_migration(case, content):
    """Half of the files of version 1, and a few others."""
    return random.Random(case[1] + 1).random() < (0.5 if layout_near(content).version == 1 else 0.02)


def read_if_there(path):
    try:
        with open(path, "rb") as file:
            return file.read()
    except FileNotFoundError:
        return None


def migrated(program, folder, content):
    """Migrates a file to a new path, and compares the output and both files afterwards."""
    old, new = os.path.join(folder, "old"), os.path.join(folder, "new")
    with open(old, "wb") as file:
        file.write(content)
    if os.path.exists(new):
        os.remove(new)
    number, state = to_move(content)
    seen = migrate(program, old, new, timeout=line_runs.SECONDS)
    wanted = (1, "", f"watchmand: {MIGRATIONS[number]}\n") if number else (0, "migrated\n", "")
    if (seen.returncode, seen.stdout, seen.stderr) != wanted:
        raise line_runs.Difference(f"a migration: expected {wanted!r}, seen {seen!r}")
    left, moved = read_if_there(old), read_if_there(new)
    if number and (left != content or moved is not None):
        raise line_runs.Difference("a refused migration wrote to the old file, or made the new one")
    if not number and left != content[:RETIRED_GATE] + bytes([OPEN]) + content[RETIRED_GATE + 1:]:
        raise line_runs.Difference("a migration did more to the old file than to retire it")
    if not number and (len(moved) != LAYOUTS[2].size or not is_moved(state_file.meaning(moved), state)):
        raise line_runs.Difference("the new file doesn't mean the registry of the old one")


def is_moved(meaning, state):
    """Whether the registry is in a slot with number 1, with no record after it."""
    found, end, number = meaning
    return (end, number) == (0, 1) and state_file.is_same(found, (*state[:3], 2))


def difference(program, folder, cases):
    for case in cases:
        content = content_of(program, folder, case)
        try:
            if is_for_migration(case, content):
                migrated(program, folder, content)
                continue
            opened(program, os.path.join(folder, "spoilt"), content)
        except line_runs.Difference as problem:
            return str(problem)
    return None


def shown(cases):
    made = "-- a file by hand or after sessions, spoilt by"
    return "".join(f"{made} {seed}\n" + line_runs.shown(sessions) for sessions, seed in cases)


def counts(cases):
    return {"files": len(cases)}
