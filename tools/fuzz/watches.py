"""The registry of a state file, for the fuzzer's model: wm_registry, specs/Registry.antt; docs/FORMATS.md, Encodings.

A state is a plain value: (incarnation, next root number, roots, version of its file), roots a dict from path to
(number, triggers), in order of watching; triggers a dict from name to (words, expression's text or None,
append_files, stdin, most files or None), in order of first definition."""
from history import Refused
from terms import LARGEST

# The most bytes of a state, by the version of its file.
MOST_BYTES = {1: 1048563, 2: 4194291}
STDIN = ("/dev/null", "NAME_PER_LINE")


def empty(version):
    """The state of a new file."""
    return (0, 1, {}, version)


EMPTY = empty(2)


def is_path(text, most=1024):
    """Components that aren't empty, `.` or `..`, without a zero byte, at most 1,024 bytes together."""
    parts = text.split("/")
    return 0 < len(text.encode()) <= most and "\0" not in text and not any(part in ("", ".", "..") for part in parts)


def is_root_path(text):
    return text[:1] == "/" and len(text.encode()) <= 1024 and is_path(text[1:])


def is_name(text):
    return 1 <= len(text.encode()) <= 64


def is_command(words):
    return 1 <= len(words) <= 16 and words[0] != "" and all(len(word.encode()) <= 1024 for word in words)


def text_spelling(text):
    content = text.encode()
    return len(content).to_bytes(4, "big") + content


def list_spelling(parts):
    return len(parts).to_bytes(4, "big") + b"".join(parts)


def ending_spelling(version, most):
    """The number at a trigger's end: version 1 has none."""
    return b"" if version == 1 else b"\0" if most is None else b"\1" + most.to_bytes(4, "big")


def trigger_spelling(version, name, definition):
    words, expression, append, stdin, most = definition
    kept = b"\0" if expression is None else b"\1" + text_spelling(expression)
    spelled = text_spelling(name) + list_spelling([text_spelling(word) for word in words])
    return spelled + kept + bytes([append, STDIN.index(stdin)]) + ending_spelling(version, most)


def root_spelling(version, path, number, triggers):
    spelled = [trigger_spelling(version, *trigger) for trigger in triggers.items()]
    return text_spelling(path) + number.to_bytes(8, "big") + list_spelling(spelled)


def state_spelling(state):
    incarnation, following, roots, version = state
    spelled = [root_spelling(version, path, *root) for path, root in roots.items()]
    return incarnation.to_bytes(8, "big") + following.to_bytes(8, "big") + list_spelling(spelled)


def trigger_size(version, name, definition):
    words, expression, _, _, most = definition
    kept = 0 if expression is None else 4 + len(expression.encode())
    return 11 + len(name.encode()) + sum(4 + len(word.encode()) for word in words) + kept + len(ending_spelling(version, most))


def state_size(state):
    of_triggers = lambda triggers: sum(trigger_size(state[3], *trigger) for trigger in triggers.items())
    of_root = lambda path, triggers: 16 + len(path.encode()) + of_triggers(triggers)
    return 20 + sum(of_root(path, triggers) for path, (_, triggers) in state[2].items())


def watched(state, path):
    if path not in state[2]:
        raise Refused(5)
    return state[2][path]


def with_room(state):
    if state_size(state) > MOST_BYTES[state[3]]:
        raise Refused(11)
    return state


def begun(state):
    if state[0] == LARGEST:
        raise Refused(15)
    return (state[0] + 1, *state[1:])


def with_watch(state, path):
    """A path that is watched already changes nothing, whatever the counters say; then 17, 15, 11."""
    incarnation, following, roots, version = state
    if path in roots:
        return state
    if len(roots) >= 256:
        raise Refused(17)
    if following == LARGEST:
        raise Refused(15)
    return with_room((incarnation, following + 1, {**roots, path: (following, {})}, version))


def without_watch(state, path):
    watched(state, path)
    return (state[0], state[1], {other: root for other, root in state[2].items() if other != path}, state[3])


def with_triggers(state, path, triggers):
    number, _ = watched(state, path)
    return (state[0], state[1], {**state[2], path: (number, triggers)}, state[3])


def with_trigger(state, path, name, definition):
    """A replaced trigger keeps its place; an equal definition changes nothing. A file of version 1 has no place
    for a number of files."""
    _, triggers = watched(state, path)
    if state[3] == 1 and definition[4] is not None:
        raise Refused(21)
    if triggers.get(name) == definition:
        return state
    if name not in triggers and len(triggers) >= 64:
        raise Refused(17)
    return with_room(with_triggers(state, path, {**triggers, name: definition}))


def without_trigger(state, path, name):
    _, triggers = watched(state, path)
    return with_triggers(state, path, {other: kept for other, kept in triggers.items() if other != name})
