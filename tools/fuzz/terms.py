"""The meaning of expressions, for the fuzzer's model: docs/QUERIES.md, Expressions, by recursion on the JSON value
(tools/fuzz/fuzz.py).

An entry is a tuple: path, whether it exists, and its metadata (kind, size, mtime_ms)."""
from functools import lru_cache

LARGEST = 2**63 - 1
WORDS = ("true", "false", "exists", "empty")
SCOPES = ("basename", "wholename")
COMPARED = {"eq": int.__eq__, "ne": int.__ne__, "gt": int.__gt__, "ge": int.__ge__, "lt": int.__lt__, "le": int.__le__}


def is_text(value):
    return isinstance(value, str)


def is_whole(value):
    """A whole number from 0 to 2^63 - 1. Python's True is an int too, JSON's true is no number."""
    return isinstance(value, int) and not isinstance(value, bool) and 0 <= value <= LARGEST


def is_texts(value):
    return is_text(value) or isinstance(value, list) and all(map(is_text, value))


def has_scope(term):
    return len(term) == 2 or len(term) == 3 and is_text(term[2]) and term[2] in SCOPES


def is_pattern(value):
    return is_text(value) and len(value.encode()) <= 1024 and "[" not in value and "\\" not in value


def is_leaf(term):
    """Whether a list is a term without parts."""
    word, count = term[0], len(term)
    if word in WORDS:
        return count == 1
    if word == "name":
        return has_scope(term) and is_texts(term[1])
    if word == "match":
        return has_scope(term) and is_pattern(term[1])
    if word == "suffix":
        return count == 2 and is_texts(term[1])
    if word == "type":
        return count == 2 and is_text(term[1]) and term[1] in ("f", "d", "l", "o")
    return word == "size" and count == 3 and is_text(term[1]) and term[1] in COMPARED and is_whole(term[2])


def shape(value, level=1):
    """How many terms an expression has, or None if the value is none: at most 32 levels."""
    if is_text(value):
        return 1 if value in WORDS and level <= 32 else None
    if not isinstance(value, list) or not value or not is_text(value[0]) or level > 32:
        return None
    if value[0] not in ("not", "allof", "anyof"):
        return 1 if is_leaf(value) else None
    if value[0] == "not" and len(value) != 2:
        return None
    counts = [shape(part, level + 1) for part in value[1:]]
    return None if None in counts else 1 + sum(counts)


def is_expression(value):
    count = shape(value)
    return count is not None and count <= 1024


def scoped(term, path):
    return path if len(term) == 3 and term[2] == "wholename" else path.rsplit("/", 1)[-1]


def folded(content):
    """The text with its ASCII letters in lower case."""
    return bytes(byte + 32 if 65 <= byte <= 90 else byte for byte in content)


@lru_cache(maxsize=65536)
def fits_component(pattern, text):
    """Whether one component fits: a star is any run of bytes, all of which are tried; `?` is one byte."""
    if not pattern:
        return not text
    if pattern[:1] == b"*":
        return fits_component(pattern[1:], text) or bool(text) and fits_component(pattern, text[1:])
    return bool(text) and pattern[:1] in (b"?", text[:1]) and fits_component(pattern[1:], text[1:])


@lru_cache(maxsize=65536)
def fits_all(pattern, text):
    """The same for components: `**` is one or more if it is last, else any number."""
    if not pattern:
        return not text
    if pattern[0] == b"**":
        least = 1 if len(pattern) == 1 else 0
        return any(fits_all(pattern[1:], text[taken:]) for taken in range(least, len(text) + 1))
    return bool(text) and fits_component(pattern[0], text[0]) and fits_all(pattern[1:], text[1:])


def holds_leaf(term, path, exists, metadata):
    word = term[0]
    kind, size, _ = metadata
    if word in ("true", "false"):
        return word == "true"
    if word == "exists":
        return exists
    if word == "empty":
        return exists and size == 0 and kind in ("f", "d")
    if word == "name":
        return scoped(term, path) in ([term[1]] if is_text(term[1]) else term[1])
    if word == "suffix":
        name = folded(path.rsplit("/", 1)[-1].encode())
        return any(name.endswith(b"." + folded(suffix.encode())) for suffix in ([term[1]] if is_text(term[1]) else term[1]))
    if word == "type":
        return kind == term[1]
    if word == "size":
        return exists and COMPARED[term[1]](size, term[2])
    return fits_all(tuple(term[1].encode().split(b"/")), tuple(scoped(term, path).encode().split(b"/")))


def holds(value, entry):
    """The value of an expression on an entry."""
    term = [value] if is_text(value) else value
    if term[0] == "not":
        return not holds(term[1], entry)
    if term[0] == "allof":
        return all(holds(part, entry) for part in term[1:])
    if term[0] == "anyof":
        return any(holds(part, entry) for part in term[1:])
    return holds_leaf(term, *entry)


def is_path_only(value):
    term = [value] if is_text(value) else value
    if term[0] in ("not", "allof", "anyof"):
        return all(map(is_path_only, term[1:]))
    return term[0] not in ("type", "exists", "empty", "size")
