"""The fuzzer's own JSON: which lines are one JSON text, and how a value is written (tools/fuzz/fuzz.py).

An object is read as a dict, a list as a list, a text as a str, a whole number as an int, any other number as a Float."""
import math, re

SPACE = re.compile(r"[ \t\n\r]*")
# A number of RFC 8259: no leading zero, no plus, digits on both sides of a point.
NUMBER = re.compile(r"-?(?:0|[1-9][0-9]*)(\.[0-9]+)?([eE][+-]?[0-9]+)?")
# A text: control bytes below space must be escaped; DEL needn't.
TEXT = re.compile(r'"((?:[^"\\\x00-\x1f]|\\.)*)"', re.DOTALL)
ESCAPE = re.compile(r"\\(u[0-9a-fA-F]{4}|.)", re.DOTALL)
PLAIN = {'"': '"', "\\": "\\", "/": "/", "b": "\b", "f": "\f", "n": "\n", "r": "\r", "t": "\t"}
WORD = re.compile("true|false|null")
WORDS = {"true": True, "false": False, "null": None}
WRITTEN = {'"': '\\"', "\\": "\\\\", "\b": "\\b", "\f": "\\f", "\n": "\\n", "\r": "\\r", "\t": "\\t"}
MUST_ESCAPE = re.compile(r'["\\\x00-\x1f]')
# The deepest nesting of lists and objects (docs/FORMATS.md, Lines).
DEEPEST = 127


class NoJson(Exception):
    """The text is no JSON text."""


class Float:
    """A number that is no whole number of 64 bits."""


def number_of(match):
    """A whole number is one without point, exponent and `-0`, from -2^63 to 2^64 - 1 as serde_json reads
    it. All others are floats; one that no finite float holds is no JSON text."""
    text = match.group()
    if match.group(1) is None and match.group(2) is None and text != "-0" and len(text) <= 20:
        number = int(text)
        if -2**63 <= number < 2**64:
            return number
    if math.isinf(float(text)):
        raise NoJson
    return Float()


def unescaped(match):
    escape = match.group(1)
    if len(escape) == 5:
        return chr(int(escape[1:], 16))
    if escape not in PLAIN:
        raise NoJson
    return PLAIN[escape]


def text_of(raw):
    """A text between its quotes. Two escapes of a surrogate pair are one character; a single one is refused (serde_json)."""
    if "\\" not in raw:
        return raw
    text = ESCAPE.sub(unescaped, raw)
    try:
        return text.encode("utf-16-be", "surrogatepass").decode("utf-16-be")
    except UnicodeDecodeError:
        raise NoJson


class Reader:
    """Reads one value with a list of the open lists and objects: so Python's stack doesn't grow with the depth of a text."""

    def __init__(self, text):
        self.text, self.at, self.open = text, 0, []

    def space(self):
        self.at = SPACE.match(self.text, self.at).end()

    def here(self):
        return self.text[self.at:self.at + 1]

    def take(self, byte):
        if self.here() != byte:
            raise NoJson
        self.at += 1
        self.space()

    def scalar(self):
        found = TEXT.match(self.text, self.at)
        if found:
            value = text_of(found.group(1))
        else:
            word = WORD.match(self.text, self.at)
            found = word or NUMBER.match(self.text, self.at)
            if not found:
                raise NoJson
            value = WORDS[found.group()] if word else number_of(found)
        self.at = found.end()
        self.space()
        return value

    def key(self):
        if self.here() != '"':
            raise NoJson
        key = self.scalar()
        self.take(":")
        return key

    def begun(self):
        """Opens lists and objects up to the next whole value, and returns it."""
        while self.here() in ("[", "{"):
            opened = self.here()
            if len(self.open) == DEEPEST:
                raise NoJson
            self.take(opened)
            if self.here() == ("]" if opened == "[" else "}"):
                self.take(self.here())
                return [] if opened == "[" else {}
            self.open.append([[], None] if opened == "[" else [{}, self.key()])
        return self.scalar()

    def put(self, value):
        """Puts a value into the innermost open list or object; whether that ends with it. Of one key's values the last counts."""
        holder = self.open[-1]
        if isinstance(holder[0], list):
            holder[0].append(value)
        else:
            holder[0][holder[1]] = value
        if self.here() == ",":
            self.take(",")
            if isinstance(holder[0], dict):
                holder[1] = self.key()
            return False
        self.take("]" if isinstance(holder[0], list) else "}")
        return True

    def value(self):
        self.space()
        value = self.begun()
        while self.open:
            value = self.open.pop()[0] if self.put(value) else self.begun()
        if self.at != len(self.text):
            raise NoJson
        return value


def read(text):
    """The value of a text, or NoJson."""
    return Reader(text).value()


def read_bytes(content):
    """The same for bytes, which must be UTF-8: no surrogates, no overlong form, nothing above U+10FFFF."""
    try:
        return read(content.decode("utf-8", "strict"))
    except UnicodeDecodeError:
        raise NoJson


def escaped(match):
    return WRITTEN.get(match.group()) or "\\u%04x" % ord(match.group())


def written(value):
    """Compact JSON, keys in the order of their bytes (docs/FORMATS.md, Lines). The server writes no floats."""
    if isinstance(value, bool):
        return "true" if value else "false"
    if value is None:
        return "null"
    if isinstance(value, int):
        return str(value)
    if isinstance(value, str):
        return '"' + MUST_ESCAPE.sub(escaped, value) + '"'
    if isinstance(value, list):
        return "[" + ",".join(map(written, value)) + "]"
    keys = sorted(value, key=lambda key: key.encode())
    return "{" + ",".join(written(key) + ":" + written(value[key]) for key in keys) + "}"
