"""Many encodings of a request's value as a line, and damaged lines, for tools/fuzz/fuzz.py."""
from make import BAD_NUMBERS, Raw
from requests import LONGEST

SPACES = ["", "", "", " ", "\t", "\r", "  "]
# Bytes that are put into a line: ends of texts and lists, bytes that are no UTF-8, spaces that JSON doesn't have.
PIECES = [b"\0", b"\n", b"\r", b"\r\n", b'"', b"\\", b"[", b"]", b"{", b"}", b",", b":", b"\xff", b"\xc0\x80",
          b"\xed\xa0\x80", b"\xf4\x90\x80\x80", b"\xe2\x82", b"\xef\xbb\xbf",
          b"\xc2\xa0", b"\x0b", b"\x0c", b"\x7f", b"\x1f", b"\\u", b"\\ud800", b"\\udc00", b"\\ud83d\\ude00",
          b"\\ud800\\ud800", b"\\u0000", b"\\u00e", b"\\x41", b"\\/", b"\\U0041",
          b"\\ud83d\xf0\x9f\x98\x80", b"null", b"true", b"nul", b"-", b"0", b"e5", b".", b" ", b"/", b"c:1:1:1"]


def escaped(character, rng):
    """One character as an escape of its UTF-16, in letters of either case."""
    units = character.encode("utf-16-be")
    text = "".join("\\u%02x%02x" % tuple(units[at:at + 2]) for at in range(0, len(units), 2))
    return text if rng.random() < 0.5 else text.upper().replace("\\U", "\\u")


def spelled_text(text, rng, share):
    short = {'"': '\\"', "\\": "\\\\", "\n": "\\n", "\t": "\\t", "\r": "\\r", "\b": "\\b", "\f": "\\f"}
    must = lambda character: character < " " or character in '"\\'
    made = []
    for character in text:
        if character in short and rng.random() < 0.7:
            made.append(short[character])
        elif must(character) or rng.random() < share:
            made.append("\\/" if character == "/" and rng.random() < 0.5 else escaped(character, rng))
        else:
            made.append(character)
    return '"' + "".join(made) + '"'


def spelled_members(value, rng, share):
    """An object's members in any order; sometimes a key comes twice, and the last value counts."""
    members = [(key, spelled(item, rng, share)) for key, item in value.items()]
    rng.shuffle(members)
    if members and rng.random() < 0.05:
        key = rng.choice(members)[0]
        members.insert(0, (key, rng.choice(["1", "null", "[]", '"f"', "true", '{"a":[1]}'])))
    return [spelled_text(key, rng, share) + space(rng, share) + ":" + space(rng, share) + item for key, item in members]


def space(rng, share):
    return rng.choice(SPACES) if share else ""


def spelled(value, rng, share):
    """JSON text of a value; share is that of characters that are escaped though they needn't be."""
    if isinstance(value, Raw):
        return str(value)
    if isinstance(value, str):
        return spelled_text(value, rng, share)
    if isinstance(value, (bool, type(None))):
        return {None: "null", True: "true", False: "false"}[value]
    if isinstance(value, int):
        return str(value)
    parts = spelled_members(value, rng, share) if isinstance(value, dict) else [spelled(item, rng, share) for item in value]
    ends = "{}" if isinstance(value, dict) else "[]"
    comma = space(rng, share) + "," + space(rng, share)
    return ends[0] + space(rng, share) + comma.join(parts) + space(rng, share) + ends[1]


def line_of(value, rng):
    share = rng.choice([0, 0, 0, 0.02, 0.3])
    return (space(rng, share) + spelled(value, rng, share) + space(rng, share)).encode() + b"\n"


def padded(line, size, filler):
    """A line of just so many bytes with its newline, spaces or a text in front of the last bracket."""
    body = line.rstrip(b"\n")
    missing = size - 1 - len(body)
    if missing < 4 or not body.endswith(b"]"):
        return line
    return (body + b" " * missing if filler else body[:-1] + b',"' + b"x" * (missing - 3) + b'"]') + b"\n"


def nested(rng):
    """Lists and objects nested about as deep as the limit: as a line, as an argument, in an object, and unclosed."""
    depth = rng.choice([1, 2, 100, 125, 126, 127, 128, 129, 5000])
    opened, closed = rng.choice([(b"[", b"]"), (b'{"a":', b"}")])
    inmost = rng.choice([b"", b"1"] if opened == b"[" else [b"1", b"[]"])
    inner = opened * depth + inmost + closed * rng.choice([depth, depth, depth, depth - 1, depth + 1])
    return rng.choice([inner, b'["version",' + inner + b"]", b'["query","/r",{"expression":' + inner + b"}]",
                       b'["watch",' + inner + b"]"]) + b"\n"


def piece_of(line, rng):
    start = rng.randrange(len(line))
    return start, rng.randint(start, min(len(line), start + rng.choice([1, 2, 5, 20, len(line)])))


def changed_number(line, rng):
    """One run of digits, with its sign, as another number."""
    places = [at for at in range(len(line)) if line[at:at + 1].isdigit() and not line[at - 1:at].isdigit()]
    if not places:
        return line
    start = rng.choice(places)
    end = start
    while line[end:end + 1].isdigit():
        end += 1
    return line[:start] + rng.choice(BAD_NUMBERS + ["9223372036854775807", "0", "1", "2147483648"]).encode() + line[end:]


def spoilt_once(line, rng):
    kind = rng.randrange(8)
    start, end = piece_of(line, rng)
    if kind == 0:
        return line[:start] + bytes([line[start] ^ (1 << rng.randrange(8))]) + line[start + 1:]
    if kind == 1:
        return line[:start] + line[end:]
    if kind == 2:
        return line[:end] + line[start:end] + line[end:]
    if kind == 3:
        return line[:start] + rng.choice(PIECES) + line[start:]
    if kind == 4:
        return line[:start] + rng.choice(PIECES) + line[end:]
    if kind == 5:
        return changed_number(line, rng)
    if kind == 6:
        return line[:start] + bytes([rng.randrange(256)]) + line[start + 1:]
    return line.rstrip(b"\n") + rng.choice([b"\r\n", b"\n\n", b"]\n", b" x\n", b",\n", b"\0\n", b"\xef\xbb\xbf\n", b"[]\n",
                                            b"\x0b\n"])


def spoilt(line, rng):
    """A line that was damaged a few times; it ends with a newline again."""
    for _ in range(rng.choice([1, 1, 1, 2, 4])):
        line = spoilt_once(line, rng) or b"\n"
    return line if line.endswith(b"\n") else line + b"\n"


def long_line(line, rng):
    return padded(line, LONGEST + rng.choice([-1, 0, 0, 1, 2, 1000000]), rng.random() < 0.5)
