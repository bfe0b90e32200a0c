#!/usr/bin/env python3
"""The time of `match` for patterns that are hard to refuse: match.py WATCHMAND

Each pattern ends with a b, which its paths lack: so no choice for any star makes it fit. For each shape and length
a root of `watchmand lines` has 200 files of that length. A query by the pattern is timed, less one by a name that
no file has: a table of microseconds for one file, by medians of 21 of each. Neither lists a file; but the pattern
must fit a path that does end with a b."""
import statistics, sys
from asked import ensure, lines

FILES, ROUNDS = 200, 21
# The name of a shape, the beginning of its pattern, the part that follows as often as the length allows, the text
# between the letters of a path, and the scope. Each path has a folder of its own, so that there can be 200; the
# first two shapes see only the name in it.
SHAPES = [
    ("*a*a*..*b", "*", "a*", "", []),
    ("*aaa..ab", "*", "a", "", []),
    ("**/a/**/a/**/..b", "**/", "a/**/", "/", ["wholename"]),
    ("**/a/a/..b", "**/", "a/", "/", ["wholename"]),
]
LENGTHS = [64, 128, 256, 512, 1019]  # of a pattern, and of a path in its folder: 1,024 bytes with the folder's 5


def pattern_of(front, part, length):
    return front + part * ((length - len(front) - 1) // len(part)) + "b"


def path_of(folder, between, length, last):
    """A path of at most so many bytes in its folder: one a after another, except for the last letter."""
    return f"d{folder:03}/" + ("a" + between) * ((length - 1) // (1 + len(between))) + last


def listed(asked, root, tick, paths):
    """Lists these files, as all that there is; the root's tick then."""
    files = [[path, {"mtime_ms": 0, "size": 0, "type": "f"}] for path in sorted(paths)]
    return int(asked.ask("listing", root, tick, "", files)["clock"].rsplit(":", 1)[1])


def timed(asked, root, expression, wanted):
    took, reply = asked.timed("query", root, {"expression": expression, "fields": ["name"]})
    ensure(reply["files"] == wanted, f"{expression} was answered {reply['files'][:2]} in place of {wanted}")
    return took


def measured(asked, root, shape, length):
    """How long the pattern of this shape and length takes for a file of a new root, in microseconds."""
    front, part, between, scope = shape[1:]
    pattern, fits = pattern_of(front, part, length), path_of(0, between, length, "b")
    asked.ask("watch", root)
    tick = listed(asked, root, 0, [fits])
    timed(asked, root, ["match", pattern, *scope], [fits])
    paths = [path_of(folder, between, length, "a") for folder in range(FILES)]
    listed(asked, root, tick, paths)
    hard, cheap = [], []
    for _ in range(ROUNDS):
        hard.append(timed(asked, root, ["match", pattern, *scope], []))
        cheap.append(timed(asked, root, ["name", "x"], []))
    return 1e6 * (statistics.median(hard) - statistics.median(cheap)) / FILES


def main():
    if len(sys.argv) != 2:
        sys.exit(__doc__)
    print("| µs, at most so many bytes |", *(f"{length} |" for length in LENGTHS))
    print("|" + "---|" * (1 + len(LENGTHS)))
    with lines(sys.argv[1]) as asked:
        for at, shape in enumerate(SHAPES):
            times = [measured(asked, f"/{at}-{length}", shape, length) for length in LENGTHS]
            print(f"| `{shape[0]}` |", *(f"{took:.2f} |" for took in times), flush=True)
        print(f"The program waited {asked.waited():.1f} s for a processor; if that is much, these times are too long.")


if __name__ == "__main__":
    main()
