#!/usr/bin/env python3
"""What the gate's proofs don't see, without a proof, in seconds: tools/gate/check.py [PART ..]

Each part prints what is wrong, a line each. The status is 1 if there is such a line."""
import pathlib, re, shutil, subprocess, sys, textwrap, time

sys.dont_write_bytecode = True
import callers as called, documents as texts
from contracts import block_end

TOP = pathlib.Path(__file__).resolve().parents[2]
HERE = TOP / "tools/gate"
# How many clauses may have more than so many columns. A number here only ever falls.
WIDE = {100: 859, 250: 34}
CLAUSE = re.compile(r"\b(?:requires|ensures)\b[^;{}]*\{")


def written(pattern):
    """The files of crates/ that are written by hand and fit the pattern below a crate, by crate."""
    return [(path.relative_to(TOP / "crates").parts[0], path) for path in sorted((TOP / "crates").glob(f"*/{pattern}"))]


def definitions(text):
    """The names that a file of specs/ defines; a field of a record is no such name."""
    found, record = [], None
    for line in filter(str.strip, text.splitlines()):
        depth = len(line) - len(line.lstrip(" "))
        if record is not None and depth > record:
            continue
        words = line.split() + ["", "", ""]
        record = depth if words[:2] == ["pub", "record"] else None
        if words[0] == "pub" and words[1] in ("record", "data"):
            found.append(words[2])
        elif words[0] == "pub" and words[2] == ":":
            found.append(words[1])
        elif words[1] == "pub" and words[3] == ":":
            found.append(words[2])
    return found


def same_names():
    """No name is defined in the specs/ of two crates."""
    places = {}
    for crate, path in written("specs/**/*.antt"):
        if "declared" not in path.parts:
            for name in definitions(path.read_text()):
                places.setdefault(name, {})[crate] = path.relative_to(TOP)
    return [f"{name} is defined in {' and '.join(map(str, at.values()))}" for name, at in sorted(places.items()) if len(at) > 1]


def own_proofs():
    """No file uses another crate's proofs/: what proofs above want is a clause of a contract, or a law in specs/. That a type may cross
    threads is the exception: Rattle writes that of each type into proofs/ (TheSendSync, TheKnot), or it stands in proofs/Crossing.antt."""
    crates = "|".join(path.name for path in (TOP / "crates").iterdir())
    use = re.compile(rf"Rattle\.({crates})\.proofs\.")
    passes = re.compile(r"\.proofs\.Crossing\.|\.TheSendSync as |\.TheLaws\.TheKnot as ")
    found = []
    for folder, kind in (("src", "rt"), ("specs", "antt"), ("proofs", "antt")):
        for crate, path in written(f"{folder}/**/*.{kind}"):
            for line in path.read_text().splitlines():
                if any(of != crate for of in use.findall(line)) and not passes.search(line):
                    found.append(f"{path.relative_to(TOP)} uses another crate's proofs: {line.strip()}")
    return found


def edit_faults(crate, path):
    """What is wrong with a must-fail edit: each of its old texts stands once in its file, as the pairs before made it."""
    texts, file, old = {}, None, None
    for line in path.read_text().splitlines():
        key, _, value = line.partition(": ")
        if key == "file":
            file = value
            texts.setdefault(file, (TOP / "crates" / crate / file).read_text())
        elif key == "old":
            old = value
            if texts[file].count(old) != 1:
                return [f"{path.relative_to(TOP)}: its old text stands {texts[file].count(old)} times in {file}: {old}"]
        elif key == "new":
            texts[file], old = texts[file].replace(old, value), None
    return [] if texts and old is None else [f"{path.relative_to(TOP)} has no file, or an old text without a new one"]


def edits():
    """Each must-fail edit applies to the text."""
    places = [(path.parts[-3], path) for path in (TOP / "crates").glob("*/must-fail/*.edit")]
    places += [(path.parts[-2], path) for path in (TOP / "tools/edits").glob("*/*.edit")]
    return [fault for crate, path in sorted(places) for fault in edit_faults(crate, path)]


def drawing(crates):
    """The layers of crates.txt, the last one first: the comment of each, and below it its crates, but for those of tests."""
    found = []
    for line in crates.splitlines():
        name = line.split(":")[0]
        if line.startswith("#"):
            found.append((line[1:].strip(), []))
        elif not name.endswith("_tests"):
            found[-1][1].append(name)
    drawn = [[comment] + textwrap.wrap("  ".join(names), 92, break_long_words=False) for comment, names in reversed(found)]
    return "\n\n".join("\n    ".join(lines) for lines in drawn) + "\n"


def layers():
    """ARCHITECTURE draws the layers as crates.txt has them."""
    drawn = (TOP / "docs/ARCHITECTURE.md").read_text()
    return [] if f"```\n{drawing((TOP / 'crates.txt').read_text())}```" in drawn else ["docs/ARCHITECTURE.md draws other layers than crates.txt"]


def ran(*words):
    """What a program printed that fails."""
    result = subprocess.run(words, cwd=TOP, capture_output=True, text=True)
    return (result.stdout + result.stderr).splitlines() or [f"{words[0]} failed"] if result.returncode else []


def contracts():
    """docs/contracts.txt has the contracts of the source."""
    return ran(sys.executable, str(HERE / "contracts.py"), "--check")


def completion():
    """The shell completes what it has to."""
    return ran("bash", "completion/check.sh")


def documents():
    """The documents keep their budgets, say nothing twice, and name what is there."""
    return texts.faults()


def callers():
    """The programs call each public function of a library, or its reason stands in callers.py."""
    return called.faults()


def widths():
    """The columns of each clause, as if it stood on one line, and its place."""
    found = []
    for _, path in written("src/**/*.rt"):
        text = path.read_text()
        for clause in CLAUSE.finditer(re.sub(r"//[^\n]*", lambda comment: " " * len(comment[0]), text)):
            line = " ".join(text[clause.start():block_end(text, clause.end() - 1)].split())
            found.append((len(line), f"{path.relative_to(TOP)}:{text.count(chr(10), 0, clause.start()) + 1}"))
    return sorted(found, reverse=True)


def clauses():
    """No more clauses are wide than there were."""
    found = []
    for most, bound in WIDE.items():
        wide = [f"  {place}: {width}" for width, place in widths() if width > most]
        if len(wide) > bound:
            found += [f"{len(wide)} clauses have more than {most} columns, of at most {bound}", *wide]
        elif len(wide) < bound:
            print(f"check: clauses: {len(wide)} have more than {most} columns: write that into WIDE of tools/gate/check.py")
    return found


def layout():
    """Each file is as rt fmt writes it: rt ci fails a crate that has another one."""
    files = [path for kind in ("rt", "antt") for folder in ("src", "specs", "proofs") for _, path in written(f"{folder}/**/*.{kind}")]
    if not shutil.which("rattle"):
        print("check: layout: not looked at, since rattle isn't found")
        return []
    return subprocess.run(["rattle", "fmt", "--check", *files], cwd=TOP, stdout=subprocess.PIPE, stderr=subprocess.STDOUT, text=True).stdout.splitlines()


PARTS = {look.__name__: look for look in (documents, same_names, own_proofs, edits, layers, callers, clauses, contracts, completion, layout)}


def main():
    wrong = 0
    for name in sys.argv[1:] or PARTS:
        began = time.monotonic()
        found = PARTS[name]()
        wrong += len(found)
        print("".join(f"{line}\n" for line in found), end="")
        print(f"check: {name}: {len(found) or 'nothing'} wrong, {time.monotonic() - began:.1f} s", flush=True)
    return 1 if wrong else 0


if __name__ == "__main__":
    sys.exit(main())
