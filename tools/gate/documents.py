"""What `make check` asks of the documents: their words, that no text stands in two of them, and that what they name is there."""
import functools, pathlib, re

TOP = pathlib.Path(__file__).resolve().parents[2]

# The most words of each document.
BUDGETS = {"README.md": 900, "CONTRIBUTING.md": 1500, "CHANGELOG.md": 400, "bench/README.md": 900, "docs/GUIDE.md": 3000,
           "docs/QUERIES.md": 2800, "docs/FORMATS.md": 3000, "docs/ARCHITECTURE.md": 3000, "docs/DECISIONS.md": 2200,
           "docs/PROMISES.md": 2000, "man": 2300}
# So many words in a row stand in one document only.
RUN = 12
# Names of others that look like ours.
FOREIGN = {"node_modules"}
# Folders whose files may be named, and in whose texts a name has to stand.
SOURCES = ("crates", "tools", "bench", "examples", "completion", "systemd", "Makefile", "crates.txt", ".ci")


def documents():
    """Each document with its text, by its path below the top."""
    paths = [TOP / name for name in BUDGETS if name != "man"] + sorted((TOP / "man").glob("*.1"))
    others = [path for path in (TOP / "docs").glob("*.md") if path not in paths]
    return {str(path.relative_to(TOP)): path.read_text() for path in paths + others}


def budget_faults(texts):
    """Each document that is over its budget; the man pages have one together, and a document that isn't listed has none."""
    counts = {}
    for name, text in texts.items():
        counted = name if name in BUDGETS else name.split("/")[0] if name.startswith("man/") else name
        counts[counted] = counts.get(counted, 0) + len(text.split())
    return [f"{name} has {count} words, of at most {BUDGETS.get(name, 0)}" for name, count in counts.items() if count > BUDGETS.get(name, 0)]


def words_of(name, text):
    """The words of a document, without its marks; where a link leads is no word of it."""
    if name.endswith(".1"):
        text = re.sub(r'(?m)^\.\\".*$|^\.[A-Za-z]+', "", text)
        text = re.sub(r"\\f[A-Z]", "", text).replace("\\-", "-")
    return re.findall(r"[a-z0-9_]+", re.sub(r"\]\([^)]*\)", "]", text).lower())


def repeated_runs(texts):
    """Each longest run of words that stands in two documents."""
    first, found, last = {}, [], None
    for name, text in texts.items():
        words = words_of(name, text)
        for at in range(len(words) - RUN + 1):
            run = tuple(words[at:at + RUN])
            other = first.setdefault(run, name)
            if other != name:
                if last != (other, name, at - 1):
                    found.append(f"{other} and {name} both have: {' '.join(run)}")
                last = (other, name, at)
    return found


def anchors(text):
    """The anchors of a page's headings."""
    headings = re.findall(r"(?m)^#+ (.*)$", re.sub(r"(?ms)^```.*?^```", "", text))
    return {re.sub(r"[^\w\- ]", "", heading.lower()).replace(" ", "-") for heading in headings}


def link_faults(texts):
    """Each link to a file or a heading that isn't there."""
    found = []
    for name, text in texts.items():
        for target in re.findall(r"\]\(([^)\s]+)\)", text):
            path, _, anchor = target.partition("#")
            if re.match(r"[a-z]+:", target):
                continue
            file = (TOP / name).parent / path if path else TOP / name
            if not file.exists():
                found.append(f"{name}: {target} leads to no file")
            elif anchor and anchor not in anchors(file.read_text()):
                found.append(f"{name}: {target} leads to no heading")
    return found


def files_of(place):
    """The files of a folder, or the file, without what is built."""
    if place.is_file():
        return [place]
    return [path for path in place.rglob("*") if path.is_file() and not {"out", "__pycache__"} & set(path.parts)]


@functools.lru_cache(None)
def sources():
    """The text of all that names may come from, and the files' names."""
    files = [path for place in SOURCES for path in files_of(TOP / place)]
    return "\n".join(path.read_text(errors="replace") for path in files), {path.name for path in files}


@functools.lru_cache(None)
def source_words():
    """The words of these texts, and the names of the must-fail edits."""
    text, files = sources()
    return set(re.findall(r"[A-Za-z_][A-Za-z0-9_]*", text)) | {file[:-5] for file in files if file.endswith(".edit")}


def is_named(mark):
    """Whether a text in backticks names what is there; what doesn't look like a name of ours is taken."""
    text, files = sources()
    if re.fullmatch(r"[\w./-]+\.(rt|antt|py|sh|md|edit|svg|json)", mark):
        return (TOP / mark).exists() or (TOP / "docs" / mark).exists() or mark.split("/")[-1] in files
    if re.fullmatch(r"(crates|tools|docs|bench|examples|man)/[\w./-]*", mark):
        return (TOP / mark).exists()
    if re.fullmatch(r"--[a-z][a-z-]*", mark):
        return mark in text or f'"{mark[2:]}"' in text
    if re.fullmatch(r"make [a-z]+( [A-Z]+=\S+)?", mark):
        return bool(re.search(rf"(?m)^{mark.split()[1]}:", (TOP / "Makefile").read_text()))
    parts = re.fullmatch(r"(\w+(?:::\w+)+)(\(.*\))?", mark)
    if parts:
        return set(parts[1].split("::")) <= source_words()
    if re.fullmatch(r"[A-Z][a-z]+[A-Z]\w*|[a-z0-9]+(_[a-z0-9]+)+|[A-Z]{2,}(_[A-Z]+)+", mark):
        return mark in FOREIGN or mark in source_words()
    return True


def name_faults(texts):
    """Each name in backticks that is nowhere in the source. A name of Watchman's that isn't ours is in GUIDE's table alone."""
    found = []
    for name, text in texts.items():
        prose = re.sub(r"(?ms)^```.*?^```|^\|.*Watchman.*?(?=^$|\Z)", "", text)
        marks = set(re.findall(r"`([^`\n]+)`", prose)) | {f"--{option}" for option in re.findall(r"Fl -([a-z-]+)", text)}
        found += [f"{name}: `{mark}` is nowhere in the source" for mark in sorted(marks) if not is_named(mark)]
    return found


def number(text):
    """The value of `65,536`, `65_536`, `2^63 - 1`, `1 << 20` or `64 * 1024`; None of another text."""
    plain = text.replace(",", "").replace("_", "").replace("^", "**").strip()
    return eval(plain, {"__builtins__": {}}) if re.fullmatch(r"[(]?[0-9]+( ?(\*\*|<<|\*|-|\+)[)]? ?[0-9]+[)]?)*", plain) else None


def constant(file, name):
    """The value of a constant in a file below crates/; None if it isn't there."""
    path = TOP / "crates" / file
    found = re.search(rf"(?m)^\s*(?:pub(?:\([a-z]+\))? )?const {name}: [^=]+= ([^;]+);", path.read_text() if path.is_file() else "")
    return number(found[1]) if found else None


def row_fault(name, cells):
    """What is wrong with a row of limits: its file isn't there, or the constant that it names has another value in it."""
    file, marks = cells["File"], re.findall(r"`([A-Z][A-Z0-9_]*)`", cells["Constant"])
    if file and not (TOP / "crates" / file).is_file():
        return [f"{name}: there is no crates/{file}"]
    return [f"{name}: {mark} isn't {cells['Value']} in crates/{file}" for mark in marks if constant(file, mark) != number(cells["Value"])]


def limit_faults(texts):
    """What is wrong with the tables that have the columns Value, Constant and File."""
    found = []
    for name, text in texts.items():
        for table in re.findall(r"(?m)^\|.*\| Value \| Constant \| File \|\n(?:\|.*\n)+", text):
            head, _, *rows = [[cell.strip() for cell in row.strip("|\n ").split("|")] for row in table.splitlines()]
            found += [fault for row in rows for fault in row_fault(name, dict(zip(head, row + [""])))]
    return found


def faults():
    """All that is wrong with the documents, a line each."""
    texts = documents()
    return [fault for look in (budget_faults, repeated_runs, link_faults, name_faults, limit_faults) for fault in look(texts)]
