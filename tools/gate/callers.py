"""Which public functions of the libraries the programs don't need: what `make check` asks of them.

A function is called if a function that is itself called names it; the `main` of the four programs and each method of
a trait's impl are called. This is a search of the text, without types. A call is the name with as many arguments as
the function has parameters: behind `.`, `TYPE::` or `Self::` for a method, alone or behind `MODULE::` for a function.
A name that is passed on as a value counts too. Only calls in the function's own crate count, and in crates above it by
crates.txt. So a function passes as called if one of the same name and number of arguments is called there; and one
whose call a macro writes, or that is called by its trait's name, is listed although it is called."""
import pathlib, re
from contracts import HIDDEN, block_end, functions

TOP = pathlib.Path(__file__).resolve().parents[2]
PROGRAMS = ("watchmand", "wmctl", "wmfeed", "wm")
# Why a function that the programs don't call is there. A name ends with `::` if it stands for all that begins so.
TEST = "stands in for the system in tests"
WORLD = "the headline: its contracts are over this world, and no program runs it"
ALLOWED = {
    "wm_disk::MemDisk::": TEST,
    "wm_disk::OneFault::": TEST,
    "wm_disk::Crashed::": TEST,
    "wm_crawler::MemTree::": TEST,
    "wm_checkpoint::Keeper::arm": "plans a failure of the disk, for tests and the world",
    "wm_store::Store::arm": "plans a failure of the disk, for tests and the world",
    "wm_since::Mirror::": "what a client does with answers, which the world's clients are",
    "wm_since::Test::is_path_only": "Mirror::new asks it",
    "wm_world::": WORLD,
}
# Those that were there when this check began. A name that is called, or that has gone, goes from here.
LEFT = """
wm_checkpoint::Machine::copy wm_commands::Runs::is_running wm_groupcommit::Book::find wm_groupcommit::Desk::stands
wm_groupcommit::LockedDesk::find wm_groupcommit::Seat::learn wm_journal::Region::scan wm_log::line_of
wm_root::Observed::is_incomplete wm_share::RootKeeper::age_out wm_share::RootKeeper::observe wm_share::RootKeeper::recrawl
wm_store::Store::version wm_triggers::Run::fresh
""".split()
# What only the prover reads.
GHOST = re.compile(r"\bghost\s+use\b[^;]*;|\b(?:(?:requires|ensures)(?:\s*\*)?(?:\s+\w+)?|ghost\s+\w+\s*[:=]|by)\s*(?=\{)")
# Another name of a type: `type OTHER = TYPE`, or `TYPE as OTHER`.
OTHER = re.compile(r"\btype\s+(?P<other>\w+)[^=;]*=\s*(?:\w+::)*(?P<name>\w+)|\b(?P<used>\w+) as (?P<by>\w+)")
NAME = re.compile(r"(?:(?P<fn>\bfn\s+)|(?P<dot>(?<!\.)\.\s*)|(?:(?P<type>\b\w+|>)\s*::\s*))?\b(?P<name>[a-z_]\w*)\b"
                  r"(?P<value>(?=\s*[,)]))?(?:::<[^(){};]*?>(?=\())?(?P<open>\()?")


def plain_text(path):
    """The text of a source file without comments, texts and ghost parts; each text is a 0."""
    text = HIDDEN.sub(lambda found: "" if found[0][0] == "/" else "0", path.read_text())
    parts, at = [], 0
    while found := GHOST.search(text, at):
        parts.append(text[at:found.start()])
        at = found.end() if found[0].endswith(";") else block_end(text, found.end())
    return "".join(parts) + text[at:]


def parts_between(text, at, has_types=False):
    """The parts between the parenthesis that opens before a place and its end, as commas part them; those between
    the bars of a closure don't, nor those of a type's parameters."""
    parts, depth, begun, bars = [], 0, at, 0
    while True:
        letter = text[at]
        if has_types and letter in "<>":
            depth += 1 if letter == "<" else -1 if text[at - 1] != "-" else 0
        elif letter == "|" and (bars or re.search(r"[(,]\s*(?:move\s*)?$", text[max(0, at - 40):at])):
            bars = 1 - bars
        elif letter in "([{":
            depth += 1
        elif letter in ")]}":
            depth -= 1
        if depth < 0 or letter == "," and not depth and not bars:
            parts.append(text[begun:at].strip())
            begun = at + 1
        if depth < 0:
            return [part for part in parts if part]
        at += 1


def parameters(text, named):
    """The parameters of the function whose name ends at a place."""
    at, depth = named, 0
    while depth or text[at] != "(":
        depth += {"<": 1, ">": 0 if text[at - 1] == "-" else -1}.get(text[at], 0)
        at += 1
    return parts_between(text, at + 1, True)


class Function:
    """A function of a crate, with the names that it calls."""

    def __init__(self, crate, path, text, found):
        holder, self.name, self.is_public, _, _, named, end = found
        self.crate, self.path = crate, path
        self.type, _, self.trait = holder.partition(" as ")
        words = parameters(text, named)
        self.has_self = bool(words) and bool(re.match(r"(&\s*('\w+\s+)?)?(mut\s+)?self\b", words[0]))
        self.count = len(words)
        self.calls = calls(text[named:end])

    def __str__(self):
        return "::".join(part for part in (self.crate, self.type, self.name) if part)


def calls(text):
    """The names that a text calls or passes on: name, how, type before it, number of arguments (None: passed on)."""
    found = set()
    for name in NAME.finditer(text):
        if name["fn"] or not name["open"] and not name["value"] and not name["type"]:
            continue
        count = len(parts_between(text, name.end())) if name["open"] else None
        found.add((name["name"], "." if name["dot"] else "::" if name["type"] else "", name["type"] or "", count))
    return found


def is_call(function, call, other_names):
    """Whether a call may be one of the function, if types have these other names."""
    name, how, of, count = call
    if name != function.name:
        return False
    if how == ".":
        return function.has_self and count == function.count - 1
    if not function.type:
        return count in (None, function.count) and not of[:1].isupper()
    is_type = of in (function.type, "Self", ">") or len(of) == 1 or function.type in other_names.get(of, ())
    return how == "::" and count in (None, function.count) and is_type


def above():
    """Each crate with all those below it, by crates.txt."""
    lines = [line.split("#")[0].partition(":") for line in (TOP / "crates.txt").read_text().splitlines()]
    uses = {head.split()[0]: rest.split() for head, colon, rest in lines if colon}
    below = {}
    for name in uses:
        todo, found = [name], set()
        while todo:
            more = todo.pop()
            if more in uses and more not in found:
                found.add(more)
                todo += uses[more]
        below[name] = found
    return below


def read_all():
    """The functions of all crates but those of tests, and each other name of a type with these types."""
    found, other_names = [], {}
    for crate in above():
        if not crate.endswith("_tests") and crate != "programs":
            for path in sorted((TOP / "crates" / crate / "src").rglob("*.rt")):
                text = plain_text(path)
                functions(text, 0, len(text), "", False, those := [])
                found += [Function(crate, path, text, one) for one in those]
                for name in OTHER.finditer(text):
                    other_names.setdefault(name["other"] or name["by"], set()).add(name["name"] or name["used"])
    return found, other_names


def uncalled():
    """The public functions of libraries that no called function names."""
    below, (left, other_names) = above(), read_all()
    called = [one for one in left if one.trait or one.name == "main" and one.crate in PROGRAMS]
    by_name = {}
    for one in left:
        if one not in called:
            by_name.setdefault(one.name, []).append(one)
    while called:
        caller = called.pop()
        for call in caller.calls:
            for one in by_name.get(call[0], [])[:]:
                if one.crate in below[caller.crate] and is_call(one, call, other_names):
                    by_name[call[0]].remove(one)
                    called.append(one)
    return [one for those in by_name.values() for one in those if one.is_public and one.crate not in PROGRAMS]


def is_allowed(one):
    """Whether a function may be there although the programs don't call it: a law, or one of the table."""
    return one.path.name == "laws.rt" or any(str(one) == name or name.endswith("::") and str(one).startswith(name) for name in ALLOWED)


def faults():
    """Each new function that the programs don't call, and each name of the tables that they do, or that isn't there."""
    found = sorted(uncalled(), key=str)
    names = [str(one) for one in found]
    new = [f"{one.path.relative_to(TOP)}: no program calls {one}" for one in found if not is_allowed(one) and str(one) not in LEFT]
    gone = [name for name in LEFT if name not in names] + [name for name in ALLOWED if not any(one.startswith(name) for one in names)]
    return new + [f"tools/gate/callers.py: {name} is called, or isn't there" for name in gone]
