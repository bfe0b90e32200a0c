#!/usr/bin/env python3
"""Writes docs/contracts.txt: the labels of the clauses of each public function. With --check, ends with 1 if it is
out of date.

Public is a `pub` function of a `pub` type or module level, a method of a `pub trait`, and a method of a trait's
impl that has clauses of its own. The other methods of such an impl have the trait's clauses.
"""
import pathlib, re, sys

TOP = pathlib.Path(__file__).resolve().parents[2]
OUT = TOP / "docs" / "contracts.txt"
HEAD = """\
The clauses of each public function, by their labels; `-` is a clause without a label. The source has the
clauses themselves. `(inner)` marks a function that its crate doesn't export.
Made by tools/gate/contracts.py.
"""
# Comments, texts and characters. A ' after a letter is part of an antt name.
HIDDEN = re.compile(r"""//[^\n]*|/\*.*?\*/|b?"(?:\\.|[^"\\])*"|(?<!\w)b?'(?:\\[^']+|[^'\\\n])'""", re.S)
ITEM = re.compile(r"(?P<pub>\bpub(?:\([^)]*\))?\s+)?(?:\b(?:const|final|unsafe)\s+)*"
                  r"\b(?P<kind>fn\s+(?P<name>\w+)|impl\b|trait\s+(?P<trait>\w+)|mod\s+\w+)|[{}]")
CLAUSE = re.compile(r"\b(requires|ensures)(?:\s*\*)?(?:\s+(\w+))?\s*$")
WORDS = re.compile(r"(?m)^\s*(?:requires|ensures)\b")
PARTS = re.compile(r"[(\[{}\])]|;")


def block_end(text, at):
    """The place after the block that opens at `at`."""
    depth = 0
    for part in re.compile(r"[{}]").finditer(text, at):
        depth += 1 if part[0] == "{" else -1
        if not depth:
            return part.end()
    sys.exit("a block doesn't end")


def signature(text, at):
    """The clauses of the function whose name ends at `at`, the place after it, and the clauses in its body."""
    clauses, depth, since = [], 0, at
    while True:
        part = PARTS.search(text, at)
        at = part.end()
        if part[0] == ";" and not depth:
            return clauses, at, 0
        if part[0] == "{" and not depth:
            at = block_end(text, part.start())
            if found := CLAUSE.search(text, since, part.start()):
                clauses.append((found[1], found[2] or "-"))
            elif not re.search(r"\bghost\s+\w+\s*:\s*$", text[since:part.start()]):
                return clauses, at, len(WORDS.findall(text, part.start(), at))
            since = at
        elif part[0] != ";":
            depth += 1 if part[0] in "([{" else -1


def plain(words):
    """The name of a type or trait without its parameters."""
    words = words.split(" where ")[0].replace("->", "")
    while (less := re.sub(r"<[^<>]*>", "", words)) != words:
        words = less
    return re.sub(r"&|\bmut\b|\bdyn\b|'\w+|\w+::|\s", "", words)


def functions(text, at, end, holder, shown, found):
    """Adds each function between two places: its holder, name, whether it is public, clauses, those in its body,
    and the places where its name and it end."""
    while item := ITEM.search(text, at, end):
        named = at = item.end()
        public = (item["pub"] or "").strip() == "pub"
        if item["name"]:
            clauses, at, others = signature(text, at)
            found.append((holder, item["name"], shown or public, clauses, others, named, at))
        elif not item["kind"]:
            at = block_end(text, item.start())
        elif text[opens := re.compile(r"[{;]").search(text, at).start()] == "{":
            at, inside = block_end(text, opens), holder
            if item["kind"] == "impl":
                inside = " as ".join(plain(t) for t in reversed(re.split(r"\bfor\b", text[item.end():opens])))
            functions(text, opens + 1, at - 1, item["trait"] or inside, bool(item["trait"]) and public, found)


def contracts(crate):
    """The lines of a crate, and its numbers of public functions, of their clauses, and of those without one."""
    top = TOP / "crates" / crate / "src"
    texts = {p.relative_to(top).with_suffix("").parts: HIDDEN.sub("", p.read_text()) for p in sorted(top.rglob("*.rt"))}
    whole = "\n".join(texts.values())
    types = set(re.findall(r"\bpub\s+(?:struct|enum|trait|type)\s+(\w+)", whole))
    opened = {"lib", "main", *re.findall(r"\bpub\s+mod\s+(\w+)", whole)}
    uses = [re.findall(r"\bpub\s+use\s+([^;]+);", text) for parts, text in texts.items() if opened.issuperset(parts)]
    exported = set(re.findall(r"\w+", " ".join(sum(uses, []))))
    lines, counts = [], [0, 0, 0]
    for parts, text in texts.items():
        functions(text, 0, len(text), "", False, found := [])
        if sum(len(f[3]) + f[4] for f in found) != len(WORDS.findall(text)):
            sys.exit(f"{crate}, {parts}: a clause of no function that was found")
        for holder, name, shown, clauses, *_ in found:
            owner, of_trait = holder.split(" as ")[0], " as " in holder
            if not (clauses if of_trait else shown) or owner and owner not in types:
                continue
            counts = [counts[0] + 1, counts[1] + len(clauses), counts[2] + (not clauses)]
            if clauses:
                said = [f"{kind} {', '.join(label for k, label in clauses if k == kind)}"
                        for kind in ("requires", "ensures") if kind in dict(clauses)]
                inner = "" if (owner or name) in exported or opened.issuperset(parts) else " (inner)"
                place = [part for part in (crate, *parts, f"<{holder}>" if of_trait else holder, name)
                         if part not in ("lib", "main", "")]
                lines.append("::".join(place) + ": " + "; ".join(said) + inner)
    return lines, counts


def main():
    layer, out, sums = "", [HEAD], [0, 0, 0]
    for line in (TOP / "crates.txt").read_text().splitlines():
        crate = line.split(":")[0]
        layer = crate.lstrip("# ") if line.startswith("#") else layer
        if line[:1] not in ("#", "") and not crate.endswith("_tests"):
            lines, counts = contracts(crate)
            sums = [a + b for a, b in zip(sums, counts)]
            out.append("\n".join([f"## {crate} ({layer})", *lines]) + "\n")
    out.append(f"{sums[0]} public functions, {sums[1]} clauses, {sums[2]} without a clause.\n")
    if sys.argv[1:] == ["--check"]:
        sys.exit(0 if OUT.exists() and OUT.read_text() == "\n".join(out) else f"{OUT.relative_to(TOP)} is out of date")
    OUT.write_text("\n".join(out)) if not sys.argv[1:] else sys.exit(__doc__)


if __name__ == "__main__":
    main()
