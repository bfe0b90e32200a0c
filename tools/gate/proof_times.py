#!/usr/bin/env python3
"""Prints how many seconds of a check each function of a crate took, the longest first: proof_times.py FOLDER [LEAST]

FOLDER is the crate's out/incremental; functions below LEAST seconds (1) are left out. The check writes a file
for each module as soon as the module is checked, so the times of the files show how long each took. A
function has several modules: its code (Lts, Kinds), its proof (Proof, Answers) and the link of both to its
contract (Tie). A module of no function is listed by its own name. The first modules include the time in which
the libraries are loaded. Other work on the machine makes all times longer."""
import collections, os, re, sys

PARTS = r"(.*)\.(Lts|Kinds[-\d]*|Proof|Goals|Answers|Invariants|Given|Statement|Tie|Code|Contract|Layout)"


def modules(folder):
    """The modules below the folder with the times at which they were written, in this order."""
    found = []
    for at, _, names in os.walk(folder):
        for name in names:
            if name.endswith(".oantt"):
                found.append((os.stat(f"{at}/{name}").st_mtime, name.removesuffix(".oantt").removesuffix(".decls")))
    return sorted(found)


def main(folder, least="1"):
    took, parts, last = collections.Counter(), collections.defaultdict(list), None
    for time, module in modules(folder):
        if last is not None:
            name = re.sub(r"^Rattle-\w+-proofs\.", "", module)
            of = re.fullmatch(PARTS, name)
            took[of[1] if of else name] += time - last
            parts[of[1] if of else name].append((time - last, of[2] if of else "itself"))
        last = time
    for name, seconds in took.most_common():
        if seconds < float(least):
            break
        dear = [f"{part} {it:.1f}" for it, part in sorted(parts[name], reverse=True)[:3] if it >= 0.1]
        print(f"{seconds:7.1f}  {name}  ({', '.join(dear)})")


if __name__ == "__main__":
    if not 2 <= len(sys.argv) <= 3:
        sys.exit(__doc__)
    main(*sys.argv[1:])
