#!/usr/bin/env python3
"""Where the processor minutes of a run of `rt ci` go: tools/gate/minutes.py TABLE COMMAND..

Runs the command, and writes at its end a table to the file TABLE: for each crate the processor minutes of its
proof, its tests and its must-fail edits, how many edits were tried, and the most memory that one check took. With
--of PID in place of COMMAND it watches a run that goes on, and writes the table anew each minute.

rt prints no times, so this looks each second at the processes below the run. What a process takes after the last
look is lost, and so is what ended before the watching began."""
import collections, os, pathlib, subprocess, sys, time

PROC = pathlib.Path("/proc")
TICKS = os.sysconf("SC_CLK_TCK")
KINDS = ("proof", "tests", "edits")


def processes():
    """Each process with its parent and its own processor seconds."""
    found = {}
    for path in PROC.iterdir():
        if path.name.isdigit():
            try:
                words = (path / "stat").read_text().rpartition(")")[2].split()
                found[int(path.name)] = int(words[1]), (int(words[11]) + int(words[12])) / TICKS
            except OSError:
                pass
    return found


def check_of(pid):
    """Of which crate a process of rattle is a check, of which kind, and whether it tries an edit; None of another process."""
    words = (PROC / str(pid) / "cmdline").read_bytes().decode(errors="replace").split("\0")
    if os.path.basename(words[0]) != "rattle" or "--crate-name" not in words:
        return None
    is_edit = os.path.basename(os.readlink(PROC / str(pid) / "cwd")).startswith("rt-edit-")
    over = words[words.index("--incremental") + 1] if "--incremental" in words else ""
    kind = "edits" if is_edit else "tests" if "--test" in words else "proof"
    return words[words.index("--crate-name") + 1], kind, is_edit and not over.endswith("/seed")


def memory_of(pid):
    """The most memory that a process took, in bytes."""
    lines = (PROC / str(pid) / "status").read_text().splitlines()
    return sum(int(line.split()[1]) * 1024 for line in lines if line.startswith("VmHWM:"))


class Minutes:
    """What was seen of a run: each check, and the processor seconds and memory of each process of it."""

    def __init__(self, top):
        self.top, self.checks, self.seen, self.ended = top, {}, {}, []
        self.at_once = collections.Counter()

    def owner(self, pid, found):
        """The check that a process below the run is, or else the one that it is below, if there is one."""
        owner = None
        while pid in found and pid != self.top:
            if pid not in self.checks and not owner and (check := check_of(pid)):
                self.checks[pid] = check
            owner = owner or (pid if pid in self.checks else None)
            pid = found[pid][0]
        return owner if pid == self.top else None

    def look(self, passed):
        """Looks at the processes below the run, so many seconds after the last look."""
        found, owners = processes(), set()
        for pid, (_, seconds) in found.items():
            try:
                if owner := self.owner(pid, found):
                    owners.add(owner)
                    crate, kind, is_edit = self.checks[owner]
                    self.seen[pid] = crate, kind, is_edit and pid == owner, seconds, memory_of(pid)
            except OSError:
                pass
        # another process may get the number of one that has ended
        self.ended += [self.seen.pop(pid) for pid in [*self.seen] if pid not in found]
        self.checks = {pid: check for pid, check in self.checks.items() if pid in found}
        self.at_once[len(owners)] += passed

    def table(self):
        """The table, the costliest crate first."""
        rows = collections.defaultdict(lambda: dict.fromkeys((*KINDS, "tried", "memory"), 0))
        for crate, kind, is_edit, seconds, memory in [*self.ended, *self.seen.values()]:
            row = rows[crate]
            row[kind] += seconds / 60
            row["tried"] += is_edit
            row["memory"] = max(row["memory"], memory / 1e9)
        lines = [f"{'crate':16} {'all':>6} {'proof':>6} {'tests':>6} {'edits':>6} {'tried':>6} {'GB':>6}"]
        rows = sorted(rows.items(), key=lambda row: -sum(row[1][kind] for kind in KINDS))
        every = {key: sum(row[key] for _, row in rows) for key in (*KINDS, "tried")} | {"memory": max([row["memory"] for _, row in rows], default=0)}
        for crate, row in [*rows, ("all", every)]:
            minutes = [sum(row[kind] for kind in KINDS), *(row[kind] for kind in KINDS)]
            lines.append(f"{crate:16} " + " ".join(f"{it:6.1f}" for it in minutes) + f" {row['tried']:6} {row['memory']:6.1f}")
        spent = ", ".join(f"{number}: {seconds / 60:.1f}" for number, seconds in sorted(self.at_once.items()))
        return "\n".join([*lines, f"minutes with so many checks at once: {spent}", ""])


def main():
    if len(sys.argv) < 3:
        sys.exit(__doc__)
    to, of = pathlib.Path(sys.argv[1]), sys.argv[2] == "--of"
    ran = None if of else subprocess.Popen(sys.argv[2:])
    minutes = Minutes(int(sys.argv[3]) if of else ran.pid)
    last = written = time.monotonic()
    while (PROC / str(minutes.top)).is_dir() and (of or ran.poll() is None):
        time.sleep(1)
        now = time.monotonic()
        minutes.look(now - last)
        last = now
        if of and now - written > 60:
            written = now
            to.write_text(minutes.table())
    to.write_text(minutes.table())
    return 0 if of else ran.returncode if ran.returncode >= 0 else 128 - ran.returncode


if __name__ == "__main__":
    sys.exit(main())
