#!/usr/bin/env python3
"""Tries the built programs: tools/try.py [--quick] [--programs PATH ..] [CASE ..] [--only PART ..] [--list]

Each part of a case starts programs of its own over a temporary folder, and prints for each thing that it checks whether it
holds. The status is 1 if one doesn't. With no CASE all are tried. --list prints the names of the cases, or of the parts of CASE.
--quick tries in some three minutes the parts that need no long time. A case that fails then is tried once more, since a machine
that is busy for a moment fails a check of time. The programs are those of crates/*/out, or of a folder, or of four paths:
watchmand wmctl wmfeed wm. --rounds N is the number of random trees of `feed`, of kills of `kill` and of commands of `memory`,
and --seed N makes the first two the same again. With --of-root a feed is started with its root.

serve     sessions, odd roots, sockets and arguments         log       the lines of the server's log
sessions  sessions beside each other, and moments            messages  explanations of mistakes, byte for byte
files     state files: owners, versions, migration, calls    kill      SIGKILL in the middle of commands and migrations
triggers  triggers that are deleted or replaced              faults    each call of the state file fails once (strace)
crawls    trees of all kinds, changes during a crawl, ages   growths   each growth of memory is refused once (cc)
feed      views beside folders, and syncs (inotify-tools)    memory    31 greedy clients (4 GB), and 20,000 commands
wm        a person's use of wm, line by line (inotify-tools) clients   Watchman's own clients (apt-get, as root)"""
import argparse, glob, importlib, os, random, shutil, subprocess, sys, time, traceback

sys.dont_write_bytecode = True
HERE = os.path.dirname(os.path.abspath(__file__))
sys.path[:0] = [f"{HERE}/lib", f"{HERE}/try"]
from server import built, check, failed, programs

CASES = ["serve", "sessions", "files", "triggers", "crawls", "log", "messages", "wm", "feed", "kill", "faults", "growths",
         "memory", "clients"]
# The arguments of each case that is quick.
QUICK = {
    "messages": [],
    "log": [],
    "crawls": ["--only", "observed_during_a_crawl", "part_through_a_link", "forgotten_after_the_age", "overtaken_reading_is_7"],
    "triggers": [],
    "sessions": [],
    "files": ["--only", "kept_files_are_served", "kept_files_are_migrated", "versions_keep_what_they_can"],
    "serve": ["--only", "sessions_and_rows", "subscribers", "many_sessions", "lines_that_are_wrong", "roots_that_are_odd",
              "triggers_that_are_odd", "sockets_that_are_there", "words_and_ends", "kills"],
    "kill": ["--rounds", "40", "--seed", "1"],
    "faults": [],
    "feed": ["--rounds", "3", "--seed", "1", "--only", "create", "rename_folders", "rename_out_and_in", "exchange",
             "folders_at_once", "odd_names", "random_changes", "changes_by_many", "made_anew", "there_and_back",
             "inotifywait_killed", "nothing_survives", "feed_of_a_root", "roots_of_one_feed", "feed_before_the_server",
             "sync_rounds", "sync_by_wmctl", "every_event"],
}
ROUNDS = {"feed": 30, "kill": 200, "memory": 20000}
NEEDS = {"faults": "strace", "feed": "inotifywait", "wm": "inotifywait"}


def arguments():
    reader = argparse.ArgumentParser(description=__doc__.split("\n\n")[0], formatter_class=argparse.RawDescriptionHelpFormatter,
                                     epilog=__doc__.split("\n\n", 1)[1])
    reader.add_argument("cases", nargs="*", metavar="CASE")
    reader.add_argument("--quick", action="store_true")
    reader.add_argument("--programs", nargs="+", default=[], metavar="PATH")
    reader.add_argument("--only", nargs="+", default=[], metavar="PART")
    reader.add_argument("--rounds", type=int)
    reader.add_argument("--seed", type=int)
    reader.add_argument("--of-root", action="store_true")
    reader.add_argument("--list", action="store_true")
    chosen = reader.parse_args()
    # `--programs FOLDER CASE`: a name of a case is no path
    chosen.cases = [*chosen.cases, *(it for it in chosen.programs if it in CASES)] or CASES
    chosen.programs = [it for it in chosen.programs if it not in CASES]
    if wrong := [case for case in chosen.cases if case not in CASES]:
        reader.error(f"{wrong[0]}: no such case; the cases are {' '.join(CASES)}")
    if chosen.only and len(chosen.cases) > 1:
        reader.error("--only is for the parts of one case")
    if len(chosen.programs) not in (0, 1, 4):
        reader.error("the programs are in one folder, or at four paths: watchmand wmctl wmfeed wm")
    return chosen


def tried(case, words, where):
    """Whether a case is well, in a process of its own."""
    if case in NEEDS and not shutil.which(NEEDS[case]):
        print(f"==== {case}: skipped, {NEEDS[case]} isn't installed", flush=True)
        return True
    began = time.monotonic()
    status = subprocess.run([sys.executable, __file__, case, *words, "--programs", *where]).returncode
    print(f"==== {case}: {'well' if status == 0 else f'status {status}'}, {time.monotonic() - began:.0f} s", flush=True)
    return status == 0


def quick(cases, where):
    """The quick cases of these; one that fails is tried once more."""
    wrong = [case for case, words in QUICK.items()
             if case in cases and not tried(case, words, where) and not tried(case, words, where)]
    print(f"quick: {' '.join(wrong)} failed" if wrong else "quick: all well")
    return 1 if wrong else 0


def all_of(cases, words, where):
    wrong = [case for case in cases if not tried(case, words, where)]
    print(f"try: {' '.join(wrong)} failed" if wrong else "try: all well")
    return 1 if wrong else 0


def modules(case):
    """The module of a case, or those of its folder."""
    files = sorted(glob.glob(f"{HERE}/try/{case}/*.py"))
    return [f"{case}.{os.path.basename(file)[:-3]}" for file in files] or [case]


def parts(case, chosen):
    """The parts of one case in this process."""
    if case in NEEDS and not shutil.which(NEEDS[case]):
        sys.exit(f"tools/try.py: {case} needs {NEEDS[case]}, which isn't installed")
    named = {part.__name__: part for module in modules(case) for part in importlib.import_module(module).CASES}
    if chosen.list:
        return print(*named, sep="\n")
    if unknown := [name for name in chosen.only if name not in named]:
        sys.exit(f"tools/try.py: {case} has no {' '.join(unknown)}; it has {' '.join(named)}")
    if case in ("feed", "kill"):
        print("seed", programs.seed, flush=True)
    for name in chosen.only or named:
        print("--", name, flush=True)
        before = len(failed)
        try:
            named[name]()
        except Exception as error:
            traceback.print_exc()
            check("it runs to its end", False, f"{type(error).__name__}: {error}")
        failed[before:] = [f"{name}: {what}" for what in failed[before:]]
    print(f"{case}: {len(failed)} failed: {'; '.join(failed)}" if failed else f"{case}: all ok")
    return 1 if failed else 0


def main():
    chosen = arguments()
    where = built(chosen.programs)
    if chosen.list and chosen.cases == CASES:
        return print(*CASES, sep="\n")
    if chosen.quick:
        return quick(chosen.cases, list(where.values()))
    if chosen.cases == ["clients"]:
        return subprocess.run([f"{HERE}/../examples/clients.sh", where["watchmand"]]).returncode
    if len(chosen.cases) > 1:
        given = [("--rounds", chosen.rounds), ("--seed", chosen.seed)]
        words = [word for name, value in given if value is not None for word in (name, str(value))]
        return all_of(chosen.cases, words + ["--of-root"] * chosen.of_root, list(where.values()))
    case, seed = chosen.cases[0], random.randrange(10**9) if chosen.seed is None else chosen.seed
    vars(programs).update(where, rounds=chosen.rounds or ROUNDS.get(case), seed=seed, of_root=chosen.of_root)
    return parts(case, chosen)


if __name__ == "__main__":
    sys.exit(main())
