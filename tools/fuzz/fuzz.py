#!/usr/bin/env python3
"""Compares `watchmand` with a model of its definitions, for random input: tools/fuzz/fuzz.py [--seed N] [--count N] [--minutes M]
[--only lines|files|sockets|together] WATCHMAND

One seed is one run of each kind; `--seed N --count 1` repeats it. Each difference is printed, shortened; then the status
is 1. The model is in model.py and state_file.py, and in the files that they import. First the model answers the sessions of
the documents, so that it is compared with them too. `--count 3000` takes about an hour."""
import argparse, contextlib, os, random, shutil, signal, string, subprocess, sys, time

sys.dont_write_bytecode = True
sys.setrecursionlimit(20000)
TOOLS = os.path.dirname(os.path.dirname(os.path.abspath(__file__)))
sys.path[1:1] = [TOOLS, f"{TOOLS}/lib"]
import files, lines, model, pages, shorten, sockets, together

KINDS = {"lines": lines, "files": files, "sockets": sockets, "together": together}


def words():
    reader = argparse.ArgumentParser(description="Compares watchmand with a model of its definitions.")
    reader.add_argument("--seed", type=int, default=1, help="the first seed (1)")
    reader.add_argument("--count", type=int, default=100, help="how many seeds (100)")
    reader.add_argument("--seconds", type=int, default=10**9, help="begin no run after so many seconds")
    reader.add_argument("--minutes", type=float, help="run seeds until so many minutes have passed, however many these are")
    reader.add_argument("--only", choices=sorted(KINDS), help="only runs of this kind")
    reader.add_argument("program")
    asked = reader.parse_args()
    if asked.minutes is not None:
        asked.count, asked.seconds = 10**9, asked.minutes * 60
    return asked


def differs(runs, program, folder, case):
    try:
        return runs.difference(program, folder, case)
    except subprocess.TimeoutExpired as problem:
        return str(problem)


def tried(program, kind, seed, folder, totals):
    """One run of a kind; whether it finds no difference."""
    runs = KINDS[kind]
    case = runs.run_by(random.Random(f"{kind} {seed}"))
    problem = differs(runs, program, folder, case)
    for name, number in runs.counts(case).items():
        totals[name] = totals.get(name, 0) + number
    if problem is None:
        return True
    short, problem = shorten.shortened(lambda part: differs(runs, program, folder, part), case, problem)
    print(f"DIFFERENCE by --only {kind} --seed {seed} --count 1: {problem}\n{runs.shown(short)}", flush=True)
    return False


def of_documents():
    """The requests that the documents answer differently from the model."""
    found = []
    for name, session in pages.sessions():
        answering = model.Session()
        for request, wanted in session:
            seen = answering.met(f"{request}\n".encode()).decode().splitlines()
            if seen != wanted:
                found.append(f"{name}, to {request}:\n  the page has {wanted}\n  the model    {seen}")
    return found


@contextlib.contextmanager
def own_folder():
    """A folder, in memory if possible. Its name always has the same length, so that a seed makes the same lines."""
    place = "/dev/shm" if os.path.isdir("/dev/shm") else "/tmp"
    name = next(name for name in (f"{place}/watchmand-fuzz-{letter}" for letter in string.ascii_lowercase) if made(name))
    try:
        yield name
    finally:
        shutil.rmtree(name, ignore_errors=True)


def made(name):
    try:
        os.mkdir(name)
        return True
    except FileExistsError:
        return False


def main():
    asked, stopped = words(), []
    signal.signal(signal.SIGTERM, lambda *_: stopped.append(True))
    kinds = [asked.only] if asked.only else list(KINDS)
    wrong = of_documents()
    print("".join(f"DIFFERENCE of the model and {problem}\n" for problem in wrong), end="")
    end, totals, differences, tries = time.time() + asked.seconds, {}, len(wrong), 0
    with own_folder() as folder:
        sockets.PLACE = folder + "/run"
        for seed in range(asked.seed, asked.seed + asked.count):
            if stopped or time.time() > end:
                break
            differences += sum(not tried(os.path.abspath(asked.program), kind, seed, folder, totals) for kind in kinds)
            tries += 1
    print(f"{tries} seeds from {asked.seed} on: " + ", ".join(f"{number} {name}" for name, number in totals.items())
          + f", {differences} differences")
    return 1 if differences else 0


sys.exit(main())
