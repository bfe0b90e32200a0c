"""Sessions beside each other, clients that are refused, sockets, and questions since moments."""
import json, os, socket, subprocess, threading, time

from server import (FILE, TOO_MANY, TOP, VERSION, Server, check, folder, names, new_state, outcome, programs, server, tree,
                    until,
                    watched)

SESSIONS, SUBSCRIPTIONS = 31, 32


def is_watched(command, told, root):
    """Whether the reply says that the root is watched, or was until then and isn't any more."""
    if command == "watch-list":
        return root in told["roots"]
    return command != "watch-del" and not told.get("error", "").startswith("5 ")


def pair(client, command, root):
    """A line about the root and a question, in one write: whether each says that the root is watched."""
    words = {"watch-list": [], "trigger": [root, {"name": "t", "command": ["true"], "expression": "false"}],
             "trigger-del": [root, "none"]}
    client.socket.sendall(b"".join(json.dumps(line).encode() + b"\n"
                                   for line in ([command, *words.get(command, [root])], ["clock", root])))
    told, question = client.next(), client.next()
    return is_watched(command, told, root), not question.get("error", "").startswith("5 "), (command, told, question)


def contradictions(client, command, root, wanted):
    """Asks until the root is watched or isn't, as wanted, and some times more: the pairs of which the first reply says so, and
    the second doesn't."""
    end, left, wrong = time.monotonic() + 10, 4, []
    while left and time.monotonic() < end:
        first, second, seen = pair(client, command, root)
        if first is wanted:
            left -= 1
            wrong += [seen] if second is not wanted else []
    return wrong + (["never told"] if left else [])


def watch_list_and_questions_agree():
    """The reply about a root that another session watches, or stops watching, and the reply to a question right after it. The
    reply `6 NotReady` is about a root that is watched."""
    with server(programs.watchmand) as s:
        top, other, asks = tree(s.folder + "/T"), s.client(), s.client()
        for commands in (["watch-list"] * 2, ["trigger-list"] * 2, ["trigger"] * 2, ["trigger-del"] * 2,
                         ["watch-list", "watch-del"]):
            wrong = []
            for _ in range(20):
                for command, request in zip(commands, ("watch", "watch-del")):
                    other.send([request, top])
                    wrong += contradictions(asks, command, top, request == "watch")
                    other.line()
            check(f"{commands[0]} and a question after it, while it is watched; {commands[1]}, while it isn't any more",
                  not wrong,
                  (len(wrong), wrong[:2]))


def run(*line):
    return outcome(subprocess.run(line, capture_output=True, stdin=subprocess.DEVNULL, timeout=60))


def ended_socket(path, read):
    """A socket whose one connection is closed without a reply, after so many bytes were read."""
    listener = socket.socket(socket.AF_UNIX)
    listener.bind(path)
    listener.listen()

    def end():
        session, _ = listener.accept()
        session.recv(read) if read else None
        session.close()
        listener.close()
    threading.Thread(target=end).start()


def refusal_17_reaches_the_client():
    with server(programs.watchmand) as s:
        held = [s.client() for _ in range(SESSIONS)]
        check("31 sessions", all(client.ask(["version"]) == VERSION for client in held))
        told = [run(programs.wmctl, s.path, '["version"]') for _ in range(60)]
        wrong = [it for it in told if it != (1, TOO_MANY, b"")]
        check("wmctl prints the refusal of the 32nd, each time", not wrong, (len(wrong), wrong[:1]))
        told = [run(programs.wmfeed, s.path, tree(s.folder + "/T")) for _ in range(10)]
        wrong = [it for it in told if it != (1, b"", b"wmfeed: 17 TooMany\n")]
        check("and wmfeed says it", not wrong, (len(wrong), wrong[:1]))
        for number, read in enumerate((0, 100)):
            path = f"{s.folder}/ended{number}"
            ended_socket(path, read)
            told = run(programs.wmctl, path, '["version"]')
            check(f"wmctl at a socket that ends after {read} bytes", told == (3, b"", b"wmctl: no reply\n"), told)


def great_root(client, top):
    """A root of 100,000 files that nobody looks for."""
    client.ask(["watch", top])
    names(client, top)
    for number in range(20):
        listed = [[f"d{number}/a-name-of-twenty-bytes-{file}", FILE] for file in range(5000)]
        client.ask(["listing", top, 1, f"d{number}", listed])


ALL = {"fields": ["name", "exists", "new", "size", "mtime_ms", "type", "cclock", "oclock"]}


def long_question(client, top):
    """A question that takes at least half a second on this machine, and has a short answer."""
    patterns, took = 16, 0
    while took < 0.5 and patterns < 1000:
        patterns, began = 2 * patterns, time.monotonic()
        asked = ["query", top, {"fields": ["name"],
                                "expression": ["anyof", *(["match", f"*a*{number}*b*"] for number in range(patterns))]}]
        client.ask(asked)
        took = time.monotonic() - began
    return asked


def longest_command(client, top, is_over):
    """The longest that a command of another root took until it is over."""
    longest, commands = 0, 0
    while not is_over() or commands < 2:
        began = time.monotonic()
        client.ask(["watch", top] if commands % 2 == 0 else ["watch-del", top])
        longest, commands = max(longest, time.monotonic() - began), commands + 1
    return longest


def for_seconds(seconds):
    end = time.monotonic() + seconds
    return lambda: time.monotonic() > end


def least_delay(measure, alone):
    """By how much commands took longer than alone, in the best of three tries: a busy machine may hold one up."""
    delays = []
    while len(delays) < 3 and min(delays, default=1) > 0.1:
        delays.append(measure() - alone)
    return min(delays)


def long_question_delays_no_command():
    with server(programs.watchmand) as s:
        asks, other, top, path = s.client(), s.client(), s.folder + "/none", s.folder + "/other"
        great_root(asks, top)
        alone, hard = longest_command(other, path, for_seconds(1)), long_question(asks, top)

        def beside_a_question():
            answered = threading.Event()
            asks.send(hard)
            threading.Thread(target=lambda: (asks.line(), answered.set())).start()
            return longest_command(other, path, answered.is_set)

        def beside_one_who_never_reads():
            deaf = s.client()
            for _ in range(4):
                deaf.send(["query", top, ALL])
            longest = longest_command(other, path, for_seconds(2))
            deaf.close()
            return longest
        delay = least_delay(beside_a_question, alone)
        check("while a question takes long, a command takes less than 100 ms more", delay < 0.1, (delay, alone))
        delay = least_delay(beside_one_who_never_reads, alone)
        check("and while a client doesn't read long answers", delay < 0.1, (delay, alone))


def processor_seconds(process):
    """What all threads of a process took."""
    return time.clock_gettime((~process.pid << 3) | 2)


def waits(process):
    """How often its threads waited and were woken."""
    found = 0
    for task in os.listdir(f"/proc/{process.pid}/task"):
        with open(f"/proc/{process.pid}/task/{task}/status") as text:
            found += next(int(line.split()[1]) for line in text if line.startswith("voluntary_ctxt_switches"))
    return found


def observing_takes(s, client, root):
    """The least processor time of 2,000 observations, and how often threads waited meanwhile, of three times. The session's own
    thread waits up to three times for each, more often on a busy machine."""
    taken, woken = [], []
    for _ in range(3):
        began, before = processor_seconds(s.process), waits(s.process)
        for number in range(2000):
            client.ask(["observe", root, [["x", {**FILE, "size": number % 7}]]])
        taken.append(processor_seconds(s.process) - began)
        woken.append(waits(s.process) - before)
    return min(taken), min(woken)


def observations_wake_only_their_subscribers():
    with watched(programs.watchmand) as (s, top, a, b):
        other = tree(s.folder + "/other")
        a.ask(["watch", other])
        names(a, other)
        sessions = [a, *(s.client() for _ in range(SESSIONS - 2))]
        alone, woken_alone = observing_takes(s, b, other)
        for client in sessions:
            for number in range(SUBSCRIPTIONS):
                client.ask(["subscribe", top, f"s{number}",
                            {"fields": ["name"], "expression": ["suffix", "none"], "since": "c:1:1:1"}])
        beside, woken = observing_takes(s, b, other)
        check("observations wake no thread for 960 subscriptions of another root", woken < woken_alone + 4000,
              (woken, woken_alone))
        check("and take no more of the processor", beside < 1.1 * alone + 0.05, (beside, alone))


def commands_leave_no_memory():
    """A trigger of 16 KB that is replaced again and again."""
    with watched(programs.watchmand) as (s, top, a, _):
        def replace(times):
            for number in range(times):
                a.ask(["trigger", top, {"name": "t", "command": ["true", *["w" * 1000] * 15],
                                        "expression": ["size", "eq", number]}])
            return s.memory()
        before, after = replace(50), replace(300)
        check("300 commands of 16 KB that replace each other", after - before < 2000, (before, after))


def socket_of_another_server_stays():
    with folder() as made:
        os.mkdir(made + "/B")
        one = Server(programs.watchmand, made, "--sessions", "1", socket_name="t")
        a = one.client()
        a.ask(["version"])
        os.remove(one.path)
        other = Server(programs.watchmand, made + "/B", "--sessions", "2", socket_name="../t")
        try:
            a.close()
            check("a server whose socket was removed ends well", one.wait() == (0, b""))
            is_there = os.path.exists(one.path)
            check("and leaves the socket that another has made there", is_there and other.client().ask(["version"]) == VERSION,
                  is_there)
            if is_there:
                other.client().close()
                check("which that one removes", other.wait() == (0, b"") and not os.path.exists(one.path))
        finally:
            one.process.kill()
            other.process.kill()
            other.process.wait()


def moments():
    """The requests of the second session of examples/sessions.md, and their replies."""
    with open(f"{TOP}/examples/sessions.md", "rb") as page:
        lines = page.read().split(b"\n## Questions since moments\n")[1].split(b"```\n")[1].splitlines(True)
    return [b"".join(line for line in lines if line.startswith(first)) for first in (b"[", b"{")]


def lines_that_ask_since_moments():
    """A session of `lines`, in which the moment of an operation is the number of its line."""
    requests, wanted = moments()
    with folder() as made:
        new_state(programs.watchmand, made + "/state")
        ran = subprocess.run([programs.watchmand, "lines", made + "/state"], input=requests, capture_output=True, timeout=60)
        wrong = [pair for pair in zip(ran.stdout.splitlines(), wanted.splitlines()) if pair[0] != pair[1]]
        check("lines that ask since moments", wanted and outcome(ran) == (0, wanted, b""), wrong[:1] or ran)


def second():
    return int(time.time())


def next_second():
    """Waits until a second begins."""
    before = second()
    return until(lambda: second() > before and second())


def answered(client, *request):
    """Whether an answer is fresh, and its files."""
    seen = client.reply(list(request))
    return seen.get("is_fresh_instance"), seen.get("files", seen)


def questions_since_a_second():
    """The second of an operation is that in which the server took it in, whatever the file's own time is."""
    with watched(programs.watchmand) as (s, top, a, b):
        since = next_second()
        a.ask(["observe", top, [["new", FILE], ["a", FILE]]])
        both = [{"exists": True, "name": "a", "new": False, "size": 1}, {"exists": True, "name": "new", "new": True, "size": 1}]
        seen = answered(b, "since", top, since)
        check("since the second of an observation it is listed, and no crawl of a second before", seen == (False, both), seen)
        seen = answered(b, "query", top, {"since": since, "fields": ["name"], "expression": ["name", "new"]})
        check("and in a query", seen == (False, ["new"]), seen)
        fresh, files = answered(b, "query", top, {"since": 0, "fields": ["name"]})
        check("since a second before the first crawl all is fresh", (fresh, sorted(files)) == (True, ["a", "d", "d/b", "new"]),
              (fresh, files))
        later = next_second()
        seen = answered(b, "since", top, later)
        check("since a later second nothing is listed", seen == (False, []), seen)
        seen = [b.reply(["query", top, {"since": number}]).get("error") for number in (-1, 2**63, 1.5, "8", True)]
        check("other numbers and values are refused", seen == ["7 BadClock"] * 4 + ["3 BadArguments"], seen)
        subscribed_since(a, b, top, since, later)
        forgotten_since(a, b, top, later)


def subscribed_since(a, b, top, since, later):
    """A subscription asks by its number once, and by clocks from then on."""
    for name, number, first in (("s", since, ["a", "new"]), ("none", later + 1000, [])):
        b.ask(["subscribe", top, name, {"since": number, "fields": ["name"]}])
        line = b.next()
        is_right = (line["subscription"], line["is_fresh_instance"], line["files"]) == (name, False, first)
        check(f"the first line of a subscription since a number lists {len(first)} files", is_right, line)
    a.ask(["observe", top, [["more", FILE]]])
    lines = [b.next() for _ in range(2)]
    seen = [(line["subscription"], line["is_fresh_instance"], line["files"]) for line in lines]
    check("a later line is since the one before", seen == [("s", False, ["more"]), ("none", False, ["more"])], seen)
    for name in ("s", "none"):
        b.ask(["unsubscribe", top, name])


def forgotten_since(a, b, top, later):
    """A deletion is listed until it is forgotten, and then the answer is fresh."""
    a.ask(["observe", top, [["new", None]]])
    fresh, files = answered(b, "query", top, {"since": later, "fields": ["name", "exists", "new"]})
    check("a deletion is listed", not fresh and {"exists": False, "name": "new", "new": False} in files, (fresh, files))
    a.ask(["age-out", top, 0])
    fresh, files = answered(b, "query", top, {"since": later, "fields": ["name"]})
    check("once it is forgotten all is fresh", (fresh, sorted(files)) == (True, ["a", "d", "d/b", "more"]), (fresh, files))
    seen = answered(b, "since", top, second() + 1000)
    check("but not since a second after it", seen == (False, []), seen)


CASES = [watch_list_and_questions_agree, long_question_delays_no_command, observations_wake_only_their_subscribers,
         commands_leave_no_memory, socket_of_another_server_stays, refusal_17_reaches_the_client, lines_that_ask_since_moments,
         questions_since_a_second]
