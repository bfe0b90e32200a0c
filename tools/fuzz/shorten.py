"""Shortens a case, for tools/fuzz/fuzz.py: leaves out sessions and then lines, as long as there is a difference."""
import time


def without(items, start, count):
    return items[:start] + items[start + count:]


def shorter(items, holds):
    """The items without those that can be left out, in halves, quarters and so on; `holds` says whether a shorter
    list will do."""
    size = max(1, len(items) // 2)
    while items:
        start = 0
        while start < len(items):
            part = without(items, start, size)
            items, start = (part, start) if holds(part) else (items, start + size)
        if size == 1:
            break
        size //= 2
    return items


def shortened(differs, sessions, problem, seconds=40):
    """The sessions that are left, and their difference."""
    end, told = time.time() + seconds, [problem]

    def holds(part):
        seen = differs(part) if time.time() < end else None
        told[0] = seen or told[0]
        return bool(seen)

    sessions = shorter(sessions, holds)
    for number in range(len(sessions)):
        lines, ending = sessions[number]
        in_place = lambda part: sessions[:number] + [(part, ending)] + sessions[number + 1:]
        sessions = in_place(shorter(lines, lambda part: holds(in_place(part))))
    return sessions, told[0]
