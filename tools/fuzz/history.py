"""The history of a root, for the fuzzer's model: wm_view, specs/Histories.antt; wm_since, specs/Answers.antt.

All maps of all ticks are kept, and each answer is computed from them anew (tools/fuzz/fuzz.py)."""
from terms import holds


class Refused(Exception):
    """The number of a refusal."""


def is_below(path, top):
    return not top or path.startswith(top + "/")


class History:
    """A root number in one incarnation: for each tick a map from paths that exist to their metadata (kind, size, mtime_ms)."""

    def __init__(self, incarnation, number):
        self.incarnation, self.number = incarnation, number
        self.maps, self.moments, self.floor, self.kept = [{}], [0], 0, {}
        self.moment_floor, self.forgotten = None, set()

    def tick(self):
        return len(self.maps) - 1

    def is_ready(self):
        return self.tick() > 0

    def clock(self, tick=None):
        return f"c:{self.incarnation}:{self.number}:{self.tick() if tick is None else tick}"

    def differs(self, path, tick):
        return self.maps[tick].get(path) != self.maps[tick - 1].get(path)

    def last_change(self, path, now=None):
        """The greatest tick at which the map differs at the path from the map before; 0 if there is none."""
        ticks = range(self.tick() if now is None else now, 0, -1)
        return next((tick for tick in ticks if self.differs(path, tick)), 0)

    def creation(self, path, now):
        return next((tick for tick in range(now, 0, -1) if path in self.maps[tick] and path not in self.maps[tick - 1]), 0)

    def last_metadata(self, path, now):
        return next(self.maps[tick][path] for tick in range(now, 0, -1) if path in self.maps[tick])

    def entries(self, now):
        """Each path that existed once, at a tick: (path, exists, metadata, creation, last change)."""
        if now not in self.kept:
            paths = set().union(*self.maps[:now + 1])
            self.kept[now] = [(path, path in self.maps[now], self.last_metadata(path, now), self.creation(path, now),
                               self.last_change(path, now))
                              for path in paths]
        return self.kept[now]

    def goes_to(self, moment, after):
        """An operation that makes another map adds a tick; the first listing makes tick 1, whatever it lists. A
        forgotten path that exists is known again."""
        if not self.is_ready() or after != self.maps[-1]:
            self.maps.append(after)
            self.moments.append(moment)
            self.forgotten -= set(after)

    def needs_ready(self):
        if not self.is_ready():
            raise Refused(6)

    def observe(self, moment, pairs):
        self.needs_ready()
        if len(pairs) > 65536:
            raise Refused(17)
        last = dict(pairs)
        after = {path: metadata for path, metadata in {**self.maps[-1], **last}.items() if metadata is not None}
        self.goes_to(moment, after)

    def listing(self, moment, begun_at, top, pairs):
        """A whole first listing, or a recrawl: it decides about the paths below the top whose last change is at
        begun_at or before."""
        if not self.is_ready() and (top or begun_at):
            raise Refused(6)
        if self.is_ready() and not self.floor <= begun_at <= self.tick():
            raise Refused(7)
        listed = dict(pairs)
        after = dict(listed)
        for path in set(self.maps[-1]) | set(listed):
            if not is_below(path, top) or self.is_ready() and self.last_change(path) > begun_at:
                after.pop(path, None)
                after.update({path: self.maps[-1][path]} if path in self.maps[-1] else {})
        self.goes_to(moment, after)

    def age_out(self, now, age):
        """It forgets the paths that were deleted so long ago. The floor becomes the greatest last change of such a
        path, the moment floor the greatest moment of one."""
        self.needs_ready()
        deleted = {path: changed for path, exists, _, _, changed in self.entries(self.tick()) if not exists}
        gone = {path: changed for path, changed in deleted.items() if self.moments[changed] + age <= now}
        self.floor = max([self.floor, *gone.values()])
        moments = [self.moments[changed] for changed in gone.values()]
        moments += [] if self.moment_floor is None else [self.moment_floor]
        self.moment_floor = max(moments, default=None)
        self.forgotten |= set(gone)

    def is_fresh(self, since, now, floor):
        """No start; a moment before the first listing's, or up to the moment floor; a clock of another incarnation
        or root number, below the floor or above the tick. A start is a clock's three numbers, or a moment, which
        is one number."""
        if isinstance(since, int):
            return since < self.moments[1] or self.moment_floor is not None and since <= self.moment_floor
        return since is None or since[:2] != (self.incarnation, self.number) or not floor <= since[2] <= now

    def is_since(self, since, tick):
        """Whether a tick is after a clock, or its moment at a moment or later. Nothing is at tick 0."""
        return tick > 0 and self.moments[tick] >= since if isinstance(since, int) else tick > since[2]

    def has_changed(self, since, path, changed):
        """A path that was forgotten isn't listed since a moment."""
        return self.is_since(since, changed) and not (isinstance(since, int) and path in self.forgotten)

    def answer(self, since, expression=None, empty=False, now=None, floor=None):
        """(clock, fresh, files); a file is a dict of all fields. The last change first, then in the order of the paths' bytes."""
        now = self.tick() if now is None else now
        fresh = self.is_fresh(since, now, self.floor if floor is None else floor)
        files = []
        for path, exists, metadata, created, changed in self.entries(now):
            asked = exists and not empty if fresh else self.has_changed(since, path, changed)
            if asked and (expression is None or holds(expression, (path, exists, metadata))):
                told = {"name": path, "exists": exists, "new": fresh or self.is_since(since, created), "size": metadata[1],
                        "type": metadata[0],
                        "mtime_ms": metadata[2], "cclock": self.clock(created), "oclock": self.clock(changed)}
                files.append((-changed, path.encode(), told))
        return self.clock(now), fresh, [file[2] for file in sorted(files, key=lambda file: file[:2])]
