"""A model of sessions, straight from document 01: sides by walking the tree, each message as it is sent."""

import sys

sys.setrecursionlimit(10000)
LIMIT = 1048576
USABLE = 8 * 65536
PARTS = ("count", "parents", "values", "up lease", "up cache", "up messages", "down lease", "down cache", "down messages", "accepted")


class Session:
    """The arrays as they are stored, so that any entry can be made wrong."""

    def __init__(self, parents):
        self.count, self.accepted = len(parents) + 1, 0
        self.arrays = {part: [0] * 256 for part in PARTS[1:-1]}
        self.arrays["parents"][1 : self.count] = parents

    def change(self, part, place, value):
        if part in ("count", "accepted"):
            setattr(self, part, value)
        else:
            self.arrays[part][place] = value

    # ---- the tree

    def neighbours(self):
        """Of each node, in ascending order."""
        found = [[] for _ in range(self.count)]
        for child in range(1, self.count):
            found[child].append(self.arrays["parents"][child])
            found[self.arrays["parents"][child]].append(child)
        return [sorted(nodes) for nodes in found]

    def in_rule(self):
        if not 1 <= self.count <= 256:
            return False
        parents = self.arrays["parents"]
        return all(parents[i] < i if 0 < i < self.count else parents[i] == 0 for i in range(256))

    # ---- the pairs: that to the parent is stored in `up`, that to the child in `down`, both at the child's place

    def get(self, what, u, v):
        return self.arrays[("up " if v < u else "down ") + what][max(u, v)]

    def set(self, what, u, v, value):
        self.arrays[("up " if v < u else "down ") + what][max(u, v)] = value

    def sound(self):
        if not self.in_rule() or self.accepted > LIMIT:
            return False
        unused = [0] + list(range(self.count, 256))
        if any(self.arrays[part][i] for part in PARTS[3:-1] for i in unused) or any(self.arrays["values"][self.count :]):
            return False
        near = self.neighbours()
        for u in range(self.count):
            for v in near[u]:
                k = len(side(near, u, v))
                if self.get("lease", u, v) > 2 or self.get("messages", u, v) > 2 * self.accepted:
                    return False
                if not -k * 2**31 <= self.get("cache", u, v) <= k * (2**31 - 1):
                    return False
                if any(self.get("lease", r, u) < self.get("lease", u, v) for r in near[u] if r != v):
                    return False
        return True

    # ---- the requests

    def serve(self, request, log, place, record):
        """Refusal, answer, messages, next place, and the log after; logs are binary digits, `record` gives those of a message."""
        kind, x, *value = request
        if not self.sound():
            return 6, 0, 0, 0, log
        if x >= self.count:
            return 7, 0, 0, 0, log
        if self.accepted >= LIMIT:
            return 8, 0, 0, 0, log
        after = Session([])
        after.count, after.accepted = self.count, self.accepted + 1
        after.arrays = {part: list(array) for part, array in self.arrays.items()}
        said = []
        answer = after.combine(x, said) if kind == "combine" else after.write(x, *value, said)
        text = "".join(map(record, said))
        if place + len(text) > min(len(log), USABLE):
            return 9, 0, 0, 0, log
        self.accepted, self.arrays = after.accepted, after.arrays
        return 0, answer, len(said), place + len(text), log[:place] + text + log[place + len(text) :]

    def send(self, said, u, v, message):
        """A message of the pair (u,v)."""
        said.append(message)
        self.set("messages", u, v, self.get("messages", u, v) + 1)

    def total(self, near, u, w=None):
        return self.arrays["values"][u] + sum(self.get("cache", c, u) for c in near[u] if c != w)

    def combine(self, x, said):
        near = self.neighbours()

        def walk(u, v):
            for w in near[u]:
                if w != v and self.get("lease", w, u) == 0:
                    self.send(said, w, u, ("probe", u, w))
                    walk(w, u)
                    self.set("cache", w, u, self.total(near, w, u))
                    self.send(said, w, u, ("response", w, u, self.get("cache", w, u)))

        walk(x, None)
        for u in range(self.count):
            for v in near[u]:
                if x in side(near, v, u):
                    self.set("lease", u, v, 2)
        return self.total(near, x)

    def write(self, x, value, said):
        near = self.neighbours()
        self.arrays["values"][x] = value

        def walk(u, v):
            for w in near[u]:
                if w != v and self.get("lease", u, w) > 0:
                    self.set("cache", u, w, self.total(near, u, w))
                    self.send(said, u, w, ("update", u, w, self.get("cache", u, w)))
                    self.set("lease", u, w, self.get("lease", u, w) - 1)
                    walk(w, u)
                    if self.get("lease", u, w) == 0:
                        self.send(said, u, w, ("release", w, u))

        walk(x, None)
        return 0


def side(near, u, v):
    """The nodes on u's side of its edge to v."""
    found, todo = {u}, [u]
    while todo:
        for other in near[todo.pop()]:
            if other not in found and other != v:
                found.add(other)
                todo.append(other)
    return found
