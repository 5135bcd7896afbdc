#!/usr/bin/env python3
"""The job program in plain Python, on the same tree, for bench/job to compare the times with. Takes well-formed jobs only."""
import struct
import sys

EVERY = set(range(1, 14))
TURNED = {1: 13, 2: 12, 3: 11, 4: 8, 5: 5, 6: 10, 7: 7, 8: 4, 9: 9, 10: 6, 11: 3, 12: 2, 13: 1}
TOPOLOGICAL = [EVERY, set(range(2, 13)), set(range(3, 12)), {6, 7, 9, 10}, {9}, {7}, {4, 5, 7, 8}, {5}]
NORTH_Y = [{1}, {3}, {1}, {3}, {1}, {3}, {2}, {1, 2, 3}]
NORTH_X = [EVERY, EVERY, {9}, {9}, {1}, {1, 2, 3}, EVERY, EVERY]
INSIDE = [set(), {1}, {1, 2}, {1, 2, 3, 6, 9}, {1, 2, 3, 4, 6, 7, 9, 10}, EVERY, {6, 9}, {6, 7, 9, 10}, set(range(6, 14)), {9}, {9, 10},
          set(range(9, 14)), {12, 13}, {13}]


def pairs(ys, xs):
    return {(i, j) for i in ys for j in xs}


def relation(t):
    if t < 8:
        return pairs(TOPOLOGICAL[t], TOPOLOGICAL[t])
    direction, kind = divmod(t - 8, 8)
    configurations = pairs(NORTH_Y[kind], NORTH_X[kind])
    for _ in range(direction):
        configurations = {(TURNED[j], i) for i, j in configurations}
    return configurations


RELATIONS = [relation(t) for t in range(40)]


def code(p1, p2, q1, q2):
    if p1 > q2:
        return 1
    if p1 == q2:
        return 2
    if p2 < q1:
        return 13
    if p2 == q1:
        return 12
    first = 3 if p2 > q2 else 6 if p2 == q2 else 9
    return first + (0 if p1 > q1 else 1 if p1 == q1 else 2)


def valid(r):
    return r[0] < r[2] and r[1] < r[3] and max(r) <= 1000000


def widened(a, b):
    return min(a[0], b[0]), min(a[1], b[1]), max(a[2], b[2]), max(a[3], b[3])


def area(r):
    return (r[2] - r[0]) * (r[3] - r[1])


def bounds(entries):
    r = entries[0][0]
    for e in entries[1:]:
        r = widened(r, e[0])
    return r


class Table:
    def __init__(self):
        self.pages, self.root, self.standing = [[0, []]], 0, set()

    def fill(self, p, entries):
        if len(entries) <= 8:
            self.pages[p][1] = entries
            return None
        b = bounds(entries)
        axis = 0 if b[2] - b[0] >= b[3] - b[1] else 1
        entries = sorted(entries, key=lambda e: e[0][axis])
        self.pages[p][1] = entries[:4]
        self.pages.append([self.pages[p][0], entries[4:]])
        return len(self.pages) - 1

    def entry_for(self, p):
        return bounds(self.pages[p][1]), p

    def down(self, p, new):
        level, entries = self.pages[p]
        if level == 0:
            return self.fill(p, entries + [new])
        i = min(range(len(entries)), key=lambda i: (area(widened(entries[i][0], new[0])) - area(entries[i][0]), area(entries[i][0]), i))
        child = entries[i][1]
        split = self.down(child, new)
        entries = entries[:i] + [self.entry_for(child)] + entries[i + 1:]
        return self.fill(p, entries if split is None else entries + [self.entry_for(split)])

    def place(self, number, r):
        if not valid(r):
            return 2
        if number > 1023:
            return 3
        if number in self.standing:
            return 7
        self.standing.add(number)
        old, split = self.root, self.down(self.root, (r, number))
        if split is not None:
            self.pages.append([self.pages[old][0] + 1, [self.entry_for(old), self.entry_for(split)]])
            self.root = len(self.pages) - 1
        return 0

    def query(self, q, clauses):
        if not valid(q):
            return 2, 0, []
        if not 1 <= len(clauses) <= 8:
            return 4, 0, []
        if any(c == 0 or c >> 40 for c in clauses):
            return 5, 0, []
        admitted = set.intersection(*(set().union(*(RELATIONS[t] for t in range(40) if c >> t & 1)) for c in clauses))
        may_hold = {(i, j) for i in EVERY for j in EVERY if any(a in INSIDE[i] and b in INSIDE[j] for a, b in admitted)}
        hits, opened, waiting = [], 0, [self.root]
        while waiting:
            level, entries = self.pages[waiting.pop()]
            opened += 1
            wanted = may_hold if level else admitted
            for r, n in entries:
                if (code(r[1], r[3], q[1], q[3]), code(r[0], r[2], q[0], q[2])) in wanted:
                    (waiting if level else hits).append(n)
        return 0, opened, sorted(hits)


def main():
    data = sys.stdin.buffer.read()
    words = iter(struct.unpack("<%dI" % (len(data) // 4), data))
    take = lambda n: tuple(next(words) for _ in range(n))
    table, lines = Table(), []
    for position in range(next(words)):
        refusal = table.place(next(words), take(4))
        if refusal:
            lines.append("P %d %d" % (position, refusal))
    for position in range(next(words)):
        q = take(4)
        clauses = [low + (high << 32) for low, high in (take(2) for _ in range(next(words)))]
        refusal, opened, hits = table.query(q, clauses)
        lines.append("R %d %d" % (position, refusal) if refusal else " ".join(map(str, ["Q", position, len(hits), opened] + hits)))
    sys.stdout.write("".join(line + "\n" for line in lines))


main()
