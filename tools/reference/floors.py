"""Points, maps, hosts, planarisers and the links that are kept."""

from collections import deque
from math import gcd

MOST_NODES = 64
MOST_COORDINATE = 32767
MOST_REACH = 46340


class Refused(Exception):
    """A call was refused; `number` tells why, `place` where, if that is told."""

    def __init__(self, number, place=None):
        super().__init__(number)
        self.number = number
        self.place = place


def turn(a, b, c):
    """Positive when c lies left of the way from a to b, negative when right, 0 on the line."""
    return (b[0] - a[0]) * (c[1] - a[1]) - (b[1] - a[1]) * (c[0] - a[0])


def square(a, b):
    """The squared distance of two points."""
    return (a[0] - b[0]) ** 2 + (a[1] - b[1]) ** 2


def slope(a, b):
    """The direction of the line through two different points, the same from either end."""
    across, up = b[0] - a[0], b[1] - a[1]
    if across < 0 or (across == 0 and up < 0):
        across, up = -across, -up
    common = gcd(across, up)
    return across // common, up // common


class Map:
    """The placed points, no two equal and no three on a line."""

    def __init__(self):
        self.points = []

    def place(self, x, y):
        """Place one node and answer its number."""
        new = (x, y)
        if len(self.points) >= MOST_NODES:
            raise Refused(21)
        if max(new) > MOST_COORDINATE:
            raise Refused(22)
        if new in self.points:
            raise Refused(23)
        if len({slope(new, old) for old in self.points}) < len(self.points):
            raise Refused(24)
        self.points.append(new)
        return len(self.points) - 1


class Host:
    """A reach, and for each node a point and whether it is in service."""

    def __init__(self, points, reach):
        if not 1 <= reach <= MOST_REACH:
            raise Refused(31)
        self.reach = reach
        self.points = list(points)
        self.marks = [True] * len(self.points)

    def has(self, node):
        """Whether the number is a node's."""
        return 0 <= node < len(self.points)

    def switch(self, node, mark):
        """Put a node in or out of service; a number that is no node alters nothing."""
        if self.has(node):
            self.marks[node] = mark

    def neighbours(self, node):
        """The other nodes in radio reach, in order of number."""
        if not self.marks[node]:
            return []
        here, limit = self.points[node], self.reach ** 2
        return [other for other, there in enumerate(self.points)
                if other != node and self.marks[other] and square(here, there) <= limit]


def joined(host, source, target):
    """Whether a chain of radio links leads from source to target, by breadth-first search."""
    seen, waiting = {source}, deque([source])
    while waiting:
        for other in host.neighbours(waiting.popleft()):
            if other not in seen:
                seen.add(other)
                waiting.append(other)
    return target in seen


def gabriel(u, v, w):
    """Whether w is in the closed disc with diameter uv: twice w is measured from twice the centre."""
    across, up = 2 * w[0] - u[0] - v[0], 2 * w[1] - u[1] - v[1]
    return across * across + up * up <= square(u, v)


def relative(u, v, w):
    """Whether w is strictly nearer to u, and strictly nearer to v, than these are to each other."""
    return max(square(u, w), square(v, w)) < square(u, v)


PLANARISERS = {"Gabriel": gabriel, "relative": relative}


class Graph:
    """The kept links of a host: for each node the set of its kept neighbours."""

    def __init__(self, host, blocks):
        self.points = host.points
        self.marks = list(host.marks)
        near = [host.neighbours(node) for node in range(len(self.points))]
        self.kept = {node: set() for node in range(len(self.points))}
        for u, v in ((u, v) for u in self.kept for v in near[u] if u < v):
            ends = self.points[u], self.points[v]
            if not any(w != v and blocks(*ends, self.points[w]) for w in near[u]):
                self.kept[u].add(v)
                self.kept[v].add(u)

    def has(self, node):
        """Whether the number is a node's."""
        return 0 <= node < len(self.points)

    def check_ends(self, source, target):
        """Refuse a packet whose source or target is no node or out of service."""
        if not (self.has(source) and self.has(target)):
            raise Refused(43)
        if not (self.marks[source] and self.marks[target]):
            raise Refused(44)

    def count(self):
        """The number K of kept links."""
        return sum(map(len, self.kept.values())) // 2
