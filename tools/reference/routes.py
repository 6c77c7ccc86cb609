"""Whole journeys over an unchanged host: the faces are taken as closed rings of darts, found all at once."""

from fractions import Fraction
from functools import cmp_to_key

from floors import turn

ORIGIN = (0, 0)


def upper(direction):
    """Whether a direction points up, or level to the right."""
    return direction[1] > 0 or (direction[1] == 0 and direction[0] > 0)


def clockwise(a, b):
    """Below 0 when a comes before b clockwise from the level way left, which itself comes last."""
    if upper(a) != upper(b):
        return -1 if upper(a) else 1
    return turn(ORIGIN, a, b)


def meeting(s, t, u, v):
    """The part of the way from s to t at which the open stretches st and uv meet, or None."""
    way, link, gap = (t[0] - s[0], t[1] - s[1]), (v[0] - u[0], v[1] - u[1]), (u[0] - s[0], u[1] - s[1])
    scale = turn(ORIGIN, way, link)
    if scale == 0:
        return None
    along_way = Fraction(turn(ORIGIN, gap, link), scale)
    along_link = Fraction(turn(ORIGIN, gap, way), scale)
    return along_way if 0 < along_way < 1 and 0 < along_link < 1 else None


class Journey:
    """The hops (sender, receiver, phase) of a packet, its end, and the number of rounds."""

    def __init__(self, hops, end, rounds):
        self.hops = hops
        self.end = end
        self.rounds = rounds


class Faces:
    """The kept graph drawn in the plane: the clockwise ring of links of each node, and all faces."""

    def __init__(self, graph):
        self.graph = graph
        self.rings = {node: self.sort_round(node, graph.kept[node]) for node in graph.kept}
        self.after = {}
        for node, ring in self.rings.items():
            for place, other in enumerate(ring):
                self.after[other, node] = (node, ring[(place + 1) % len(ring)])
        self.faces, self.found = [], {}
        for dart in self.after:
            if dart not in self.found:
                self.take_face(dart)

    def sort_round(self, node, others):
        """Nodes in clockwise order round a node."""
        here = self.graph.points[node]

        def direction(other):
            there = self.graph.points[other]
            return there[0] - here[0], there[1] - here[1]

        return sorted(others, key=cmp_to_key(lambda a, b: clockwise(direction(a), direction(b))))

    def take_face(self, dart):
        """Store the closed ring of darts that a dart belongs to."""
        face = []
        while dart not in self.found:
            self.found[dart] = (len(self.faces), len(face))
            face.append(dart)
            dart = self.after[dart]
        self.faces.append(face)

    def orbit(self, dart):
        """The whole face of a dart, from that dart on."""
        number, place = self.found[dart]
        face = self.faces[number]
        return face[place:] + face[:place]

    def first_dart(self, source, target):
        """The dart from the source that is first clockwise from the direction of the target, or None."""
        kept = self.graph.kept[source]
        if not kept:
            return None
        if target in kept:
            return source, target
        ring = self.sort_round(source, [target, *kept])
        return source, ring[(ring.index(target) + 1) % len(ring)]

    def meetings(self, source, target, orbit):
        """For each dart of an orbit where it meets the way from source to target, or None."""
        points = self.graph.points
        return [None if {source, target} & {u, v}
                else meeting(points[source], points[target], points[u], points[v]) for u, v in orbit]


def journey(faces, source, target):
    """The whole journey of a packet."""
    faces.graph.check_ends(source, target)
    if source == target:
        return Journey([], "delivered", 0)
    dart, entry, hops, rounds = faces.first_dart(source, target), Fraction(0), [], 0
    if dart is None:
        return Journey([], "unreachable", 0)
    while True:
        rounds += 1
        orbit = faces.orbit(dart)
        receivers = [v for _, v in orbit]
        if target in receivers:
            hops += [(u, v, "Round") for u, v in orbit[:receivers.index(target) + 1]]
            return Journey(hops, "delivered", rounds)
        hops += [(u, v, "Round") for u, v in orbit]
        met = faces.meetings(source, target, orbit)
        beyond = [place for place in met if place is not None and place > entry]
        if not beyond or beyond.count(max(beyond)) > 1:
            return Journey(hops, "unreachable", rounds)
        entry = max(beyond)
        best = met.index(entry)
        u, v = orbit[best]
        ahead, back = orbit[:best], orbit[best + 1:]
        if len(ahead) <= len(back):
            hops += [(a, b, "Ahead") for a, b in ahead]
            dart = faces.after[v, u]
        else:
            hops += [(b, a, "Back") for a, b in reversed(back)]
            dart = (v, u)
