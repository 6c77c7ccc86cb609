#!/usr/bin/env python3
"""A second implementation of the floor network, written from its rules alone.

It shares no code with the crates, and is as naive as the rules allow: whole numbers and exact fractions, no
tables, nothing kept that can be worked out again.

    python3 tools/reference.py verify           works the floors that were worked by hand
    python3 tools/reference.py account          the account that the program must print
    python3 tools/reference.py table            the random floors that the library is run over
"""

import random
import sys
from copy import copy
from fractions import Fraction

# --- points, turns and the map ---------------------------------------------------------------------------------------


def turn(a, b, c):
    """Positive when c lies left of the way from a to b."""
    return (b[0] - a[0]) * (c[1] - a[1]) - (b[1] - a[1]) * (c[0] - a[0])


def squared(a, b):
    """The squared distance of two points."""
    return (b[0] - a[0]) ** 2 + (b[1] - a[1]) ** 2


def inner(a, b, c):
    """The inner product of a - c and b - c."""
    return (a[0] - c[0]) * (b[0] - c[0]) + (a[1] - c[1]) * (b[1] - c[1])


class Refused(Exception):
    """A call was refused, with the number of the refusal."""

    def __init__(self, number):
        super().__init__(number)
        self.number = number


class Map:
    """Up to 64 points, no two at one place, no three on one line."""

    def __init__(self, points=()):
        self.points = []
        for p in points:
            self.place(p)

    def place(self, p):
        """The number of the new node."""
        if len(self.points) == 64:
            raise Refused(21)
        if p[0] > 32767 or p[1] > 32767:
            raise Refused(22)
        if p in self.points:
            raise Refused(23)
        for a in self.points:
            for b in self.points:
                if a != b and turn(a, b, p) == 0:
                    raise Refused(24)
        self.points.append(p)
        return len(self.points) - 1


# --- hosts, planarisers, kept links ----------------------------------------------------------------------------------


class Host:
    """A reach, and nodes with points and service marks."""

    def __init__(self, the_map, reach):
        if reach == 0 or reach > 46340:
            raise Refused(31)
        self.reach = reach
        self.points = list(the_map.points)
        self.serving = [True] * len(self.points)

    def count(self):
        return len(self.points)

    def are_neighbours(self, i, k):
        return (
            i < self.count()
            and k < self.count()
            and i != k
            and self.serving[i]
            and self.serving[k]
            and squared(self.points[i], self.points[k]) <= self.reach**2
        )

    def neighbours(self, i):
        return [k for k in range(self.count()) if self.are_neighbours(i, k)]

    def joined(self, i, k):
        """Whether a chain of radio links runs from i to k."""
        seen = {i}
        while True:
            more = {n for m in seen for n in self.neighbours(m)} - seen
            if not more:
                return k in seen
            seen |= more


def gabriel(u, v, w):
    """w is in the closed disc with diameter uv."""
    return inner(u, v, w) <= 0


def relative(u, v, w):
    """w is strictly nearer to both than they are to each other."""
    return squared(w, u) < squared(u, v) and squared(w, v) < squared(u, v)


def kept_neighbours(host, blocks, u):
    """The neighbours of u whose links to it no neighbour of u blocks."""
    near = host.neighbours(u)
    at = host.points
    return [v for v in near if not any(w != v and blocks(at[u], at[v], at[w]) for w in near)]


def kept_links(host, blocks):
    """Every kept link once, the lower node first."""
    return [(u, v) for u in range(host.count()) for v in kept_neighbours(host, blocks, u) if u < v]


# --- directions ------------------------------------------------------------------------------------------------------


def angle(at, start, to, clockwise, full):
    """How far round `to` lies from the direction of `start`, as a fraction from 0 to 4 that grows with the angle."""
    along = inner(start, to, at)
    across = turn(at, to, start) if clockwise else turn(at, start, to)
    if across == 0 and along > 0:
        return Fraction(4 if full else 0)
    part = Fraction(abs(across), abs(along) + abs(across))
    if across >= 0:
        return part if along >= 0 else 2 - part
    return 2 + part if along <= 0 else 4 - part


def first_round(host, blocks, v, towards, clockwise, full):
    """The kept neighbour of v that is first round it from the direction of a point."""
    at = host.points
    near = kept_neighbours(host, blocks, v)
    return min(near, key=lambda n: angle(at[v], towards, at[n], clockwise, full))


# --- packets ---------------------------------------------------------------------------------------------------------

UNDER_WAY, DELIVERED, UNREACHABLE = 0, 1, 2
ENDS = ["under way", "delivered", "unreachable"]


class Astray(Exception):
    """The packet would turn from, or open to, a node that is no kept neighbour of the receiver."""


def crossing(s, t, u, v):
    """Where the link u to v crosses st, each a pair of number and point, or None."""
    if len({s[0], t[0], u[0], v[0]}) < 4:
        return None
    if turn(s[1], t[1], u[1]) * turn(s[1], t[1], v[1]) >= 0:
        return None
    if turn(u[1], v[1], s[1]) * turn(u[1], v[1], t[1]) >= 0:
        return None
    return (abs(turn(u[1], v[1], s[1])), abs(turn(u[1], v[1], t[1])))


def nearer(p, q):
    """Place p is nearer the target than place q."""
    return p[0] * q[1] > q[0] * p[1]


class Best:
    """The best crossing of a round."""

    def __init__(self, link, index, place):
        self.link, self.index, self.place, self.marked = link, index, place, False


class Packet:
    """A packet's record; it asks its host and planariser about one node at a time."""

    def __init__(self, host, blocks, s, t):
        self.source, self.target = (s, host.points[s]), (t, host.points[t])
        self.holder, self.hand, self.phase = s, None, "Round"
        self.first, self.sends, self.entry, self.best, self.walk = None, 0, (0, 1), None, 0
        self.total, self.end = 0, UNDER_WAY
        if s == t:
            self.end = DELIVERED
        elif not kept_neighbours(host, blocks, s):
            self.end = UNREACHABLE
        else:
            self.first = (s, first_round(host, blocks, s, host.points[t], True, False))
            self.hand = self.first

    def finish(self, end):
        self.end, self.hand = end, None

    def forward(self, host, blocks):
        """Refused where the link in hand is no kept link of the holder, or no send can be counted."""
        if self.hand[1] not in kept_neighbours(host, blocks, self.holder) or self.total == 65535:
            raise Refused(61)

    def hop(self, host, blocks):
        """Sends the packet along the link in hand, and answers sender and receiver."""
        u, v = self.hand
        self.holder, self.total = v, self.total + 1
        if v == self.target[0]:
            self.finish(DELIVERED)
            return u, v
        before = copy(self)
        before.best = copy(self.best)
        try:
            self.after_send(host, blocks, u, v)
        except Astray:
            self.__dict__.update(before.__dict__)
            self.finish(UNREACHABLE)
        return u, v

    def after_send(self, host, blocks, u, v):
        """Steps 2 to 5, at receiver v after a send from u."""

        def turn_from(node, clockwise):
            if node not in kept_neighbours(host, blocks, v):
                raise Astray
            return (v, first_round(host, blocks, v, host.points[node], clockwise, True))

        if self.phase == "Round":
            onward = turn_from(u, True)
            self.look_at((u, host.points[u]), (v, host.points[v]))
            self.hand = onward
            if self.hand != self.first:
                return
            if self.best is None or self.best.marked:
                self.finish(UNREACHABLE)
                return
            k, rest = self.best.index, self.sends - 1 - self.best.index
            if k <= rest:
                self.phase, self.walk = "Ahead", k
            else:
                self.phase, self.walk = "Back", rest
                self.hand = turn_from(self.first[1], False)
        else:
            self.walk -= 1
            self.hand = turn_from(u, self.phase == "Ahead")
        if self.walk == 0:
            a, b = self.best.link
            if self.phase == "Ahead":
                link = turn_from(b, True)
            elif a in kept_neighbours(host, blocks, v):
                link = (v, a)
            else:
                raise Astray
            self.phase, self.entry, self.best, self.sends = "Round", self.best.place, None, 0
            self.first = self.hand = link

    def look_at(self, u, v):
        """Step 2: the link just sent is counted, and looked at as a crossing."""
        index = self.sends
        self.sends += 1
        place = crossing(self.source, self.target, u, v)
        if place is None or not nearer(place, self.entry):
            return
        if self.best is None or nearer(place, self.best.place):
            self.best = Best((u[0], v[0]), index, place)
        elif not nearer(self.best.place, place):
            self.best.marked = True


def run(host, blocks, s, t):
    """The packet from s to t, run to its end, and its receivers."""
    packet = Packet(host, blocks, s, t)
    receivers = []
    while packet.end == UNDER_WAY:
        receivers.append(packet.hop(host, blocks)[1])
    return packet, receivers


# --- the lines of a network ------------------------------------------------------------------------------------------


class Network:
    """A host, a planariser, and sixteen lines for one packet each."""

    def __init__(self, host, blocks):
        self.host, self.blocks, self.lines = host, blocks, [None] * 16

    def open(self, line, s, t):
        if line > 15:
            raise Refused(41)
        if self.lines[line] is not None:
            raise Refused(42)
        if s >= self.host.count() or t >= self.host.count():
            raise Refused(43)
        if not self.host.serving[s] or not self.host.serving[t]:
            raise Refused(44)
        self.lines[line] = Packet(self.host, self.blocks, s, t)

    def on(self, line):
        if line > 15:
            raise Refused(41)
        if self.lines[line] is None:
            raise Refused(45)
        return self.lines[line]

    def hop(self, line):
        packet = self.on(line)
        if packet.end != UNDER_WAY:
            raise Refused(46)
        return packet.hop(self.host, self.blocks)

    def carry(self, line, budget, room):
        """At most `budget` hops, into a list with `room` free places: the hops, and what stopped them."""
        packet = self.on(line)
        if packet.end != UNDER_WAY:
            raise Refused(46)
        hops = []
        while True:
            if packet.end != UNDER_WAY:
                return hops, "the end"
            if len(hops) == budget:
                return hops, "the budget"
            if len(hops) == room:
                return hops, "the full list"
            phase = packet.phase
            hops.append((*packet.hop(self.host, self.blocks), phase))

    def collect(self, line):
        packet = self.on(line)
        if packet.end == UNDER_WAY:
            raise Refused(47)
        self.lines[line] = None
        return packet.end, packet.total

    def mark(self, node, serving):
        if node >= self.host.count():
            raise Refused(43)
        if any(p is not None and p.end == UNDER_WAY for p in self.lines):
            raise Refused(48)
        self.host.serving[node] = serving

    def withdraw(self, node):
        self.mark(node, False)

    def restore(self, node):
        self.mark(node, True)


# --- lines of hexadecimal --------------------------------------------------------------------------------------------

# the kinds of frames, with the lengths of their fields in bytes
KINDS = {
    0x4D: ("map", (2, 1, 1)),
    0x4E: ("node", (2, 2)),
    0x50: ("packet", (1, 1)),
    0x57: ("withdraw", (1,)),
    0x52: ("return", (1,)),
    0x48: ("hop", (1, 1)),
    0x44: ("end", (1, 1, 1, 2)),
}


def write_line(kind, *fields):
    """The line of a frame."""
    number, lengths = next((k, lens) for k, (name, lens) in KINDS.items() if name == kind)
    row = bytes([number]) + b"".join(f.to_bytes(n, "big") for f, n in zip(fields, lengths, strict=True))
    return (row + bytes([sum(row) % 256])).hex()


def read_line(line):
    """The kind and the fields of the frame that a line says."""
    if len(line) > 80:
        raise Refused(10)
    if any(c not in "0123456789abcdef" for c in line):
        raise Refused(11)
    if len(line) % 2 == 1:
        raise Refused(12)
    row = [int(line[i : i + 2], 16) for i in range(0, len(line), 2)]
    if len(row) < 2:
        raise Refused(13)
    if sum(row[:-1]) % 256 != row[-1]:
        raise Refused(14)
    if row[0] not in KINDS:
        raise Refused(15)
    name, lengths = KINDS[row[0]]
    if len(row) != sum(lengths) + 2:
        raise Refused(16)
    fields, at = [], 1
    for n in lengths:
        fields.append(int.from_bytes(bytes(row[at : at + n]), "big"))
        at += n
    return name, fields


# --- the floors worked by hand ---------------------------------------------------------------------------------------

FLOOR_A = (10, [(0, 10), (3, 18), (11, 20), (18, 17), (6, 5), (20, 10)])
FLOOR_B = (8, [(0, 5), (6, 2), (6, 9), (13, 7)])
FLOOR_C = (8, [(0, 5), (6, 2), (6, 9), (40, 7)])
FLOOR_D = (13, [(4, 0), (2, 7), (8, 9), (2, 5), (11, 5), (4, 11), (7, 2), (0, 1), (1, 11)])
FLOOR_E = (
    9,
    [(0, 0), (2, 7), (3, 1), (1, 7), (9, 1), (2, 2), (8, 10), (4, 3), (10, 4), (1, 10), (6, 5)],
)

# floor, planariser, withdrawn nodes, K where it was worked out, source, target, receivers, end
WORKED = [
    (FLOOR_A, gabriel, [], None, 0, 5, [4, 0, 1, 2, 3, 5], DELIVERED),
    (FLOOR_A, relative, [], None, 0, 5, [4, 0, 1, 2, 3, 5], DELIVERED),
    (FLOOR_A, gabriel, [2], None, 0, 5, [4, 0, 1, 0], UNREACHABLE),
    (FLOOR_A, relative, [2], None, 0, 5, [4, 0, 1, 0], UNREACHABLE),
    (FLOOR_B, gabriel, [], 4, 0, 3, [1, 2, 0, 1, 0, 2, 3], DELIVERED),
    (FLOOR_B, relative, [], 3, 0, 3, [1, 2, 3], DELIVERED),
    (FLOOR_C, relative, [], 2, 0, 3, [1, 2, 1, 0], UNREACHABLE),
    (FLOOR_C, gabriel, [], 3, 0, 3, [1, 2, 0, 1, 0, 2, 1], UNREACHABLE),
    (FLOOR_D, gabriel, [], 12, 0, 8, [6, 3, 0, 6, 4, 2, 5, 1, 3, 6, 3, 1, 5, 8], DELIVERED),
    (FLOOR_E, gabriel, [], 17, 0, 10, [5, 7, 1, 3, 9, 6, 8, 4, 7, 2, 5, 0, 5, 7, 10], DELIVERED),
]


def refusal_of(call, *arguments):
    """The number with which a call is refused, or None."""
    try:
        call(*arguments)
    except Refused as refused:
        return refused.number
    return None


def made(floor, withdrawn=()):
    """The host of a floor, some nodes withdrawn."""
    host = Host(Map(floor[1]), floor[0])
    for node in withdrawn:
        host.serving[node] = False
    return host


def verify():
    """Every case worked by hand."""
    assert gabriel((0, 0), (4, 3), (4, 0)) and not gabriel((0, 0), (4, 3), (5, 0))
    assert relative((0, 0), (4, 0), (2, 3)) and not gabriel((0, 0), (4, 0), (2, 3))
    for floor, blocks, withdrawn, k, s, t, receivers, end in WORKED:
        host = made(floor, withdrawn)
        packet, way = run(host, blocks, s, t)
        assert (way, packet.end, packet.total) == (receivers, end, len(receivers)), (way, packet.end)
        assert k is None or len(kept_links(host, blocks)) == k
    assert refusal_of(Map([(0, 0), (1, 1)]).place, (2, 2)) == 24
    assert Map([(0, 0), (1, 1)]).place((2, 3)) == 2
    assert refusal_of(Map().place, (32768, 0)) == 22 and Map().place((32767, 0)) == 0
    assert refusal_of(Host, Map(), 46341) == 31 and Host(Map(), 46340).reach == 46340
    lines = ["4d0008020158", "4e0000000553", "4e0006000256", "4e000600095d", "4e000d000762", "50000353"]
    lines += ["50000959", "48000149", "4801024b", "4802034d", "4400030100034b"]
    for line in lines:
        kind, fields = read_line(line)
        assert write_line(kind, *fields) == line
    for line, number in [("0" * 81, 10), ("4e0g", 11), ("4E00", 11), ("500", 12), ("50", 13), ("", 13)]:
        assert refusal_of(read_line, line) == number
    for line, number in [("50000354", 14), ("510051", 15), ("510003", 14), ("5050", 16), ("5000000050", 16)]:
        assert refusal_of(read_line, line) == number
    on_random_floors()
    print("verified")


def random_floor(rng, size, span):
    """That many random points in general position."""
    the_map = Map()
    while len(the_map.points) < size:
        refusal_of(the_map.place, (rng.randrange(span), rng.randrange(span)))
    return the_map.points


def on_random_floors():
    """Packets on random floors end in 3 K sends, delivered exactly where a chain joins their ends."""
    rng = random.Random(4)
    for _ in range(60):
        size = rng.randrange(2, 13)
        host = made((rng.randrange(4, 16), random_floor(rng, size, 24)))
        host.serving = [rng.random() < 0.9 for _ in range(size)]
        for blocks in (gabriel, relative):
            k = len(kept_links(host, blocks))
            for s, t in [(s, t) for s in range(size) for t in range(size) if host.serving[s] and host.serving[t]]:
                packet, way = run(host, blocks, s, t)
                assert packet.total == len(way) <= 3 * k
                assert packet.end == (DELIVERED if host.joined(s, t) else UNREACHABLE)


# --- the account of the program -------------------------------------------------------------------------------------

FLOORS = {"A": FLOOR_A, "B": FLOOR_B, "C": FLOOR_C, "D": FLOOR_D, "E": FLOOR_E}
PLANARISERS = {"Gabriel": gabriel, "relative": relative}

# points as the account tries them
TRIES = [(0, 10), (3, 18), (0, 10), (6, 26), (11, 20), (18, 17), (6, 5), (32768, 1), (1, 32768), (20, 10), (10, 10)]
TRIES += [(3, 18)]


def tell_placing(the_map, point):
    try:
        print(f"{point} is node {the_map.place(point)}")
    except Refused as refused:
        print(f"{point} is refused with {refused.number}")


def tell_host(the_map, reach, room):
    print(f"reach {reach}, room for {room} links:")
    try:
        host = Host(the_map, reach)
    except Refused as refused:
        print(f"refused with {refused.number}")
        return
    links = [(i, k) for i in range(host.count()) for k in host.neighbours(i) if i < k]
    for i, k in links[:room]:
        print(f"{i} and {k} hear each other, squared distance {squared(host.points[i], host.points[k])}")
    print(f"{len(links)} links" if len(links) <= room else "the next is refused with 51")


def account_of_placing():
    print("Placing")
    the_map = Map()
    for point in TRIES:
        tell_placing(the_map, point)
    print(f"{len(the_map.points)} nodes")
    tell_host(the_map, 10, 8)
    for reach, room in ((0, 8), (46341, 8), (46340, 8), (46340, 16)):
        tell_host(Map(FLOOR_A[1]), reach, room)
    parabola = Map([(i, i * i) for i in range(64)])
    print(f"{len(parabola.points)} nodes on a parabola")
    tell_placing(parabola, (64, 4096))


def account_of_links():
    print("Kept links")
    for name, floor in FLOORS.items():
        for kind in ("scan", "table"):
            for rule, blocks in PLANARISERS.items():
                links = kept_links(made(floor), blocks)
                shown = "".join(f" {u}-{v}" for u, v in links)
                print(f"{name}, {kind}, {rule}:{shown}, K = {len(links)}")


# floor, withdrawn nodes, source and target of the packets that the account sends
SENT = [("A", [], 0, 5), ("A", [2], 0, 5), ("B", [], 0, 3), ("C", [], 0, 3), ("D", [], 0, 8), ("E", [], 0, 10)]
SENT += [("B", [], 2, 2), ("C", [], 3, 0), ("B", [], 0, 4), ("B", [3], 0, 3)]


def tell_run(host, blocks, s, t):
    if s >= host.count() or t >= host.count():
        print(f"{s} to {t}: refused with 43")
    elif not host.serving[s] or not host.serving[t]:
        print(f"{s} to {t}: refused with 44")
    else:
        packet, receivers = run(host, blocks, s, t)
        shown = "".join(f" {n}" for n in receivers)
        most = 3 * len(kept_links(host, blocks))
        print(f"{s} to {t}:{shown}, {ENDS[packet.end]} after {packet.total} of at most {most}")


def account_of_packets():
    print("Packets")
    for name, withdrawn, s, t in SENT:
        for kind in ("scan", "table"):
            for rule, blocks in PLANARISERS.items():
                without = "".join(f" without {n}" for n in withdrawn)
                print(f"{name}{without}, {kind}, {rule}, ", end="")
                tell_run(made(FLOORS[name], withdrawn), blocks, s, t)


# lines that say no frame
BAD_LINES = ["0" * 81, "4e0g", "4E00", "500", "", "50", "50000354", "510051", "5050"]


def account_of_frames():
    print("Frames")
    lines = [write_line("map", 8, 2, 1)] + [write_line("node", x, y) for x, y in FLOOR_B[1]]
    lines += [write_line("packet", 0, 3)]
    reach, points, ends = 0, [], (0, 0)
    for line in lines:
        print(line)
        kind, fields = read_line(line)
        if kind == "map":
            reach = fields[0]
        elif kind == "node":
            points.append(tuple(fields))
        else:
            ends = tuple(fields)
    packet, receivers = run(Host(Map(points), reach), relative, *ends)
    for u, v in zip([ends[0]] + receivers, receivers):
        print(write_line("hop", u, v))
    print(write_line("end", *ends, packet.end, packet.total))
    for line in BAD_LINES:
        print(f"'{line}' is refused with {refusal_of(read_line, line)}")


# the calls of two pasts, as they are made
PAST_A = [
    ("open", 0, 0, 5),
    ("open", 0, 1, 2),
    ("open", 16, 0, 5),
    ("open", 1, 0, 6),
    ("open", 1, 5, 4),
    ("open", 2, 3, 3),
    ("hop", 0),
    ("hop", 2),
    ("hop", 3),
    ("hop", 16),
    ("carry", 0, 9, 2),
    ("carry", 1, 3, 4),
    ("carry", 1, 0, 0),
    ("carry", 2, 9, 4),
    ("carry", 3, 9, 4),
    ("withdraw", 2),
    ("collect", 0),
    ("collect", 2),
    ("collect", 2),
    ("carry", 0, 9, 8),
    ("carry", 1, 9, 8),
    ("collect", 0),
    ("collect", 1),
    ("withdraw", 6),
    ("withdraw", 2),
    ("withdraw", 2),
    ("open", 0, 0, 2),
    ("open", 0, 0, 5),
    ("return", 2),
    ("carry", 0, 100, 8),
    ("collect", 0),
    ("return", 2),
    ("open", 0, 0, 5),
    ("carry", 0, 100, 8),
    ("collect", 0),
]
PAST_D = [
    ("open", 15, 0, 8),
    ("carry", 15, 5, 16),
    ("carry", 15, 99, 4),
    ("carry", 15, 99, 16),
    ("hop", 15),
    ("collect", 15),
    ("open", 15, 8, 0),
    ("carry", 15, 99, 16),
    ("collect", 15),
]


def answer_of(network, call, *numbers):
    """What a call of a network is answered, in words."""
    try:
        if call == "open":
            network.open(*numbers)
            return "opened"
        if call == "hop":
            u, v = network.hop(*numbers)
            return f"{u} to {v}"
        if call == "carry":
            hops, stopper = network.carry(*numbers)
            shown = "".join(f" {u} to {v} {phase}," for u, v, phase in hops)
            return f"{len(hops)} hops,{shown} stopped by {stopper}"
        if call == "collect":
            end, total = network.collect(*numbers)
            return f"{ENDS[end]} after {total}"
        if call == "withdraw":
            network.withdraw(*numbers)
        else:
            network.restore(*numbers)
        return "done"
    except Refused as refused:
        return f"refused with {refused.number}"


# how a call and its numbers are told
CALLS = {
    "open": "open on line {}, {} to {}",
    "hop": "hop on line {}",
    "carry": "carry on line {}, budget {}, room {}",
    "collect": "collect from line {}",
    "withdraw": "withdraw {}",
    "return": "return {}",
}


def tell_past(network, past):
    for call, *numbers in past:
        print(f"{CALLS[call].format(*numbers)}: {answer_of(network, call, *numbers)}")


def account_of_pasts():
    print("A past on floor A, table, Gabriel")
    tell_past(Network(made(FLOOR_A), gabriel), PAST_A)
    print("A past on floor D, scan, Gabriel")
    tell_past(Network(made(FLOOR_D), gabriel), PAST_D)


def account():
    """What the program must print."""
    account_of_placing()
    account_of_links()
    account_of_packets()
    account_of_frames()
    account_of_pasts()


# --- random floors for the crate `evidence` --------------------------------------------------------------------------

TABLE_HEAD = """\
//! Random floors and what packets do on them, worked out by tools/reference.py. In a way node 0 is a, 1 is b, and so on.

use face::record::End;

/// A packet's source, target, end and receivers.
#[derive(Clone, Copy)]
pub struct Way {
    pub source: u8,
    pub target: u8,
    pub end: End,
    pub receivers: &'static str,
}

/// What a planariser makes of a floor: how many links it keeps, and which ways packets go.
#[derive(Clone, Copy)]
pub struct Thinned {
    pub kept: u16,
    pub ways: &'static [Way],
}

/// A floor, some of its nodes withdrawn.
#[derive(Clone, Copy)]
pub struct Sample {
    pub reach: u16,
    pub points: &'static [(u16, u16)],
    pub withdrawn: &'static [u8],
    pub gabriel: Thinned,
    pub relative: Thinned,
}

/// A Gabriel packet on floor B that is sent some times, a node being gone before its next send: what forwarding is then
/// refused with, and the holder and the end where it was in the air already.
#[derive(Clone, Copy)]
pub struct Stale {
    pub source: u8,
    pub target: u8,
    pub sends: u8,
    pub gone: u8,
    pub refused: Option<u8>,
    pub holder: u8,
    pub end: End,
}

// Ways in rows of source, target, end and receivers.
macro_rules! ways {
    ($(($source:literal, $target:literal, $end:ident, $receivers:literal)),* $(,)?) => {
        &[$(Way {
            source: $source,
            target: $target,
            end: End::$end,
            receivers: $receivers,
        }),*]
    };
}

// Stale packets in rows of source, target, sends, the node gone, refusal, holder and end.
macro_rules! stale {
    ($((
        $source:literal, $target:literal, $sends:literal, $gone:literal,
        $refused:expr, $holder:literal, $end:ident
    )),* $(,)?) => {
        [$(Stale {
            source: $source,
            target: $target,
            sends: $sends,
            gone: $gone,
            refused: $refused,
            holder: $holder,
            end: End::$end,
        }),*]
    };
}
"""

# the ends, as the crates name them
VARIANTS = ["UnderWay", "Delivered", "Unreachable"]


def random_host(rng, wide):
    """A random floor, some nodes withdrawn; a wide one uses all of the coordinates."""
    size = rng.randrange(8, 15)
    span, reach = (32768, rng.randrange(9000, 22000)) if wide else (30, rng.randrange(8, 18))
    host = made((reach, random_floor(rng, size, span)))
    host.serving = [rng.random() < 0.92 for _ in range(size)]
    return host


def way(host, blocks, s, t):
    """A row of the table."""
    packet, receivers = run(host, blocks, s, t)
    letters = "".join(chr(ord("a") + n) for n in receivers)
    return f'({s}, {t}, {VARIANTS[packet.end]}, "{letters}")'


def in_rows(rows, indent):
    return "".join(f"{' ' * indent}{row},\n" for row in rows)


def tell_sample(rng, host):
    """A sample of the table, with ten packets: the longest six, three others, and one to itself."""
    serving = [n for n in range(host.count()) if host.serving[n]]
    pairs = [(s, t) for s in serving for t in serving if s != t]
    pairs.sort(key=lambda pair: -run(host, gabriel, *pair)[0].total)
    pairs = pairs[:6] + rng.sample(pairs[6:], 3) + [(serving[0], serving[0])]
    withdrawn = [str(n) for n in range(host.count()) if not host.serving[n]]
    print(f"    Sample {{\n        reach: {host.reach},")
    print(f"        points: &[\n{in_rows(host.points, 12)}        ],")
    print(f"        withdrawn: &[{', '.join(withdrawn)}],")
    for name, blocks in (("gabriel", gabriel), ("relative", relative)):
        ways = in_rows([way(host, blocks, s, t) for s, t in pairs], 16)
        kept = len(kept_links(host, blocks))
        print(f"        {name}: Thinned {{\n            kept: {kept},\n            ways: ways![\n{ways}            ],\n        }},")
    print("    },")


def stale_rows(floor):
    """Every way to withdraw one node between two sends of a packet on a floor."""
    size = len(floor[1])
    for s, t in [(s, t) for s in range(size) for t in range(size) if s != t]:
        for sends in range(run(made(floor), gabriel, s, t)[0].total):
            for node in range(size):
                host = made(floor)
                packet = Packet(host, gabriel, s, t)
                for _ in range(sends):
                    packet.hop(host, gabriel)
                host.serving[node] = False
                refusal = refusal_of(packet.forward, host, gabriel)
                refused = "None" if refusal is None else f"Some({refusal})"
                packet.hop(host, gabriel)
                yield f"({s}, {t}, {sends}, {node}, {refused}, {packet.holder}, {VARIANTS[packet.end]})"


def table():
    """The module `table` of the crate `evidence`."""
    rng = random.Random(17)
    print(TABLE_HEAD)
    print("/// The floors.\npub const SAMPLES: [Sample; 12] = [")
    for i in range(12):
        tell_sample(rng, random_host(rng, i % 3 == 2))
    print("];")
    rows = rng.sample(list(stale_rows(FLOOR_B)), 40)
    print(f"\n/// Packets that find a node gone.\npub const STALE: [Stale; {len(rows)}] = stale![\n{in_rows(rows, 4)}];")


def main(arguments):
    modes = {"verify": verify, "account": account, "table": table}
    if len(arguments) != 1 or arguments[0] not in modes:
        sys.exit(__doc__)
    modes[arguments[0]]()


if __name__ == "__main__":
    main(sys.argv[1:])
