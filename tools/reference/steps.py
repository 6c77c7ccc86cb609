"""A packet's record and one send at a time, also over a host that has changed since the last send."""

from dataclasses import dataclass, replace
from fractions import Fraction

from floors import Refused, turn

MOST_TOTAL = 65535


class Lost(Exception):
    """The receiver does not keep the link that the packet needs."""


@dataclass(frozen=True)
class Best:
    """The best crossing of a round so far."""

    link: tuple
    index: int
    place: tuple
    marked: bool = False


@dataclass(frozen=True)
class Record:
    """All that a packet carries."""

    source: int
    target: int
    source_point: tuple
    target_point: tuple
    holder: int
    hand: tuple = None
    phase: str = "Round"
    first: tuple = None
    sends: int = 0
    entry: tuple = (0, 1)
    best: Best = None
    walk: int = 0
    total: int = 0
    end: str = "underway"


def quarter(a, b):
    """The direction from a to b as an exact number from 0 to below 4 that grows counter-clockwise."""
    x, y = b[0] - a[0], b[1] - a[1]
    whole = abs(x) + abs(y)
    if x > 0 and y >= 0:
        return Fraction(y, whole)
    if x <= 0 and y > 0:
        return 1 + Fraction(-x, whole)
    if x < 0:
        return 2 + Fraction(-y, whole)
    return 3 + Fraction(x, whole)


def sweep(graph, node, start, other, way):
    """How far round a node another is from the start point; way is 1 clockwise, -1 counter-clockwise."""
    here = graph.points[node]
    return way * (quarter(here, start) - quarter(here, graph.points[other])) % 4


def turn_from(graph, node, left, way):
    """The kept neighbour first after another one that the packet came from; that one itself comes last."""
    if left not in graph.kept[node]:
        raise Lost
    start = graph.points[left]
    return min(graph.kept[node], key=lambda other: sweep(graph, node, start, other, way) or 4)


def nearer(place, other):
    """Whether a place is nearer the target than another."""
    return place[0] * other[1] > other[0] * place[1]


def crossing(graph, record, link):
    """The place at which a link crosses the line from source to target, or None."""
    if len({record.source, record.target, *link}) < 4:
        return None
    s, t = record.source_point, record.target_point
    u, v = graph.points[link[0]], graph.points[link[1]]
    if turn(s, t, u) * turn(s, t, v) >= 0 or turn(u, v, s) * turn(u, v, t) >= 0:
        return None
    return abs(turn(u, v, s)), abs(turn(u, v, t))


def open_packet(graph, source, target):
    """The record of a new packet."""
    graph.check_ends(source, target)
    new = Record(source, target, graph.points[source], graph.points[target], source)
    if source == target:
        return replace(new, end="delivered")
    if not graph.kept[source]:
        return replace(new, end="unreachable")
    start = graph.points[target]
    first = (source, min(graph.kept[source], key=lambda other: sweep(graph, source, start, other, 1)))
    return replace(new, hand=first, first=first)


def forward(record, graph):
    """Give a held packet to the air, if the link in hand is kept and one more send can be counted."""
    u, v = record.hand
    if u != record.holder or v not in graph.kept[u] or record.total == MOST_TOTAL:
        raise Refused(61)
    return record


def receive(record, graph):
    """The record after its link in hand was sent along, worked out by the receiver over its own host."""
    holder, total = record.hand[1], record.total + 1
    there = holder < len(graph.points)
    if there and holder == record.target:
        return replace(record, holder=holder, total=total, hand=None, end="delivered")
    try:
        if not there:
            raise Lost
        moved = replace(record, holder=holder, total=total)
        return round_send(moved, graph) if record.phase == "Round" else walk_send(moved, graph)
    except Lost:
        return replace(record, holder=holder, total=total, hand=None, end="unreachable")


def round_send(record, graph):
    """What a receiver does in a Round."""
    sent, best = record.hand, record.best
    place = crossing(graph, record, sent)
    if place is not None and nearer(place, record.entry):
        if best is None or nearer(place, best.place):
            best = Best(sent, record.sends, place)
        elif not nearer(best.place, place):
            best = replace(best, marked=True)
    hand = (sent[1], turn_from(graph, sent[1], sent[0], 1))
    record = replace(record, hand=hand, best=best, sends=record.sends + 1)
    return close_round(record, graph) if hand == record.first else record


def close_round(record, graph):
    """Choose the shorter way to the best crossing, when the round has come back to its first link."""
    best = record.best
    if best is None or best.marked:
        return replace(record, hand=None, end="unreachable")
    behind = record.sends - 1 - best.index
    if best.index <= behind:
        return open_round(replace(record, phase="Ahead", walk=best.index), graph)
    hand = (record.holder, turn_from(graph, record.holder, record.first[1], -1))
    return open_round(replace(record, phase="Back", walk=behind, hand=hand), graph)


def walk_send(record, graph):
    """What a receiver does in Ahead or Back."""
    left, holder = record.hand
    hand = (holder, turn_from(graph, holder, left, 1 if record.phase == "Ahead" else -1))
    return open_round(replace(record, hand=hand, walk=record.walk - 1), graph)


def open_round(record, graph):
    """Open a new Round when there is nothing left to walk."""
    if record.walk > 0:
        return record
    u, v = record.best.link
    if record.phase == "Ahead":
        goal = turn_from(graph, record.holder, v, 1)
    elif u in graph.kept[record.holder]:
        goal = u
    else:
        raise Lost
    first = (record.holder, goal)
    place = record.best.place
    return replace(record, phase="Round", hand=first, first=first, sends=0, entry=place, best=None)


def write_link(link):
    """A link in words."""
    return "-" if link is None else "%d>%d" % link


def write_record(record):
    """The ten fields of a record that change on the way."""
    best = "-"
    if record.best is not None:
        best = "%s@%d:%d/%d" % (write_link(record.best.link), record.best.index, *record.best.place)
        best += "*" if record.best.marked else ""
    fields = [record.holder, write_link(record.hand), record.phase, write_link(record.first), record.sends,
              "%d/%d" % record.entry, best, record.walk, record.total, record.end]
    return " ".join(map(str, fields))
