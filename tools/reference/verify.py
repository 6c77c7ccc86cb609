"""Works the floors that were worked by hand, and checks what must hold on random floors."""

import random
from collections import Counter

import frames
import sites
from floors import PLANARISERS, Graph, Host, Map, Refused, gabriel, joined, relative, turn
from routes import Faces, journey
from steps import forward, open_packet, receive
from worked import BAD_LINES, LINES, PACKETS, make_host, make_map

SEED = 9
ROUNDS_OF_FLOORS = 60
SIZES = [2, 3, 4, 5, 6, 8, 11, 15, 22, 36, 64]
PAIRS = 8


def refused(work, *given):
    """The number and the place of a refusal, or None."""
    try:
        work(*given)
    except Refused as refusal:
        return refusal.number, refusal.place
    return None


def walked(graph, source, target):
    """The hops and the end of a packet that is sent on one step at a time."""
    record, hops = open_packet(graph, source, target), []
    while record.end == "underway":
        hops.append((*record.hand, record.phase))
        record = receive(forward(record, graph), graph)
        assert record.total == len(hops) and record.holder == hops[-1][1]
    return hops, record.end


def check_worked():
    """The floors, points and lines that were worked by hand."""
    assert turn((0, 0), (1, 0), (0, 1)) == 1
    assert gabriel((0, 0), (4, 0), (2, 2)) and not gabriel((0, 0), (4, 0), (2, 3))
    assert relative((0, 0), (4, 0), (2, 3)) and not relative((0, 0), (4, 0), (4, 1))
    assert gabriel((0, 0), (4, 3), (4, 0)) and not gabriel((0, 0), (4, 3), (5, 0))
    for name, planariser, withdrawn, count, source, target, receivers, end in PACKETS:
        graph = Graph(make_host(name, withdrawn), PLANARISERS[planariser])
        whole = journey(Faces(graph), source, target)
        assert [receiver for _, receiver, _ in whole.hops] == receivers and whole.end == end
        assert walked(graph, source, target) == (whole.hops, end)
        assert count in (None, graph.count())
    assert refused(make_map([(0, 0), (1, 1)]).place, 2, 2) == (24, None)
    assert refused(make_map([(0, 0), (1, 1)]).place, 1, 1) == (23, None)
    assert make_map([(0, 0), (1, 1)]).place(2, 3) == 2
    assert refused(Map().place, 32768, 0) == (22, None) and Map().place(32767, 0) == 0
    full = make_map([(number, number * number) for number in range(64)])
    assert refused(full.place, 65535, 0) == (21, None)
    assert refused(Host, [], 46341) == refused(Host, [], 0) == (31, None) and Host([], 46340).reach == 46340


def check_lines():
    """Lines that say a frame, read and written, and lines that say none."""
    for line, word, fields in LINES:
        assert frames.read(line) == (word, fields) and frames.write(word, fields, len(line)) == line
        assert refused(frames.write, word, fields, len(line) - 1) == (17, None)
    for line, number, place in BAD_LINES:
        assert refused(frames.read, line) == (number, place)


def parts(graph):
    """How many separate parts the kept links make, nodes without a link left out."""
    left, count = {node for node in graph.kept if graph.kept[node]}, 0
    while left:
        count, waiting = count + 1, [left.pop()]
        while waiting:
            more = graph.kept[waiting.pop()] & left
            left -= more
            waiting += more
    return count


def check_graph(host, blocks, graph, faces):
    """A link is kept from either end alike, and the faces are as many as a drawing without crossings has."""
    points = host.points
    for u in graph.kept:
        near = host.neighbours(u)
        assert graph.kept[u] == {v for v in near
                                 if not any(blocks(points[u], points[v], points[w]) for w in near if w != v)}
    linked = sum(1 for node in graph.kept if graph.kept[node])
    assert linked - graph.count() + len(faces.faces) == 2 * parts(graph)


def check_packet(host, graph, faces, source, target):
    """Both workings of a packet agree; it keeps to kept links, ends in time, and arrives where it can."""
    whole = journey(faces, source, target)
    assert walked(graph, source, target) == (whole.hops, whole.end)
    assert len(whole.hops) <= 3 * graph.count()
    assert (whole.end == "delivered") == joined(host, source, target)
    holders = [source] + [receiver for _, receiver, _ in whole.hops]
    assert [sender for sender, _, _ in whole.hops] == holders[:-1]
    assert all(receiver in graph.kept[sender] for sender, receiver, _ in whole.hops)
    assert whole.end == "unreachable" or holders[-1] == target
    uses = Counter(frozenset(hop[:2]) for hop in whole.hops)
    assert max(uses.values(), default=0) <= 4


def check_floor(rng, points, reach):
    """One random floor, some nodes of it withdrawn."""
    host = Host(points, reach)
    for _ in range(rng.choice([0, 0, 1, 3])):
        host.switch(rng.randrange(len(points)), False)
    serving = [node for node in range(len(points)) if host.marks[node]]
    for blocks in PLANARISERS.values():
        graph = Graph(host, blocks)
        faces = Faces(graph)
        check_graph(host, blocks, graph, faces)
        for _ in range(PAIRS if serving else 0):
            check_packet(host, graph, faces, rng.choice(serving), rng.choice(serving))


def verify():
    """All checks."""
    check_worked()
    check_lines()
    rng = random.Random(SEED)
    for _ in range(ROUNDS_OF_FLOORS):
        for family in sites.FAMILIES:
            check_floor(rng, *sites.floor(rng, family, rng.choice(SIZES)))
    print("verified")
