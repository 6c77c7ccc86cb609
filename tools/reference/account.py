"""Prints what the program `kalzhuna` must print."""

import frames
from answers import HOST_KINDS
from floors import PLANARISERS, Graph, Host, Map, Refused, square
from routes import Faces, journey
from worked import FLOORS, make_host, make_map

# points as they are tried
TRIES = [(0, 10), (3, 18), (0, 10), (6, 26), (11, 20), (18, 17), (6, 5), (32768, 1), (1, 32768), (20, 10),
         (10, 10), (3, 18)]

# floor, withdrawn node, source and target of the packets that are sent
SENT = [("A", None, 0, 5), ("A", 2, 0, 5), ("B", None, 0, 3), ("C", None, 0, 3), ("D", None, 0, 8),
        ("E", None, 0, 10), ("B", None, 2, 2), ("C", None, 3, 0), ("B", None, 0, 4), ("B", 3, 0, 3)]

# the lines that say no frame, in the order they are told
TOLD_BAD = ["0" * 81, "4e0g", "4E00", "500", "", "50", "50000354", "510051", "5050"]

# the ends by their numbers in a frame
ENDS = ["under way", "delivered", "unreachable"]


def told(work, *given):
    """What some work answers, or its refusal in words."""
    try:
        return work(*given)
    except Refused as refused:
        return "refused with %d" % refused.number


def tell_placing(site, point):
    """One line for one tried point."""
    number = told(site.place, *point)
    print(point, "is node %d" % number if isinstance(number, int) else "is " + number)


def tell_host(points, reach, room):
    """The radio links of a host, as far as there is room for them."""
    print("reach %d, room for %d links:" % (reach, room))
    host = told(Host, points, reach)
    if not isinstance(host, Host):
        print(host)
        return
    pairs = [(u, v) for u in range(len(points)) for v in host.neighbours(u) if u < v]
    for u, v in pairs[:room]:
        print("%d and %d hear each other, squared distance %d" % (u, v, square(points[u], points[v])))
    print("%d links" % len(pairs) if len(pairs) <= room else "the next is refused with 51")


def tell_map():
    """The part on placing and hosts."""
    print("Placing")
    site = Map()
    for point in TRIES:
        tell_placing(site, point)
    print(len(site.points), "nodes")
    for reach, room in [(10, 8), (0, 8), (46341, 8), (46340, 8), (46340, 16)]:
        tell_host(site.points, reach, room)
    tell_host(make_map(FLOORS["D"][1]).points, 46340, 16)
    parabola = make_map([(number, number * number) for number in range(64)])
    print(len(parabola.points), "nodes on a parabola")
    tell_placing(parabola, (64, 4096))


def tell_links():
    """The part on kept links."""
    print("Kept links")
    for name in FLOORS:
        for kind in HOST_KINDS:
            for planariser, blocks in PLANARISERS.items():
                graph = Graph(make_host(name), blocks)
                links = ["%d-%d" % (u, v) for u in graph.kept for v in sorted(graph.kept[u]) if u < v]
                print("%s, %s, %s: %s, K = %d" % (name, kind, planariser, " ".join(links), graph.count()))


def packet_words(graph, source, target):
    """What becomes of a packet, in words."""
    whole = journey(Faces(graph), source, target)
    way = "".join(" %d" % receiver for _, receiver, _ in whole.hops)
    return "%s, %s after %d of at most %d" % (way, whole.end, len(whole.hops), 3 * graph.count())


def tell_packets():
    """The part on packets."""
    print("Packets")
    for name, withdrawn, source, target in SENT:
        floor = name if withdrawn is None else "%s without %d" % (name, withdrawn)
        for kind in HOST_KINDS:
            for planariser, blocks in PLANARISERS.items():
                words = told(packet_words, Graph(make_host(name, withdrawn), blocks), source, target)
                words = " " + words if words.startswith("refused") else words
                print("%s, %s, %s, %d to %d:%s" % (floor, kind, planariser, source, target, words))


def tell_handed(planariser, host):
    """A floor and a packet come in as lines, its hops and its end go out."""
    reach, points = FLOORS["B"]
    print(frames.write("map", [reach, planariser, host]))
    for point in points:
        print(frames.write("node", point))
    print(frames.write("packet", [0, 3]))
    blocks = list(PLANARISERS.values())[planariser - 1]
    whole = journey(Faces(Graph(make_host("B"), blocks)), 0, 3)
    for sender, receiver, _ in whole.hops:
        print(frames.write("hop", [sender, receiver]))
    print(frames.write("end", [0, 3, ENDS.index(whole.end), len(whole.hops)]))


def tell_frames():
    """The part on lines."""
    print("Frames")
    tell_handed(2, 1)
    tell_handed(1, 2)
    for line in TOLD_BAD:
        print("'%s' is %s" % (line, told(frames.read, line)))


def tell():
    """The whole account."""
    tell_map()
    tell_links()
    tell_packets()
    tell_frames()
