"""The floors and lines that were worked by hand."""

from floors import Host, Map

# name: the reach and the points
FLOORS = {
    "A": (10, [(0, 10), (3, 18), (11, 20), (18, 17), (6, 5), (20, 10)]),
    "B": (8, [(0, 5), (6, 2), (6, 9), (13, 7)]),
    "C": (8, [(0, 5), (6, 2), (6, 9), (40, 7)]),
    "D": (13, [(4, 0), (2, 7), (8, 9), (2, 5), (11, 5), (4, 11), (7, 2), (0, 1), (1, 11)]),
    "E": (9, [(0, 0), (2, 7), (3, 1), (1, 7), (9, 1), (2, 2), (8, 10), (4, 3), (10, 4), (1, 10), (6, 5)]),
}

# floor, planariser, withdrawn node, K where it was worked out, source, target, receivers, end
PACKETS = [
    ("A", "Gabriel", None, None, 0, 5, [4, 0, 1, 2, 3, 5], "delivered"),
    ("A", "relative", None, None, 0, 5, [4, 0, 1, 2, 3, 5], "delivered"),
    ("A", "Gabriel", 2, None, 0, 5, [4, 0, 1, 0], "unreachable"),
    ("A", "relative", 2, None, 0, 5, [4, 0, 1, 0], "unreachable"),
    ("B", "Gabriel", None, 4, 0, 3, [1, 2, 0, 1, 0, 2, 3], "delivered"),
    ("B", "relative", None, 3, 0, 3, [1, 2, 3], "delivered"),
    ("C", "relative", None, 2, 0, 3, [1, 2, 1, 0], "unreachable"),
    ("C", "Gabriel", None, 3, 0, 3, [1, 2, 0, 1, 0, 2, 1], "unreachable"),
    ("D", "Gabriel", None, 12, 0, 8, [6, 3, 0, 6, 4, 2, 5, 1, 3, 6, 3, 1, 5, 8], "delivered"),
    ("E", "Gabriel", None, 17, 0, 10, [5, 7, 1, 3, 9, 6, 8, 4, 7, 2, 5, 0, 5, 7, 10], "delivered"),
]

# lines that say a frame, with the frame
LINES = [
    ("4d0008020158", "map", [8, 2, 1]),
    ("4e0000000553", "node", [0, 5]),
    ("4e0006000256", "node", [6, 2]),
    ("4e000600095d", "node", [6, 9]),
    ("4e000d000762", "node", [13, 7]),
    ("50000353", "packet", [0, 3]),
    ("50000959", "packet", [0, 9]),
    ("48000149", "hop", [0, 1]),
    ("4801024b", "hop", [1, 2]),
    ("4802034d", "hop", [2, 3]),
    ("4400030100034b", "end", [0, 3, 1, 3]),
    ("570259", "withdraw", [2]),
    ("520254", "return", [2]),
]

# lines that say no frame, with the refusal and the place of the first bad character where it is told
BAD_LINES = [
    ("0" * 81, 10, None), ("4e0g", 11, 3), ("4E00", 11, 1), ("500", 12, None), ("", 13, None),
    ("50", 13, None), ("50000354", 14, None), ("510003", 14, None), ("510051", 15, None), ("5050", 16, None),
    ("5000000050", 16, None),
]


def make_map(points):
    """A map with the points placed."""
    site = Map()
    for point in points:
        site.place(*point)
    return site


def make_host(name, withdrawn=None):
    """A host of a worked floor, one of its nodes withdrawn if asked."""
    reach, points = FLOORS[name]
    host = Host(make_map(points).points, reach)
    if withdrawn is not None:
        host.switch(withdrawn, False)
    return host
