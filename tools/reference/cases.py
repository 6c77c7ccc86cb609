"""Makes case files: random floors with calls, maps, and lines of hexadecimal."""

import random

import frames
import sites
from answers import Bench
from floors import MOST_NODES, PLANARISERS, Graph, Host
from routes import Faces, journey
from worked import FLOORS, PACKETS

STORED_SEED = 20240
NO_NODES = [64, 65, 128, 200, 255]
NO_LINES = [16, 17, 31, 128, 255]
BUDGETS = [0, 1, 2, 3, 5, 9, 20, 64, 65, 1000, 65535]
ROOMS = [0, 1, 2, 4, 7, 16, 63, 64, 64, 64]

# calls on worked floors: lines taken and free, refusals, a withdrawal and a return, walks both ways round
PASTS = [
    ("A", """open 0 0 5|open 0 1 2|open 16 0 5|open 1 0 6|open 1 5 4|open 2 3 3|hop 0|hop 2|hop 3|hop 16
carry 0 9 2|carry 1 3 4|carry 1 0 0|carry 2 9 4|carry 3 9 4|withdraw 2|collect 0|collect 2|collect 2
carry 0 9 8|carry 1 9 8|collect 0|collect 1|withdraw 6|withdraw 2|withdraw 2|open 0 0 2|open 0 0 5|return 2
carry 0 100 8|collect 0|return 2|open 0 0 5|carry 0 100 8|collect 0"""),
    ("D", """open 15 0 8|carry 15 5 16|carry 15 99 4|carry 15 99 16|hop 15|collect 15
open 15 8 0|carry 15 99 16|collect 15"""),
]


def telling(whole):
    """How telling a journey is: by its rounds, its phases, its length and its end."""
    phases = {phase for _, _, phase in whole.hops}
    return 4 * whole.rounds + 3 * len(phases) + len(whole.hops) / 8 + 4 * (whole.end == "unreachable")


def floor_line(reach, points):
    """The first line of a floor block."""
    return "floor %d " % reach + " ".join("%d,%d" % point for point in points)


class Maker:
    """Makes the calls of one floor block; it follows along with both planarisers to choose telling ones."""

    def __init__(self, rng, points, reach, most_hops):
        self.rng = rng
        self.size = len(points)
        self.most_hops = most_hops
        self.benches = [Bench(points, reach, planariser) for planariser in PLANARISERS]
        self.block = [floor_line(reach, points)]

    def call(self, *words):
        """Add one call and do it; answers what it says with each planariser."""
        words = list(map(str, words))
        self.block.append(" ".join(words))
        return [bench.call(words) for bench in self.benches]

    def node(self):
        """Any node."""
        return self.rng.randrange(self.size)

    def no_node(self):
        """A number that is no node."""
        return self.rng.choice([self.size] + [number for number in NO_NODES if number >= self.size])

    def line(self):
        """Any line but the first."""
        return self.rng.randint(1, 15)

    def pick(self, faces):
        """A telling pair of nodes with the hops between them, the best of one or several pairs."""
        found = []
        for _ in range(self.rng.choice([1, 8, 25, 25])):
            source, target = self.node(), self.node()
            if faces.graph.marks[source] and faces.graph.marks[target]:
                found.append((source, target, journey(faces, source, target)))
        if not found:
            return self.node(), self.node(), []
        source, target, whole = max(found, key=lambda item: self.score(item[2]))
        return source, target, whole.hops

    def score(self, whole):
        """How telling a journey is; one that is too long for this block tells little."""
        short = len(whole.hops) <= self.most_hops
        return self.rng.random() + (telling(whole) if short else -len(whole.hops))

    def packet(self):
        """A packet from end to end."""
        source, target, hops = self.pick(self.rng.choice(self.benches).network.faces())
        if self.rng.random() < 0.02:
            strange = self.no_node()
            source, target = self.rng.choice([(source, source), (strange, target), (source, strange)])
        self.call("packet", source, target)
        return source, target, hops

    def switching(self):
        """A packet, then one of its nodes withdrawn, the packet again, and the node put back."""
        source, target, hops = self.packet()
        node = self.rng.choice([hop[1] for hop in hops]) if hops else self.node()
        if node == target and self.rng.random() < 0.8 and len(hops) > 1:
            node = hops[len(hops) // 2][0]
        self.call("withdraw", node)
        if self.rng.random() < 0.8:
            self.call("packet", source, target)
        if self.rng.random() < 0.3:
            self.call("withdraw", self.rng.choice([node, self.node(), self.no_node()]))
        if self.rng.random() < 0.5:
            self.packet()
        if self.rng.random() < 0.8:
            self.call("return", node)

    def lines(self):
        """Packets on several lines at once, with hops and carries, and calls that come too early."""
        taken = self.rng.sample(range(1, 16), self.rng.randint(1, 3))
        if self.rng.random() < 0.05:
            taken[0] = 0
        for line in taken:
            source, target, _ = self.pick(self.rng.choice(self.benches).network.faces())
            self.call("open", line, source, target)
        if taken[0] == 0:
            self.packet()
        for _ in range(self.rng.randint(1, 5)):
            line = self.rng.choice(taken)
            kinds = [self.one_hop, self.one_hop, self.one_carry, self.one_carry, self.too_early]
            self.rng.choice(kinds)(line)
        for line in taken:
            if self.rng.random() < 0.85:
                self.finish(line)

    def one_hop(self, line):
        """One hop."""
        self.call("hop", line)

    def one_carry(self, line):
        """One carry with some budget and some room."""
        self.call("carry", line, self.rng.choice(BUDGETS), self.rng.choice(ROOMS))

    def too_early(self, line):
        """A call that is likely to be refused while a packet is under way."""
        self.call(*self.rng.choice([
            ("collect", line), ("withdraw", self.node()), ("return", self.node()),
            ("withdraw", self.no_node()), ("open", line, self.node(), self.node()),
            ("open", line, self.no_node(), self.node())]))

    def finish(self, line):
        """Carry a packet to its end and collect it."""
        told = ["budget"]
        while any(words.endswith(("budget", "full")) for words in told):
            told = self.call("carry", line, self.rng.choice([64, 70, 65535]), 64)
        if self.rng.random() < 0.3:
            self.call(*self.rng.choice([("hop", line), ("carry", line, 3, 3), ("withdraw", self.node()),
                                        ("return", self.node()), ("open", line, 0, 1)]))
        self.call("collect", line)
        if self.rng.random() < 0.2:
            self.call(*self.rng.choice([("hop", line), ("collect", line), ("carry", line, 1, 1)]))

    def refused(self):
        """Calls that are likely to be refused."""
        no_line, line, node = self.rng.choice(NO_LINES), self.line(), self.node()
        self.call(*self.rng.choice([
            ("open", no_line, node, self.node()), ("open", no_line, self.no_node(), node), ("hop", no_line),
            ("carry", no_line, 5, 5), ("collect", no_line), ("open", line, self.no_node(), node),
            ("open", line, node, self.no_node()), ("hop", line), ("carry", line, 9, 9), ("collect", line),
            ("withdraw", self.no_node()), ("return", self.no_node()), ("return", node)]))
        if self.rng.random() < 0.5:
            self.call("withdraw", node)
            self.call("open", line, *self.rng.choice([(node, self.node()), (self.node(), node), (node, node),
                                                      (node, self.no_node())]))
            if self.rng.random() < 0.5:
                self.call("return", node)

    def record(self):
        """The record of a packet in the hand."""
        source, target, hops = self.pick(self.rng.choice(self.benches).faces)
        if self.rng.random() < 0.03:
            target = self.rng.choice([source, self.no_node()])
        sends = self.rng.choice([self.rng.randint(0, len(hops) + 1), self.walking(hops)])
        self.call("record", source, target, sends)

    def gone(self):
        """A packet that is received where a node is gone."""
        bench = self.rng.choice(self.benches)
        source, target, hops = self.pick(bench.faces)
        sends = self.walking(hops)
        nodes = [self.node(), self.no_node()]
        best = bench.sent_on(source, target, sends).best
        if best is not None:
            nodes += best.link * 2
        if hops:
            left, holder, _ = hops[sends]
            nodes += [left, left, holder, target]
            nodes += [hop[1] for hop in hops[sends + 1:sends + 3]] * 2
            nodes += sorted({end for hop in hops if holder in hop[:2] for end in hop[:2]} - {left, holder})
        self.call("gone", source, target, sends, self.rng.choice(nodes))

    def walking(self, hops):
        """How many sends to do: rather into the walks between rounds, and to their edges."""
        walks = [place for place, hop in enumerate(hops) if hop[2] != "Round"]
        edges = [place for place in range(len(hops) - 1) if hops[place][2] != hops[place + 1][2]]
        chosen = self.rng.choice([range(len(hops)), walks, edges])
        return self.rng.choice(chosen or range(max(len(hops), 1)))

    def make(self, calls):
        """Add as many calls as asked for, and answer the block."""
        kinds = [self.packet, self.packet, self.packet, self.packet, self.switching, self.lines, self.refused,
                 self.record, self.gone, self.gone]
        while len(self.block) <= calls:
            self.rng.choice(kinds)()
        return self.block[:calls + 1]


def richness(rng, points, reach):
    """How telling the best of some random journeys on a floor is."""
    faces = Faces(Graph(Host(points, reach), rng.choice(list(PLANARISERS.values()))))
    pairs = [(rng.randrange(len(points)), rng.randrange(len(points))) for _ in range(20)]
    return max(telling(journey(faces, source, target)) for source, target in pairs)


def make_floor(rng, family, count, calls, most_hops, tries=1, exact=False):
    """A floor block: the most telling of some tries, with exactly so many nodes if asked."""
    best = None
    while tries > 0:
        points, reach = sites.floor(rng, family, count)
        if len(points) == count or not exact:
            rich = richness(rng, points, reach) if tries > 1 or best else 0
            best = max(best or (rich, points, reach), (rich, points, reach))
            tries -= 1
    return Maker(rng, best[1], best[2], most_hops).make(calls)


def make_map(rng):
    """A map block: few coordinates, so that points and lines come up again, and some beyond the map."""
    low = rng.choice([0, 0, 0, 1000, 32740])
    side = rng.choice([3, 5, 9, 16, 30])
    block = ["map"]
    for _ in range(rng.randint(10, 40)):
        x, y = (low + rng.randint(0, side) for _ in range(2))
        if rng.random() < 0.1:
            x, y = rng.choice([(32767, y), (32768, y), (x, 32768), (x, 65535), (65535, x), (x, 32767),
                               (40000, 50000)])
        block.append("%d %d" % (x, y))
    return block


def make_full_map(rng):
    """A map block with 64 points of a parabola in any order, and more."""
    places = rng.sample(range(150), 64)
    points = [(place, place * place) for place in places]
    more = [(rng.randint(0, 65535), rng.randint(0, 65535)) for _ in range(4)]
    return ["map"] + ["%d %d" % point for point in points + more + points[:1]]


def make_frame(rng):
    """A frame's line, its fields often at an edge."""
    word, sizes = rng.choice(list(frames.KINDS.values()))
    limits = [256 ** size for size in sizes]
    return frames.write(word, [rng.choice([0, 1, 2, 3, 63, 64, 255, limit - 1, rng.randrange(limit)])
                               for limit in limits])


def summed(data):
    """The line of some bytes with their sum after them."""
    return (data + bytes([sum(data) % 256])).hex()


def make_line(rng):
    """A line: a good frame, or one spoilt in one of several ways."""
    line = make_frame(rng)
    place = rng.randrange(len(line))
    kinds = list(frames.KINDS)
    body = bytes(rng.randrange(256) for _ in range(rng.choice([0, 1, 2, 4, 5, 38])))
    return rng.choice([
        line, line, line, line, make_frame(rng),
        line[:place] + rng.choice("ABCDEFGgz/:`@~!0.-") + line[place + 1:],
        line.upper(),
        line[:place] + line[place + 1:],
        line + rng.choice(frames.DIGITS),
        line[:place] + rng.choice(frames.DIGITS) + line[place + 1:],
        line[:2], line[:1], line[:4], "00", "0", "0000",
        summed(bytes([rng.randrange(256)]) + body),
        summed(bytes([rng.choice(kinds)]) + body),
        summed(bytes([rng.choice(kinds)]) + bytes(38)),
        summed(bytes([rng.choice(kinds)]) + bytes(39)),
        line + "0" * (rng.randint(78, 83) - len(line)),
        "".join(rng.choice("0123456789abcdefg~") for _ in range(rng.randint(1, 90))),
        "".join(rng.choice(frames.DIGITS) for _ in range(rng.randint(76, 90))),
        "".join(chr(rng.randint(33, 126)) for _ in range(rng.randint(1, 90))),
    ])


def make_lines(rng):
    """A block of lines."""
    return ["lines"] + [make_line(rng) for _ in range(rng.randint(30, 50))]


def stored_sizes(rng):
    """How many nodes the stored floors have."""
    sizes = [MOST_NODES] * 18 + [rng.randint(40, 63) for _ in range(36)]
    sizes += [rng.randint(20, 39) for _ in range(80)] + [rng.randint(9, 19) for _ in range(120)]
    return sizes + [rng.randint(2, 8) for _ in range(80)]


def worked_blocks():
    """The floors that were worked by hand, with their packets, and the two pasts on them."""
    for name, floor in FLOORS.items():
        calls = []
        packets = dict.fromkeys((row[2], *row[4:6]) for row in PACKETS if row[0] == name)
        for withdrawn, source, target in packets:
            there_and_back = ["packet %d %d" % (source, target), "packet %d %d" % (target, source)]
            if withdrawn is not None:
                there_and_back = ["withdraw %d" % withdrawn, *there_and_back, "return %d" % withdrawn]
            calls += there_and_back
        yield [floor_line(*floor), *calls]
    for name, past in PASTS:
        yield [floor_line(*FLOORS[name]), *past.replace("\n", "|").split("|")]


def stored():
    """The blocks that are stored."""
    rng = random.Random(STORED_SEED)
    blocks = list(worked_blocks())
    roomy = [family for family in sites.FAMILIES if family not in (sites.corridor, sites.slanted)]
    for number, size in enumerate(stored_sizes(rng)):
        large = size >= 40
        families = roomy if large else sites.FAMILIES
        family = families[number % len(families)]
        calls = rng.randint(6, 9 if large else 14)
        most_hops = rng.choice([80, 120, 250, 250] if large else [25, 40, 80])
        blocks.append(make_floor(rng, family, size, calls, most_hops, rng.choice([1, 4, 8]), large))
    blocks += [make_map(rng) for _ in range(9)] + [make_full_map(rng)]
    return blocks + [make_lines(rng) for _ in range(5)]


def further(rng):
    """A further random block."""
    if rng.random() < 0.03:
        return rng.choice([make_map, make_full_map, make_lines])(rng)
    size = rng.choice([rng.randint(2, 8), rng.randint(5, 20), rng.randint(10, 40), rng.randint(30, 64)])
    return make_floor(rng, rng.choice(sites.FAMILIES), size, rng.randint(6, 14), rng.choice([40, 100, 1000]))
