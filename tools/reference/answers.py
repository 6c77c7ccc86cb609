"""What a program must print for a case file."""

import frames
from floors import PLANARISERS, Graph, Host, Map, Refused
from network import Network
from steps import forward, open_packet, receive, write_record

HOST_KINDS = ["scan", "table"]
LIST_ROOM = 64


def refusal(refused):
    """A refusal in words."""
    words = "refused %d" % refused.number
    return words if refused.place is None else words + " at %d" % refused.place


def said(work, *given):
    """What some work says, or the refusal it ends in."""
    try:
        return work(*given)
    except Refused as refused:
        return refusal(refused)


class Bench:
    """One floor with one planariser: the network that the calls of a block go to."""

    def __init__(self, points, reach, planariser):
        self.points = points
        self.reach = reach
        self.blocks = PLANARISERS[planariser]
        self.network = Network(Host(points, reach), self.blocks)
        self.faces = self.network.faces()
        self.whole = self.faces.graph
        self.sends = 0

    def call(self, words):
        """What one call prints."""
        work = {"packet": self.packet, "open": self.open, "hop": self.hop, "carry": self.carry,
                "collect": self.collect, "withdraw": self.withdraw, "return": self.restore,
                "record": self.record, "gone": self.gone}[words[0]]
        return said(work, *map(int, words[1:]))

    def packet(self, source, target):
        """Open a packet on line 0, carry it to its end and collect it."""
        self.network.open(0, source, target)
        receivers = []
        while not self.network.lines[0].ended():
            receivers += [hop[1] for hop in self.network.carry(0, LIST_ROOM, LIST_ROOM)[0]]
        self.sends += len(receivers)
        return " ".join(map(str, [*receivers, *self.network.collect(0)]))

    def open(self, line, source, target):
        """Open a packet on a line."""
        self.network.open(line, source, target)
        return "opened"

    def hop(self, line):
        """Do one hop."""
        hop = self.network.hop(line)
        self.sends += 1
        return "%d %d" % hop

    def carry(self, line, budget, room):
        """Do several hops."""
        hops, stopper = self.network.carry(line, budget, room)
        self.sends += len(hops)
        return " ".join(["%d%s" % (receiver, phase[0]) for _, receiver, phase in hops] + [stopper])

    def collect(self, line):
        """Take an ended packet off its line."""
        return "%s %d" % self.network.collect(line)

    def withdraw(self, node):
        """Take a node out of service."""
        self.network.withdraw(node)
        return "done"

    def restore(self, node):
        """Put a node back in service."""
        self.network.restore(node)
        return "done"

    def sent_on(self, source, target, sends):
        """The record of a packet over the whole floor after a number of sends, or at its end."""
        record = open_packet(self.whole, source, target)
        while record.end == "underway" and record.total < sends:
            record = receive(forward(record, self.whole), self.whole)
            self.sends += 1
        return record

    def record(self, source, target, sends):
        """The record of a packet in the hand."""
        return write_record(self.sent_on(source, target, sends))

    def gone(self, source, target, sends, node):
        """What becomes of a packet in the hand when a node is gone as it is received."""
        record = self.sent_on(source, target, sends)
        if record.end != "underway":
            return "ended"
        host = Host(self.points, self.reach)
        host.switch(node, False)
        part = Graph(host, self.blocks)
        self.sends += 1
        answer = said(lambda: forward(record, part) and "sent")
        return answer + " " + write_record(receive(forward(record, self.whole), part))


def read_floor(line):
    """The points and the reach in the first line of a floor block."""
    _, reach, *points = line.split(" ")
    site = Map()
    for point in points:
        site.place(*map(int, point.split(",")))
    return site.points, int(reach)


def answer_floor(block):
    """The answers to a floor block, and the number of its sends."""
    points, reach = read_floor(block[0])
    told, sends = {}, 0
    for planariser in PLANARISERS:
        bench = Bench(points, reach, planariser)
        told[planariser] = [str(bench.whole.count())] + [bench.call(line.split(" ")) for line in block[1:]]
        sends += bench.sends * len(HOST_KINDS)
    answers = []
    for host in HOST_KINDS:
        for planariser, (count, *rest) in told.items():
            answers += [" ".join(["floor", host, planariser, count])] + rest
    return answers, sends


def answer_map(block):
    """The answers to a map block."""
    site = Map()
    return ["map"] + [str(said(site.place, *map(int, line.split(" ")))) for line in block[1:]], 0


def answer_lines(block):
    """The answers to a block of lines."""
    def frame(line):
        word, fields = frames.read(line)
        return " ".join(map(str, [word, *fields]))

    return ["lines"] + [said(frame, line) for line in block[1:]], 0


def answer(block):
    """The answers to a block, and the number of its sends."""
    kind = block[0].split(" ")[0]
    return {"floor": answer_floor, "map": answer_map, "lines": answer_lines}[kind](block)


def read_blocks(text):
    """The blocks of a case file, each a list of lines."""
    return [part.split("\n") for part in text.removesuffix("\n").split("\n\n")]


def write_blocks(blocks):
    """A case file."""
    return "\n\n".join("\n".join(block) for block in blocks) + "\n"


def answer_text(text):
    """The answers to a case file."""
    return "".join(line + "\n" for block in read_blocks(text) for line in answer(block)[0])
