"""Sixteen lines over one host; a line holds a whole journey and how much of it is done."""

from floors import Graph, Refused
from routes import Faces, journey

LINES = 16


class Travel:
    """A journey and the number of its hops that are done."""

    def __init__(self, whole):
        self.whole = whole
        self.done = 0

    def ended(self):
        """Whether all hops are done."""
        return self.done == len(self.whole.hops)


class Network:
    """The six calls: open, hop, carry, collect, withdraw, restore."""

    def __init__(self, host, blocks):
        self.host = host
        self.blocks = blocks
        self.lines = [None] * LINES
        self.known = {}

    def faces(self):
        """The faces of the host as it is switched now."""
        marks = tuple(self.host.marks)
        if marks not in self.known:
            self.known[marks] = Faces(Graph(self.host, self.blocks))
        return self.known[marks]

    def travel(self, line, empty=False):
        """What is on a line; refused when there is no such line, or it is empty or taken and should not."""
        if not 0 <= line < LINES:
            raise Refused(41)
        if empty and self.lines[line] is not None:
            raise Refused(42)
        if not empty and self.lines[line] is None:
            raise Refused(45)
        return self.lines[line]

    def open(self, line, source, target):
        """Open a packet on an empty line."""
        self.travel(line, empty=True)
        self.lines[line] = Travel(journey(self.faces(), source, target))

    def hop(self, line):
        """Do one hop and answer its sender and receiver."""
        sender, receiver, _ = self.step(line)
        return sender, receiver

    def step(self, line):
        """Do one hop and answer it with its phase."""
        travel = self.travel(line)
        if travel.ended():
            raise Refused(46)
        travel.done += 1
        return travel.whole.hops[travel.done - 1]

    def carry(self, line, budget, room):
        """Do hops until the packet ends, the budget is used up or the list is full."""
        travel = self.travel(line)
        if travel.ended():
            raise Refused(46)
        hops = []
        while True:
            if travel.ended():
                return hops, "end"
            if len(hops) == budget:
                return hops, "budget"
            if len(hops) == room:
                return hops, "full"
            hops.append(self.step(line))

    def collect(self, line):
        """Take an ended packet off its line and answer its end and total."""
        travel = self.travel(line)
        if not travel.ended():
            raise Refused(47)
        self.lines[line] = None
        return travel.whole.end, travel.done

    def switch(self, node, mark):
        """Put a node in or out of service."""
        if not self.host.has(node):
            raise Refused(43)
        if any(travel is not None and not travel.ended() for travel in self.lines):
            raise Refused(48)
        self.host.switch(node, mark)

    def withdraw(self, node):
        """Take a node out of service."""
        self.switch(node, False)

    def restore(self, node):
        """Put a node back in service."""
        self.switch(node, True)
