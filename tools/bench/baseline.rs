//! The same rules in ordinary Rust, with the same data structures: what the proved library is measured against.

use std::cmp::Ordering;

#[derive(Clone, Copy, PartialEq, Eq)]
pub struct Point {
    pub x: u16,
    pub y: u16,
}

/// Positive when `c` lies left of the way from `a` to `b`.
fn turn(a: Point, b: Point, c: Point) -> i64 {
    let gap = |p: u16, q: u16| i64::from(q) - i64::from(p);
    gap(a.x, b.x) * gap(a.y, c.y) - gap(a.y, b.y) * gap(a.x, c.x)
}

/// The inner product of the ways from `c` to `a` and to `b`.
fn inner(a: Point, b: Point, c: Point) -> i64 {
    let gap = |p: u16, q: u16| i64::from(q) - i64::from(p);
    gap(c.x, a.x) * gap(c.x, b.x) + gap(c.y, a.y) * gap(c.y, b.y)
}

fn squared(a: Point, b: Point) -> i64 {
    inner(b, b, a)
}

#[derive(Clone, Copy)]
pub struct Node {
    pub number: u8,
    pub point: Point,
}

pub trait Planariser {
    fn blocks(&self, u: Point, v: Point, w: Point) -> bool;
}

pub struct Gabriel;

impl Planariser for Gabriel {
    fn blocks(&self, u: Point, v: Point, w: Point) -> bool {
        inner(u, v, w) <= 0
    }
}

pub struct Relative;

impl Planariser for Relative {
    fn blocks(&self, u: Point, v: Point, w: Point) -> bool {
        let length = squared(u, v);
        squared(w, u) < length && squared(w, v) < length
    }
}

/// The points of a map, their marks of service and a reach.
pub struct Storey {
    reach: u16,
    points: Vec<Point>,
    serving: [bool; 64],
}

impl Storey {
    pub fn new(points: Vec<Point>, reach: u16) -> Storey {
        assert!(points.len() <= 64);
        Storey { reach, points, serving: [true; 64] }
    }

    fn links(&self, i: usize, k: usize) -> bool {
        let reach = i64::from(self.reach);
        i != k && self.serving[i] && self.serving[k] && squared(self.points[i], self.points[k]) <= reach * reach
    }

    fn node(&self, k: usize) -> Node {
        Node { number: k as u8, point: self.points[k] }
    }
}

/// The reading side of a host: its nodes, and the lowest-numbered neighbour of a node from a number on.
pub trait Host {
    fn storey(&self) -> &Storey;

    fn next_neighbour(&self, i: u8, j: u8) -> Option<Node>;

    /// The neighbours of a node, the lowest number first, by one question after the other.
    fn neighbours(&self, i: u8) -> impl Iterator<Item = Node> {
        let mut from = 0;
        std::iter::from_fn(move || {
            let node = self.next_neighbour(i, from)?;
            from = node.number + 1;
            Some(node)
        })
    }
}

pub struct ScanHost(pub Storey);

impl Host for ScanHost {
    fn storey(&self) -> &Storey {
        &self.0
    }

    fn next_neighbour(&self, i: u8, j: u8) -> Option<Node> {
        let storey = &self.0;
        (usize::from(j)..storey.points.len()).find(|&k| storey.links(usize::from(i), k)).map(|k| storey.node(k))
    }
}

pub struct TableHost {
    storey: Storey,
    rows: [u64; 64],
}

impl TableHost {
    pub fn new(storey: Storey) -> TableHost {
        let mut rows = [0; 64];
        for i in 0..storey.points.len() {
            for k in 0..storey.points.len() {
                if storey.links(i, k) {
                    rows[i] |= 1 << k;
                }
            }
        }
        TableHost { storey, rows }
    }
}

impl Host for TableHost {
    fn storey(&self) -> &Storey {
        &self.storey
    }

    fn next_neighbour(&self, i: u8, j: u8) -> Option<Node> {
        if j >= 64 {
            return None;
        }
        let rest = self.rows[usize::from(i)] & (u64::MAX << j);
        (rest != 0).then(|| self.storey.node(rest.trailing_zeros() as usize))
    }
}

/// A table host that is not held to the questions: its row is walked bit by bit.
pub struct WalkedHost(pub TableHost);

/// The places of the bits of a row.
struct Bits(u64);

impl Iterator for Bits {
    type Item = usize;

    fn next(&mut self) -> Option<usize> {
        if self.0 == 0 {
            return None;
        }
        let place = self.0.trailing_zeros();
        self.0 &= self.0 - 1;
        Some(place as usize)
    }
}

impl Host for WalkedHost {
    fn storey(&self) -> &Storey {
        self.0.storey()
    }

    fn next_neighbour(&self, i: u8, j: u8) -> Option<Node> {
        self.0.next_neighbour(i, j)
    }

    fn neighbours(&self, i: u8) -> impl Iterator<Item = Node> {
        Bits(self.0.rows[usize::from(i)]).map(|k| self.0.storey.node(k))
    }
}

#[derive(Clone, Copy, PartialEq, Eq)]
enum Sense {
    Clockwise,
    Counter,
}

/// A neighbour with its direction in the frame of a start.
struct Bearing {
    node: Node,
    sector: u8,
    along: i64,
    across: i64,
}

impl Bearing {
    fn new(at: Point, start: Point, node: Node, sense: Sense, full: bool) -> Bearing {
        let along = inner(start, node.point, at);
        let across = match sense {
            Sense::Clockwise => turn(at, node.point, start),
            Sense::Counter => turn(at, start, node.point),
        };
        let sector = match across.cmp(&0) {
            Ordering::Greater => 1,
            Ordering::Less => 3,
            Ordering::Equal if along <= 0 => 2,
            Ordering::Equal => if full { 4 } else { 0 },
        };
        Bearing { node, sector, along, across }
    }

    fn comes_before(&self, other: &Bearing) -> bool {
        self.sector < other.sector
            || self.sector == other.sector
                && i128::from(self.across) * i128::from(other.along) < i128::from(self.along) * i128::from(other.across)
    }
}

/// What a node sees: its kept neighbours.
struct View<'a, H, P> {
    host: &'a H,
    planariser: &'a P,
    here: Node,
}

impl<'a, H: Host, P: Planariser> View<'a, H, P> {
    fn new(host: &'a H, planariser: &'a P, number: u8) -> Self {
        let here = host.storey().node(usize::from(number));
        View { host, planariser, here }
    }

    fn keeps(&self, v: Node) -> bool {
        !self
            .host
            .neighbours(self.here.number)
            .any(|w| w.number != v.number && self.planariser.blocks(self.here.point, v.point, w.point))
    }

    fn known(&self, number: u8) -> Option<Node> {
        let node = self.host.next_neighbour(self.here.number, number)?;
        (node.number == number && self.keeps(node)).then_some(node)
    }

    fn first(&self, sense: Sense, full: bool, towards: Point) -> Option<Node> {
        let mut best: Option<Bearing> = None;
        for w in self.host.neighbours(self.here.number) {
            let bearing = Bearing::new(self.here.point, towards, w, sense, full);
            if best.as_ref().is_none_or(|b| bearing.comes_before(b)) && self.keeps(w) {
                best = Some(bearing);
            }
        }
        best.map(|b| b.node)
    }

    /// The link first round after one that leads to a kept neighbour, and that neighbour.
    fn turn_from(&self, sense: Sense, from: u8) -> Option<(Node, u8)> {
        let came = self.known(from)?;
        Some((came, self.first(sense, true, came.point)?.number))
    }
}

#[derive(Clone, Copy, PartialEq, Eq)]
struct Link {
    from: u8,
    to: u8,
}

#[derive(Clone, Copy)]
struct Place {
    above: u64,
    below: u64,
}

impl Place {
    fn nearer(&self, other: &Place) -> bool {
        u128::from(self.above) * u128::from(other.below) > u128::from(other.above) * u128::from(self.below)
    }
}

#[derive(Clone, Copy)]
struct Best {
    link: Link,
    index: u16,
    place: Place,
    marked: bool,
}

#[derive(Clone, Copy, PartialEq, Eq)]
pub enum Phase {
    Round,
    Ahead,
    Back,
}

#[derive(Clone, Copy, PartialEq, Eq)]
pub enum End {
    UnderWay,
    Delivered,
    Unreachable,
}

#[derive(Clone, Copy)]
struct Course {
    phase: Phase,
    first: Option<Link>,
    sends: u16,
    entry: Place,
    best: Option<Best>,
    walk: u16,
}

impl Course {
    fn new(entry: Place, first: Option<Link>) -> Course {
        Course { phase: Phase::Round, first, sends: 0, entry, best: None, walk: 0 }
    }

    /// One link more of a round, and where it crosses.
    fn count(&mut self, link: Link, crossed: Option<Place>) {
        let index = self.sends;
        self.sends = self.sends.saturating_add(1);
        let Some(place) = crossed.filter(|place| place.nearer(&self.entry)) else {
            return;
        };
        match &mut self.best {
            Some(best) if best.place.nearer(&place) => (),
            Some(best) if !place.nearer(&best.place) => best.marked = true,
            best => *best = Some(Best { link, index, place, marked: false }),
        }
    }
}

/// Where the link from `u` to `v` crosses the way from `s` to `t`.
fn crossing(s: Node, t: Node, u: Node, v: Node) -> Option<Place> {
    let opposite = |y: i64, z: i64| y < 0 && 0 < z || 0 < y && z < 0;
    let ends = [s.number, t.number, u.number, v.number];
    if (1..4).any(|i| ends[..i].contains(&ends[i])) {
        return None;
    }
    if !opposite(turn(s.point, t.point, u.point), turn(s.point, t.point, v.point)) {
        return None;
    }
    let (above, below) = (turn(u.point, v.point, s.point), turn(u.point, v.point, t.point));
    opposite(above, below).then(|| Place { above: above.unsigned_abs(), below: below.unsigned_abs() })
}

#[derive(Clone, Copy)]
pub struct Record {
    source: Node,
    target: Node,
    holder: u8,
    hand: Option<Link>,
    course: Course,
    pub total: u16,
    pub end: End,
}

impl Record {
    fn open<H: Host, P: Planariser>(host: &H, planariser: &P, source: u8, target: u8) -> Record {
        let view = View::new(host, planariser, source);
        let target = host.storey().node(usize::from(target));
        let (hand, end) = if source == target.number {
            (None, End::Delivered)
        } else {
            match view.first(Sense::Clockwise, false, target.point) {
                Some(next) => (Some(Link { from: source, to: next.number }), End::UnderWay),
                None => (None, End::Unreachable),
            }
        };
        let course = Course::new(Place { above: 0, below: 1 }, hand);
        Record { source: view.here, target, holder: source, hand, course, total: 0, end }
    }

    fn finish(&mut self, end: End) {
        self.hand = None;
        self.end = end;
    }

    fn send<H: Host, P: Planariser>(&mut self, host: &H, planariser: &P) {
        let Some(link) = self.hand else {
            return;
        };
        let view = View::new(host, planariser, link.to);
        self.holder = link.to;
        self.total = self.total.saturating_add(1);
        if link.to == self.target.number {
            return self.finish(End::Delivered);
        }
        let before = self.course;
        if self.step(link, &view).is_none() {
            self.course = before;
            self.finish(End::Unreachable);
        }
    }

    /// What the receiver does; `None` where it finds a node gone.
    fn step<H: Host, P: Planariser>(&mut self, link: Link, view: &View<'_, H, P>) -> Option<()> {
        let at = view.here;
        let course = &mut self.course;
        let sense = if course.phase == Phase::Back { Sense::Counter } else { Sense::Clockwise };
        let (came, next) = view.turn_from(sense, link.from)?;
        let mut hand = Link { from: at.number, to: next };
        if course.phase == Phase::Round {
            course.count(link, crossing(self.source, self.target, came, at));
            if course.first != Some(hand) {
                self.hand = Some(hand);
                return Some(());
            }
            let Some(best) = course.best.filter(|best| !best.marked) else {
                self.finish(End::Unreachable);
                return Some(());
            };
            let rest = course.sends - 1 - best.index;
            if best.index <= rest {
                (course.phase, course.walk) = (Phase::Ahead, best.index);
            } else {
                (course.phase, course.walk) = (Phase::Back, rest);
                hand.to = view.turn_from(Sense::Counter, next)?.1;
            }
        } else {
            course.walk -= 1;
        }
        if course.walk == 0 {
            let best = course.best?;
            let to = match course.phase {
                Phase::Ahead => view.turn_from(Sense::Clockwise, best.link.to)?.1,
                _ => view.known(best.link.from)?.number,
            };
            hand.to = to;
            *course = Course::new(best.place, Some(hand));
        }
        self.hand = Some(hand);
        Some(())
    }
}

/// A hop as a list keeps it.
#[derive(Clone, Copy)]
#[allow(dead_code)]
pub struct HopRecord {
    pub sender: u8,
    pub receiver: u8,
    pub phase: Phase,
}

/// Sixteen lines over a host.
pub struct Network<H, P> {
    host: H,
    planariser: P,
    lines: [Option<Record>; 16],
}

impl<H: Host, P: Planariser> Network<H, P> {
    pub fn new(host: H, planariser: P) -> Self {
        Network { host, planariser, lines: [None; 16] }
    }

    pub fn nodes(&self) -> u8 {
        self.host.storey().points.len() as u8
    }

    pub fn open(&mut self, line: usize, source: u8, target: u8) {
        self.lines[line] = Some(Record::open(&self.host, &self.planariser, source, target));
    }

    /// Sends the packet on to its end or until budget or list is used up; `None` where there is none.
    pub fn carry(&mut self, line: usize, budget: u16, list: &mut [HopRecord]) -> Option<usize> {
        let packet = self.lines[line].as_mut()?;
        let mut hops = 0;
        while let Some(link) = packet.hand {
            if hops == usize::from(budget) || hops == list.len() {
                break;
            }
            list[hops] = HopRecord { sender: link.from, receiver: link.to, phase: packet.course.phase };
            packet.send(&self.host, &self.planariser);
            hops += 1;
        }
        Some(hops)
    }

    pub fn collect(&mut self, line: usize) -> Option<(End, u16)> {
        let packet = self.lines[line].take()?;
        Some((packet.end, packet.total))
    }
}
