//! Runs the proved library and an ordinary Rust implementation of the same rules over the same floors, in one process, and
//! compares what they do and how long they take.

mod baseline;

use baseline::{
    End, Gabriel, HopRecord, Host, Network, Phase, Planariser, Point, Relative, ScanHost, Storey, TableHost, WalkedHost,
};
use std::hint::black_box;
use std::time::Instant;

/// What came of some packets.
#[repr(C)]
#[derive(Clone, Copy, Debug, Default, PartialEq, Eq)]
pub struct Sums {
    pub delivered: u64,
    pub sends: u64,
    pub mixed: u64,
}

unsafe extern "C" {
    // the allocator that the library's function takes first has no size, so nothing is passed for it
    fn kalzhuna_pairs(
        xs: *const u16,
        xs_len: usize,
        ys: *const u16,
        ys_len: usize,
        reach: u16,
        planariser: u8,
        host: u8,
        times: u32,
    ) -> Sums;
}

struct Floor {
    name: &'static str,
    reach: u16,
    points: Vec<Point>,
}

fn proved(floor: &Floor, planariser: u8, host: u8, times: u32) -> Sums {
    let xs: Vec<u16> = floor.points.iter().map(|p| p.x).collect();
    let ys: Vec<u16> = floor.points.iter().map(|p| p.y).collect();
    // SAFETY: the function reads the two slices and nothing else, and asks nothing of its arguments.
    unsafe { kalzhuna_pairs(xs.as_ptr(), xs.len(), ys.as_ptr(), ys.len(), floor.reach, planariser, host, times) }
}

fn run<H: Host, P: Planariser>(network: &mut Network<H, P>, source: u8, target: u8, sums: &mut Sums) {
    let mut list = [HopRecord { sender: 0, receiver: 0, phase: Phase::Round }; 558];
    network.open(0, source, target);
    let hops = network.carry(0, u16::MAX, &mut list).unwrap_or(0);
    for hop in &list[..hops] {
        sums.sends = sums.sends.wrapping_add(1);
        sums.mixed = sums.mixed.wrapping_mul(31).wrapping_add(u64::from(hop.receiver));
    }
    if let Some((End::Delivered, _)) = network.collect(0) {
        sums.delivered += 1;
    }
}

fn pairs<H: Host, P: Planariser>(host: H, planariser: P, times: u32) -> Sums {
    let mut network = Network::new(host, planariser);
    let nodes = network.nodes();
    let mut sums = Sums::default();
    for _ in 0..times {
        for source in 0..nodes {
            for target in 0..nodes {
                if source != target {
                    run(&mut network, source, target, &mut sums);
                }
            }
        }
    }
    sums
}

/// The hosts of the measurement: those of the library, and one that ordinary Rust could have beside them.
#[derive(Clone, Copy, PartialEq, Eq)]
enum Kind {
    Scan,
    Table,
    Walked,
}

fn ordinary(floor: &Floor, planariser: u8, kind: Kind, times: u32) -> Sums {
    let storey = Storey::new(floor.points.clone(), floor.reach);
    match kind {
        Kind::Scan => thinned(ScanHost(storey), planariser, times),
        Kind::Table => thinned(TableHost::new(storey), planariser, times),
        Kind::Walked => thinned(WalkedHost(TableHost::new(storey)), planariser, times),
    }
}

fn thinned<H: Host>(host: H, planariser: u8, times: u32) -> Sums {
    match planariser {
        1 => pairs(host, Gabriel, times),
        _ => pairs(host, Relative, times),
    }
}

/// Numbers that look random, the same in every run.
struct Numbers(u64);

impl Numbers {
    fn next(&mut self, below: u64) -> u64 {
        self.0 ^= self.0 << 13;
        self.0 ^= self.0 >> 7;
        self.0 ^= self.0 << 17;
        self.0 % below
    }
}

fn turn(a: Point, b: Point, c: Point) -> i64 {
    let (ax, ay) = (i64::from(a.x), i64::from(a.y));
    (i64::from(b.x) - ax) * (i64::from(c.y) - ay) - (i64::from(b.y) - ay) * (i64::from(c.x) - ax)
}

/// 64 points in general position in a room of that size.
fn floor(name: &'static str, seed: u64, width: u64, height: u64, reach: u16) -> Floor {
    let mut numbers = Numbers(seed);
    let mut points: Vec<Point> = Vec::new();
    while points.len() < 64 {
        let p = Point { x: numbers.next(width) as u16, y: numbers.next(height) as u16 };
        let clear = points.iter().enumerate().all(|(i, &a)| a != p && points[..i].iter().all(|&b| turn(a, b, p) != 0));
        if clear {
            points.push(p);
        }
    }
    Floor { name, reach, points }
}

/// How many neighbours a node has on the average.
fn mean_degree(floor: &Floor) -> f64 {
    let square = |p: u16, q: u16| (i64::from(p) - i64::from(q)).pow(2);
    let near = |a: &Point, b: &Point| square(a.x, b.x) + square(a.y, b.y) <= i64::from(floor.reach).pow(2);
    let links: usize = floor.points.iter().map(|a| floor.points.iter().filter(|b| *b != a && near(a, b)).count()).sum();
    links as f64 / floor.points.len() as f64
}

/// The shortest of some runs, in seconds, and what came of them.
fn timed(run: impl Fn() -> Sums) -> (f64, Sums) {
    let mut best = f64::INFINITY;
    let mut sums = Sums::default();
    for _ in 0..9 {
        let start = Instant::now();
        sums = black_box(run());
        best = best.min(start.elapsed().as_secs_f64());
    }
    (best, sums)
}

/// Measures one floor, host and planariser, and prints a row of the table.
fn measure(floor: &Floor, kind: Kind, planariser: u8) {
    let number = if kind == Kind::Scan { 1 } else { 2 };
    let once = proved(floor, planariser, number, 1);
    let times = (400_000 / once.sends.max(1)).max(1) as u32;
    let (ours, sums) = timed(|| proved(floor, planariser, number, times));
    let (theirs, other) = timed(|| ordinary(floor, planariser, kind, times));
    let (walked, third) = timed(|| ordinary(floor, planariser, Kind::Walked, times));
    assert_eq!(sums, other, "the two differ on {}", floor.name);
    assert_eq!(sums, third, "the two differ on {}", floor.name);
    let rate = |seconds: f64| sums.sends as f64 / seconds / 1e6;
    let host = if kind == Kind::Scan { "scan" } else { "table" };
    let rule = if planariser == 1 { "Gabriel" } else { "relative" };
    let degree = mean_degree(floor);
    print!("| {} | {degree:.1} | {host} | {rule} | {:.2} | {:.2} | {:.2} |", floor.name, rate(ours), rate(theirs), theirs / ours);
    let bits = if kind == Kind::Scan { String::new() } else { format!("{:.2}", rate(walked)) };
    println!(" {bits} | {:.1} |", ours * 1000.0 / f64::from(times));
}

fn main() {
    let floors = [
        floor("sparse", 0x9e37_79b9_7f4a_7c15, 4000, 3000, 600),
        floor("dense", 0x2545_f491_4f6c_dd1d, 4000, 3000, 1500),
        floor("crowded", 0x1234_5678_9abc_def1, 4000, 3000, 5000),
        floor("corridor", 0x0f0f_1234_5678_9abd, 30000, 300, 1800),
    ];
    println!("| floor | degree | host | rule | proved, M sends/s | Rust, M sends/s | proved / Rust | Rust on bits, M sends/s | all pairs proved, ms |");
    println!("|---|---|---|---|---|---|---|---|---|");
    for floor in &floors {
        for kind in [Kind::Scan, Kind::Table] {
            for planariser in [1, 2] {
                measure(floor, kind, planariser);
            }
        }
    }
}
