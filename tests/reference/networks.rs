//! Wiring tables to try, at random.

use crate::rules::NO_LINK;

pub struct Random(u64);

impl Random {
    pub fn new(seed: u64) -> Random {
        let mut r = Random(seed.wrapping_mul(0x9E37_79B9_7F4A_7C15) ^ 0x2545_F491_4F6C_DD1D);
        r.0 |= 1;
        r
    }

    pub fn below(&mut self, n: u64) -> u64 {
        self.0 ^= self.0 << 13;
        self.0 ^= self.0 >> 7;
        self.0 ^= self.0 << 17;
        (self.0 >> 16) % n
    }

    pub fn index(&mut self, n: usize) -> usize {
        self.below(n as u64) as usize
    }

    pub fn one_in(&mut self, n: u64) -> bool {
        self.below(n) == 0
    }

    pub fn of<T: Copy>(&mut self, items: &[T]) -> T {
        items[self.index(items.len())]
    }

    pub fn bytes(&mut self, n: usize) -> Vec<u8> {
        (0..n).map(|_| self.below(256) as u8).collect()
    }

    fn order(&mut self, n: usize) -> Vec<usize> {
        let mut order: Vec<usize> = (0..n).collect();
        for i in (1..n).rev() {
            order.swap(i, self.index(i + 1));
        }
        order
    }
}

/// A table, and the pair that it was made for if there is one.
pub struct Wiring {
    pub table: Vec<u16>,
    pub pair: Option<(u64, u64)>,
}

pub fn is_processor(entry: u16) -> bool {
    (1000..1512).contains(&entry)
}

pub fn processors(table: &[u16]) -> Vec<u64> {
    table.iter().filter(|e| is_processor(**e)).map(|e| *e as u64 - 1000).collect()
}

const NEAR_LIMIT: &str = "line near 65,536 tries";

/// Kinds of networks: name, maker, and how often it is taken.
const KINDS: [(&str, fn(&mut Random) -> Wiring, u64); 10] = [
    ("sparse", |r| scattered(r, 64, 2), 3),
    ("dense", |r| scattered(r, 64, 7), 2),
    ("parallel and self links", |r| scattered(r, 5, 6), 3),
    ("one-way links", one_way, 2),
    ("line", line, 3),
    (NEAR_LIMIT, near_limit, 3),
    ("fabric, links taken out", layers, 3),
    ("boards, links taken out", boards, 2),
    ("cube, links taken out", |r| cube(r, 6), 2),
    ("full table", full, 1),
];

/// A network and the name of its kind.
pub fn network(r: &mut Random) -> (&'static str, Wiring) {
    let mut left = r.below(KINDS.iter().map(|kind| kind.2).sum());
    for (name, make, times) in KINDS {
        if left < times {
            return (name, make(r));
        }
        left -= times;
    }
    unreachable!()
}

pub fn near_limit_network(r: &mut Random) -> (&'static str, Wiring) {
    (NEAR_LIMIT, near_limit(r))
}

/// A network of at most 50 switches whose headers take few tries.
pub fn easy_network(r: &mut Random) -> Wiring {
    match r.below(4) {
        0 => layers(r),
        1 => boards(r),
        2 => cube(r, 5),
        _ => scattered(r, 50, 2),
    }
}

fn wired(table: Vec<u16>) -> Wiring {
    Wiring { table, pair: None }
}

fn link(table: &mut [u16], switch: usize, port: usize, to: usize) {
    table[8 * switch + port] = to as u16;
}

fn attach(table: &mut [u16], switch: usize, port: usize, processor: usize) {
    table[8 * switch + port] = 1000 + processor as u16;
}

/// Puts some processors, numbered with gaps, over what stands at any ports.
fn attach_anywhere(r: &mut Random, table: &mut [u16], most: usize) {
    let (first, step) = (r.index(512), 2 * r.index(256) + 1);
    for k in 0..1 + r.index(most) {
        let i = r.index(table.len());
        if !is_processor(table[i]) {
            table[i] = 1000 + ((first + k * step) % 512) as u16;
        }
    }
}

/// Any links at all: of eight ports about `linked` have one.
fn scattered(r: &mut Random, most: u64, linked: u64) -> Wiring {
    let n = 1 + r.below(most);
    let mut table: Vec<u16> =
        (0..8 * n).map(|_| if r.below(8) < linked { r.below(n) as u16 } else { NO_LINK }).collect();
    attach_anywhere(r, &mut table, 2 * n as usize);
    wired(table)
}

/// Links to higher switches only, or a ring in one direction.
fn one_way(r: &mut Random) -> Wiring {
    let n = 2 + r.index(63);
    let ring = r.one_in(2);
    let mut table = vec![NO_LINK; 8 * n];
    for s in 0..n {
        for port in 0..1 + r.index(6) {
            if ring {
                link(&mut table, s, port, (s + 1) % n);
            } else if s + 1 < n {
                let higher = s + 1 + r.index(n - s - 1);
                link(&mut table, s, port, higher);
            }
        }
        attach(&mut table, s, 7, s);
    }
    wired(table)
}

/// A line of switches with the given numbers of parallel links, a processor at each switch, made for its two ends.
/// Switches and ports are shuffled.
fn line_of(r: &mut Random, parallel: &[usize]) -> Wiring {
    let n = parallel.len() + 1;
    let switches = r.order(n);
    let mut table = vec![NO_LINK; 8 * n];
    for (stage, &s) in switches.iter().enumerate() {
        let ports = r.order(8);
        let links = parallel.get(stage).copied().unwrap_or(0);
        for port in &ports[..links] {
            link(&mut table, s, *port, switches[(stage + 1) % n]);
        }
        if links < 8 {
            attach(&mut table, s, ports[7], 3 * stage);
        }
    }
    Wiring { table, pair: Some((0, 3 * n as u64 - 3)) }
}

fn line(r: &mut Random) -> Wiring {
    let parallel: Vec<usize> = (0..r.index(14)).map(|_| 1 + r.index(3) * r.index(3)).collect();
    line_of(r, &parallel)
}

/// The tries of a line: each nonempty choice of a stage, with those of the stages after it. The last stage is none of
/// these.
fn line_tries(parallel: &[usize]) -> u64 {
    parallel.iter().rev().fold(0, |after, links| ((1u64 << links) - 1) * (1 + after))
}

/// A line of 65,536 tries, of one more and of one fewer, network D and D with a link more, or any line that takes
/// 63,000 to 69,000 tries.
fn near_limit(r: &mut Random) -> Wiring {
    let known: [&[usize]; 5] = [&[1, 4, 2, 4, 2, 5], &[1, 1, 4, 2, 4, 2, 5], &[4, 2, 4, 2, 5], &[7, 8, 1], &[7, 8, 2]];
    if r.one_in(2) {
        let parallel = r.of(&known);
        return line_of(r, parallel);
    }
    loop {
        let mut parallel = vec![1 + r.index(7)];
        parallel.extend((0..1 + r.index(6)).map(|_| 1 + r.index(8)));
        if (63_000..69_000).contains(&line_tries(&parallel)) {
            return line_of(r, &parallel);
        }
    }
}

fn without_some_links(r: &mut Random, table: &mut [u16], most: u64) {
    for _ in 0..r.below(most + 1) {
        let i = r.index(table.len());
        table[i] = NO_LINK;
    }
}

/// Two to five layers of up to four switches, each layer joined whole to its neighbours; processors at the two outer
/// ones.
fn layers(r: &mut Random) -> Wiring {
    let (width, depth) = (1 + r.index(4), 2 + r.index(4));
    let mut table = vec![NO_LINK; 8 * width * depth];
    for layer in 0..depth {
        for i in 0..width {
            let s = layer * width + i;
            for j in 0..4 {
                match layer {
                    0 => attach(&mut table, s, 4 + j, 4 * i + j),
                    _ if j < width => link(&mut table, s, 4 + j, s - width - i + j),
                    _ => {}
                }
                match depth - 1 - layer {
                    0 => attach(&mut table, s, j, 100 + 4 * i + j),
                    _ if j < width => link(&mut table, s, j, s + width - i + j),
                    _ => {}
                }
            }
        }
    }
    without_some_links(r, &mut table, 8);
    wired(table)
}

/// One to four boards of eight chips: four with four processors each, joined to four others, whose outer ports go to 16
/// switches of a third stage, one cable from each board to each.
fn boards(r: &mut Random) -> Wiring {
    let boards = 1 + r.index(4);
    let mut table = vec![NO_LINK; 8 * (8 * boards + 16)];
    for board in 0..boards {
        for chip in 0..4 {
            let (outer, inner) = (8 * board + chip, 8 * board + 4 + chip);
            for j in 0..4 {
                attach(&mut table, outer, j, 16 * board + 4 * chip + j);
                link(&mut table, outer, 4 + j, 8 * board + 4 + j);
                link(&mut table, inner, j, 8 * board + j);
                link(&mut table, inner, 4 + j, 8 * boards + 4 * chip + j);
                link(&mut table, 8 * boards + 4 * chip + j, board, inner);
            }
        }
    }
    without_some_links(r, &mut table, 24);
    wired(table)
}

fn cube(r: &mut Random, most_digits: usize) -> Wiring {
    let digits = 1 + r.index(most_digits);
    cube_of(r, digits)
}

/// Switches joined where their numbers differ in one binary digit; two processors at each.
pub fn cube_of(r: &mut Random, digits: usize) -> Wiring {
    let mut table = vec![NO_LINK; 8 << digits];
    for s in 0..1 << digits {
        for digit in 0..digits {
            link(&mut table, s, digit, s ^ 1 << digit);
        }
        attach(&mut table, s, 6, 2 * s);
        attach(&mut table, s, 7, 2 * s + 1);
    }
    without_some_links(r, &mut table, 12);
    wired(table)
}

/// 512 entries, none without a link: 512 processors, a ring with seven parallel links, or any links and some
/// processors.
fn full(r: &mut Random) -> Wiring {
    let mut table: Vec<u16> = (0..512).map(|_| r.below(64) as u16).collect();
    match r.below(3) {
        0 => (0..64).for_each(|s| (0..8).for_each(|p| attach(&mut table, s, p, 511 - 8 * s - p))),
        1 => {
            for s in 0..64 {
                (0..7).for_each(|p| link(&mut table, s, p, (s + 1) % 64));
                attach(&mut table, s, 7, 8 * s + 7);
            }
        }
        _ => attach_anywhere(r, &mut table, 300),
    }
    wired(table)
}
